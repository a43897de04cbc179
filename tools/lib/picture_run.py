"""A schedule and its report, read together: what tools/picture draws.

`read_run` reads both texts, checks each line of the report against the schedule, and returns a
`Run`, or raises `Bad` with one sentence that names the line. Only what the two texts tell is used.
Node names are the texts' own (`c1`, `s1`); disks are `d1`.
"""
import re

NUMBER = "(0|[1-9][0-9]*)"
NODE, CLIENT, SERVER = "([cs][1-9][0-9]?)", "(c[1-9][0-9]?)", "(s[1-9][0-9]?)"
FILE, NAME = "([1-9][0-9]*:[1-9][0-9]*)", "([!-~]{1,100})"
RUNS = "([0-9]+x[0-9]+(?:,[0-9]+x[0-9]+)*)"
ASKS = [f"write {FILE} {NUMBER} {NUMBER}", f"read {FILE} {NUMBER}", f"sync {FILE}", f"cut {FILE} {NUMBER}", f"lookup {FILE} {NAME}",
        f"create {FILE} {NAME}", f"mkdir {FILE} {NAME}", f"remove {FILE} {NAME} {NUMBER}", f"rename {FILE} {NAME} {NUMBER} {NAME}",
        f"list {FILE} {NAME}", f"patch {FILE} {NUMBER} {NUMBER} {NUMBER} {NUMBER}"]
EVENTS = [re.compile(form) for form in [
    f"adv {NUMBER}(?: {NUMBER})*", f"tick {NODE}", *(f"app {CLIENT} {ask}" for ask in ASKS), f"deliver {NUMBER}", f"lose {NUMBER}",
    f"cut {NODE} {NODE}", f"heal {NODE} {NODE}", f"effect {NUMBER}", f"report {NUMBER} (ok|fail)", f"crash {NODE}", f"start {NODE}"]]
# How many words a message's body has, or the place of the count and the words that each row of a
# list has.
BODIES = {"hello": 0, "keepalive": 0, "acquire": 2, "released": 3, "map": 3, "allocate": 4, "cut": 3, "demandseen": 2, "welcome": 0,
          "ack": 0, "nack": 3, "granted": 3, "queued": 2, "demand": 3, "reasserted": 0}
ROWS = {"reassert": (0, 3), "extents": (1, 4)}
TO_SERVER = {"hello", "keepalive", "acquire", "released", "map", "allocate", "cut", "name", "reassert", "demandseen"}
OBSERVED = {name: re.compile(form) for name, form in {
    "submit": f"{NUMBER} {CLIENT} {NUMBER} {NUMBER} {NUMBER} (?:r|w {NUMBER} {NUMBER} {NUMBER} {RUNS})",
    "answer": f"{CLIENT} {NUMBER} ((?:written|hard|cut|quiesced|nofile|opsfull|dirtyfull|notholder|toomanylocks)|read {RUNS}"
              f"|(?:named|refused|diskfault) {NUMBER}|(?:nospace|uncertain) {NUMBER} {NUMBER}|listed {NUMBER}(?: [^ ]+)*"
              f"|lost {NUMBER}(?: {NUMBER}:{NUMBER})+)",
    "write": f"{NUMBER} {CLIENT} {FILE} {NUMBER} {RUNS}", "patch": f"{NUMBER} {CLIENT} {FILE} {NUMBER} {NUMBER} {RUNS}",
    "cut": f"{NUMBER} {FILE} {NUMBER}", "hard": NUMBER, "drop": f"{NUMBER} (?:crash|failed {NUMBER})",
    "lease": f"{CLIENT} {SERVER} {NUMBER}", "lost": f"{CLIENT} {SERVER} {NUMBER}", "suspect": f"{SERVER} {CLIENT} {NUMBER}",
    "steal": f"{SERVER} {CLIENT} {NUMBER}"}.items()}
END = re.compile("end events N sent N commands N writes N reads N hard N gone N stolen N".replace("N", NUMBER))
REFUSED = re.compile("line ([1-9][0-9]*) ([A-Z][A-Za-z]+)((?: [^ ]+)*)")
# How many values each refusal has, and the events that it can refuse; a refusal of the text has
# none.
REFUSALS = {"Syntax": 1, "LineTooLong": 1, "Number": 1, "NoHead": 0, "NoEnd": 0, "AfterEnd": 0, "TooMany": 1, "Config": 1,
            "NoNode": 1, "NotRunning": 1, "Running": 1, "NoMessage": 1, "LostMessage": 1, "LinkCut": 2, "NoCommand": 1, "DiskState": 1,
            "ClockRate": 2, "ClockDrift": 3, "LateDisk": 2, "FlushMissed": 2, "NetFull": 1}
REFUSES = {"NoNode": "tick app cut heal crash start", "NotRunning": "tick app deliver crash", "Running": "start",
           "NoMessage": "deliver lose", "LostMessage": "deliver lose", "LinkCut": "deliver", "NoCommand": "effect report",
           "DiskState": "effect report", "ClockRate": "adv", "ClockDrift": "adv", "LateDisk": "effect", "FlushMissed": "adv",
           "NetFull": "tick app deliver report"}


class Bad(Exception):
    """What is wrong with the input, as one sentence."""


class Message:
    """A message that was sent: by whom, at which event, and what became of it."""

    def __init__(self, number, event, sender, receiver, kind, header, body):
        self.number, self.event, self.sender, self.receiver, self.kind, self.body = number, event, sender, receiver, kind, body
        self.life, self.epoch, self.request, self.stamp = header
        self.deliveries, self.lost = [], None


class Command:
    """A disk command: whose, what, and the events of its submission, its effect and its report."""

    def __init__(self, number, event, client, own, disk, block, write, starts):
        self.number, self.event, self.client, self.own, self.disk, self.block = number, event, client, own, disk, block
        self.write, self.starts = write, starts
        self.effect = self.report = self.ok = self.told = None


class Entry:
    """An entry of the log: a write, a patch or a cut, and its fate."""

    def __init__(self, number, event, client, file, page, word, text):
        self.number, self.event, self.client, self.file, self.page, self.word, self.text = number, event, client, file, page, word, text
        self.fate = self.end = None


class Bar:
    """Something that lasts from one event's end to another's: of a node or a file, with words that
    say what.
    """

    def __init__(self, what, of, kind, start, text=""):
        self.what, self.of, self.kind, self.start, self.end, self.text, self.why = what, of, kind, start, None, text, ""


class Lease:
    """A client's lease at a server, as far as its phase needs it."""

    def __init__(self, date, life, epoch):
        self.date, self.life, self.epoch, self.condemned, self.crashed = date, life, epoch, False, False


class Run:
    """All that is drawn. Event 0 is the start; an event's line is its number and 1."""

    def __init__(self):
        self.lines, self.events, self.observed, self.clocks = [], [], [], []
        self.messages, self.commands, self.entries, self.bars, self.answers = [], [], [], [], []
        self.clients, self.servers, self.disks, self.nodes = [], [], [], []
        self.cut_at_end = {}
        self.settings, self.refused, self.last, self.said = {}, None, "", {}

    def phase(self, lease, now):
        age = now - lease.date
        for name in ("lease", "flush", "quiesce"):
            if age >= self.settings[name]:
                return "over" if name == "lease" else name
        if lease.condemned:
            return "quiesce"
        return "renewal" if age >= self.settings["renew"] else "valid"

    @property
    def wait(self):
        it = self.settings
        return -(-(it["lease"] * it["num"] + it["den"] * it["grain"]) // it["den"])


def lines_of(path):
    """Returns a file's lines, or says that it can't be read."""
    try:
        with open(path, "rb") as it:
            text = it.read()
    except OSError as error:
        raise Bad(f"{path} can't be read: {error.strerror}.") from None
    lines = text.decode("latin-1").split("\n")
    return lines[:-1] if lines[-1] == "" else lines


def read_head(run, words):
    """Takes the settings and the nodes from the head's words."""
    names = ["lease", "renew", "quiesce", "flush", "demand", "retry", "num", "den"] + (["grain"] if words[1:2] == ["2"] else [])
    values = words[2:]
    if words[:1] != ["tank"] or words[1:2] not in (["1"], ["2"]) or len(values) != len(names) + 4 or not all(re.fullmatch(NUMBER, v) for v in values):
        return False
    numbers = list(map(int, values))
    run.settings = {"grain": 0, "form": int(words[1]), **dict(zip(names, numbers))}
    clients, servers, disks, run.blocks = numbers[len(names):]
    if not (1 <= clients <= 16 and 1 <= servers <= 4 and servers <= disks <= 8 and run.settings["den"] > 0):
        return False
    run.clients, run.servers, run.disks = ([f"{letter}{n}" for n in range(1, count + 1)]
                                           for letter, count in (("c", clients), ("s", servers), ("d", disks)))
    run.nodes = run.clients + run.servers
    return True


def read_report(path, lines):
    """Returns the observations by event, and the last line; refuses a line that isn't a report's.
    """
    if not lines:
        raise Bad(f"{path} is empty, and a report has at least a last line.")
    first = 1 if lines[0] == "tank report 1" else 0
    observed = {}
    last = 0
    for at, line in enumerate(lines[first:-1], first + 1):
        number, _, text = line.partition(" ")
        if not first or not re.fullmatch("[1-9][0-9]*", number) or not is_observation(text):
            raise Bad(f"{path}: line {at} isn't a line of a report: {line[:80]}")
        if int(number) < last:
            raise Bad(f"{path}: line {at} goes back to event {number}: {line[:80]}")
        last = int(number)
        observed.setdefault(last, []).append((at, text))
    refused = REFUSED.fullmatch(lines[-1])
    if not (first and END.fullmatch(lines[-1])) and not (refused and REFUSALS.get(refused[2]) == len(refused[3].split())):
        raise Bad(f"{path}: line {len(lines)} isn't the last line of a report: {lines[-1][:80]}")
    return bool(first), observed, lines[-1]


def is_observation(text):
    word, _, rest = text.partition(" ")
    if word != "send":
        return word in OBSERVED and bool(OBSERVED[word].fullmatch(rest))
    words = rest.split(" ")
    if len(words) < 8 or not re.fullmatch(NODE, words[1]) or not re.fullmatch(NODE, words[2]):
        return False
    kind, body = words[3], words[8:]
    if not all(re.fullmatch(NUMBER, word) for word in words[:1] + words[4:8]):
        return False
    if kind in ROWS:
        at, width = ROWS[kind]
        return len(body) > at and all(re.fullmatch(NUMBER, word) for word in body) and len(body) == at + 1 + width * int(body[at])
    if kind in BODIES:
        return len(body) == BODIES[kind] and all(re.fullmatch(NUMBER, word) for word in body)
    return kind in ("name", "named") and len(body) >= 2


def read_run(schedule_path, report_path, report_lines=None):
    """Returns the run that the two files tell."""
    lines = lines_of(schedule_path)
    report = lines_of(report_path) if report_lines is None else report_lines
    headed, observed, last = read_report(report_path, report)
    run = Run()
    run.lines, run.last = lines, last
    refused = REFUSED.fullmatch(last)
    stop = int(refused[1]) if refused else len(lines)
    foreign = f"{report_path} does not belong to {schedule_path}: "
    if headed and (not lines or not read_head(run, lines[0].split(" "))):
        raise Bad(foreign + f"it begins as after a good head, and line 1 of the schedule is none: {(lines or [''])[0][:80]}")
    if not headed and stop != 1:
        raise Bad(foreign + f"its last line speaks of line {stop}, and it has no first line 'tank report 1'.")
    if headed and stop == 1:
        raise Bad(foreign + "its last line refuses the head that its first line accepts.")
    missing = stop == len(lines) + 1 and refused[2] in ("NoEnd", "NoHead")
    if refused and not 1 <= stop <= len(lines) and not missing:
        raise Bad(foreign + f"its last line speaks of line {stop}, and the schedule has {len(lines)} lines.")
    if refused:
        run.refused = stop, refused[2], refused[3].split(), lines[stop - 1] if stop <= len(lines) else ""
    walk = Walk(run, foreign)
    if headed:
        walk.begin()
        body = lines[1:stop - 1] if refused else lines[1:]
        if not refused and (not body or body.pop() != "end"):
            raise Bad(foreign + "it says that the run reached its end, but the schedule's last line is not 'end'.")
        if refused and refused[2] == "AfterEnd" and body and body[-1] == "end":
            body.pop()
        for at, line in enumerate(body, 2):
            if not any(form.fullmatch(line) for form in EVENTS):
                raise Bad(foreign + f"it goes on after line {at} of the schedule, which isn't an event: {line[:80]}")
            walk.event(line.split(" "), observed.pop(at - 1, []))
        for event in observed:
            at, text = observed[event][0]
            raise Bad(foreign + f"its line {at} speaks of event {event}, and {len(body)} events happened: {text[:80]}")
    walk.finish(foreign)
    return run


class Walk:
    """Goes through the events with what the report tells of each, and puts down what is drawn."""

    def __init__(self, run, foreign):
        self.run, self.foreign = run, foreign
        self.leases, self.open, self.asks, self.starts, self.epochs = {}, {}, {}, {}, {}
        self.rows, self.timers, self.graces, self.cuts, self.down = {}, {}, {}, {}, {}
        self.outstanding, self.pending, self.answered = {}, {}, set()
        self.counts = dict.fromkeys(("writes", "reads", "hard", "gone", "stolen"), 0)

    def begin(self):
        run = self.run
        run.clocks.append({**{c: 0 for c in run.clients}, **{s: 1000 * int(s[1:]) for s in run.servers}})
        run.events.append(("head",))
        run.observed.append([])
        self.starts = dict.fromkeys(run.nodes, 0)
        self.epochs = dict.fromkeys(run.servers, 1)
        self.asks = {c: [] for c in run.clients}

    def wrong(self, why):
        return Bad(self.foreign + f"line {self.now + 1} of the schedule is '{' '.join(self.words)[:80]}', {why}")

    def need(self, holds, why):
        if not holds:
            raise self.wrong(why)

    def say(self, text):
        """Puts down what follows from an event and no line of the report says."""
        self.run.said.setdefault(self.now, []).append(text)

    # Bars.

    def set_bar(self, what, of, kind, text=""):
        """From this event on the bar of this place is of this kind; with no kind it ends."""
        key = what, of
        old = self.open.get(key)
        if old is not None and (old.kind, old.text) == (kind, text):
            return
        if old is not None:
            self.end_bar(what, of, "")
        if kind is not None:
            self.open[key] = Bar(what, of, kind, self.now, text)

    def end_bar(self, what, of, why):
        bar = self.open.pop((what, of), None)
        if bar is not None:
            bar.end, bar.why = self.now, why
            if bar.end > bar.start:
                self.run.bars.append(bar)

    # Events.

    def event(self, words, told):
        run = self.run
        self.now, self.words = len(run.events), words
        run.events.append(tuple(words))
        run.observed.append([text for _, text in told])
        run.clocks.append(run.clocks[-1])
        actor, received, kinds = self.happen(words)
        self.clock = run.clocks[-1].get(actor)
        if actor in run.servers:
            self.server_begins(actor)
        if received is not None and actor in run.clients and not any(text.startswith("lost ") for _, text in told):
            self.client_receives(actor, received)
        self.received = received
        for at, text in told:
            self.line = at
            word, *rest = text.split(" ")
            self.told(word in kinds and (kinds is not NODES or self.by(actor, word, rest)), at, text)
            getattr(self, "see_" + word)(actor, *rest)
        if received is not None and actor in run.servers:
            self.server_received(actor, received, [text.split(" ") for _, text in told])
        self.phases()

    def told(self, holds, at, text):
        if not holds:
            raise Bad(self.foreign + f"its line {at} can't come from line {self.now + 1} of the schedule, '{' '.join(self.words)[:60]}': {text[:80]}")

    def by(self, actor, word, rest):
        """Whether the node that steps can be the source of this observation."""
        source = {"send": 1, "submit": 1, "answer": 0, "write": 1, "patch": 1, "lease": 0, "lost": 0, "suspect": 0, "steal": 0}.get(word)
        if actor is None:
            return False
        return actor in self.run.servers if source is None else rest[source] == actor

    def happen(self, words):
        """Applies the event itself; returns the node that steps, the message that it receives, and
        the observations that may come.
        """
        return getattr(self, "do_" + words[0])(*words[1:])

    def node(self, name, running=True):
        self.need(name in self.run.nodes, "and there is no such node.")
        self.need((name not in self.down) == running, f"and {name} {'does not run' if running else 'runs'} then.")
        return name

    def do_adv(self, *steps):
        run = self.run
        steps = [int(step) for step in steps]
        self.need(len(steps) in (1, len(run.nodes)), f"and there are {len(run.nodes)} nodes.")
        it = run.settings
        self.need(it["form"] == 2 or it["den"] * max(steps) <= it["num"] * min(steps) and min(steps) > 0, "which is out of the rate bound.")
        steps = steps * len(run.nodes) if len(steps) == 1 else steps
        run.clocks[-1] = {node: run.clocks[-1][node] + step for node, step in zip(run.nodes, steps)}
        return None, None, {"drop"}

    def do_tick(self, node):
        return self.node(node), None, NODES

    def do_app(self, client, *ask):
        self.asks[self.node(client)].append((self.now, ask))
        return client, None, NODES

    def message(self, number):
        self.need(1 <= int(number) <= len(self.run.messages), f"and {len(self.run.messages)} messages were sent before it.")
        message = self.run.messages[int(number) - 1]
        self.need(message.lost is None, "and that message is lost.")
        return message

    def do_deliver(self, number):
        message = self.message(number)
        self.need((message.sender, message.receiver) not in self.cuts, f"and {message.sender} to {message.receiver} is cut.")
        self.node(message.receiver)
        message.deliveries.append(self.now)
        return message.receiver, message, NODES

    def do_lose(self, number):
        self.message(number).lost = self.now
        return None, None, ()

    def do_cut(self, one, other):
        self.need(one in self.run.nodes and other in self.run.nodes, "and there is no such node.")
        if (one, other) not in self.cuts:
            self.cuts[one, other] = self.now
            self.set_bar("cut", (one, other), "cut")
        return None, None, ()

    def do_heal(self, one, other):
        self.need(one in self.run.nodes and other in self.run.nodes, "and there is no such node.")
        if self.cuts.pop((one, other), None) is not None:
            self.end_bar("cut", (one, other), "healed")
        return None, None, ()

    def command(self, number):
        self.need(1 <= int(number) <= len(self.run.commands), f"and {len(self.run.commands)} commands were submitted before it.")
        command = self.run.commands[int(number) - 1]
        self.need(command.report is None, "and that command was reported before.")
        return command

    def do_effect(self, number):
        command = self.command(number)
        self.need(command.effect is None, "and that command had its effect before.")
        command.effect = self.now
        return None, None, {"hard"}

    def do_report(self, number, how):
        command = self.command(number)
        self.need(how == "fail" or command.effect is not None, "and that command had no effect.")
        command.report, command.ok = self.now, how == "ok"
        command.told = command.client not in self.down and self.starts[command.client] == command.starts
        return command.client if command.told else None, None, NODES

    def do_crash(self, node):
        self.down[self.node(node)] = self.now
        self.set_bar("down", node, "down")
        if node in self.run.servers:
            self.end_bar("grace", node, "stopped")
            self.graces.pop(node, None)
            for client in self.run.clients:
                if self.timers.pop((node, client), None) is not None:
                    self.end_bar("timer", (node, client), "stopped")
            for key in [key for key in self.rows if key[0] == node]:
                self.end_row(key, "its server stopped")
        for (client, server), lease in self.leases.items():
            lease.crashed = lease.crashed or client == node
        return None, None, {"drop"}

    def do_start(self, node):
        del self.down[self.node(node, running=False)]
        self.end_bar("down", node, "started")
        self.starts[node] += 1
        if node in self.run.servers:
            self.epochs[node] += 1
            self.graces[node] = self.run.clocks[-1][node]
            self.set_bar("grace", node, "grace", str(self.graces[node] + self.run.wait))
        for server in self.run.servers if node in self.run.clients else ():
            self.leases.pop((node, server), None)
            self.outstanding.pop((node, server), None)
        return None, None, ()

    # What a node does with what it receives.

    def server_begins(self, server):
        """Grace ends at the first step for which its time is over."""
        if server in self.graces and self.clock >= self.graces[server] + self.run.wait:
            del self.graces[server]
            self.end_bar("grace", server, "over")

    def client_receives(self, client, message):
        """A refusal may condemn the lease or tell a newer epoch; a reply ends the outstanding
        request.
        """
        key = client, message.sender
        lease = self.leases.get(key)
        if lease is None or lease.life != message.life:
            return
        why = int(message.body[0]) if message.kind == "nack" else 0
        if why == 3 and message.epoch > lease.epoch:
            if not lease.condemned:
                lease.epoch = message.epoch
                self.say(f"{client} learns that {message.sender} is in epoch {lease.epoch}: it has to reassert its locks")
                self.outstanding.pop(key, None)
            return
        if message.epoch != lease.epoch or why in (3, 4):
            return
        request = self.outstanding.get(key)
        if why in (1, 2, 5, 6) or why and request == (message.request, "reassert"):
            if not lease.condemned:
                self.say(f"{client} learns that its lease at {message.sender} is condemned: it asks for nothing new there")
            lease.condemned = True
        elif request is not None and request[0] == message.request and message.kind not in ("demand", "welcome"):
            del self.outstanding[key]

    def server_received(self, server, message, told):
        """A release that is acknowledged lowers the row of its grant; a reassertion that is
        acknowledged brings its rows.
        """
        kinds = [rest[3] for word, *rest in told if word == "send" and rest[2] == message.sender and rest[6] == str(message.request)]
        if message.kind == "released" and "ack" in kinds:
            ino, grant, to = message.body
            key = server, message.sender, ino
            if self.rows.get(key, ("", "", 0))[1:] == (grant, message.life):
                if to == "0":
                    self.end_row(key, "released")
                else:
                    self.put_row(key, "1", grant, message.life)
        if message.kind == "reassert" and "reasserted" in kinds:
            for at in range(1, len(message.body), 3):
                ino, grant, mode = message.body[at:at + 3]
                if (server, message.sender, ino) not in self.rows:
                    self.say(f"{server} takes up the lock that {message.sender} had on {server[1:]}:{ino}")
                    self.put_row((server, message.sender, ino), mode, grant, message.life)

    def put_row(self, key, mode, grant, life):
        server, client, ino = key
        self.rows[key] = mode, grant, life
        self.set_bar("lock", (f"{server[1:]}:{ino}", client), "X" if mode == "2" else "S", grant)

    def end_row(self, key, why):
        server, client, ino = key
        del self.rows[key]
        self.end_bar("lock", (f"{server[1:]}:{ino}", client), why)

    # Observations.

    def see_send(self, actor, number, sender, receiver, kind, *rest):
        run = self.run
        self.told(int(number) == len(run.messages) + 1 and receiver in run.nodes and (sender in run.clients) == (kind in TO_SERVER)
                  and (receiver in run.servers) == (kind in TO_SERVER), self.line, f"send {number} {sender} {receiver} {kind}")
        message = Message(int(number), self.now, sender, receiver, kind, tuple(map(int, rest[:4])), rest[4:])
        run.messages.append(message)
        if kind in TO_SERVER and message.request:
            self.outstanding[sender, receiver] = message.request, kind
        if kind == "granted":
            ino, grant, mode = message.body
            if self.rows.get((sender, receiver, ino), ("", ""))[1] != grant:
                self.put_row((sender, receiver, ino), mode, grant, message.life)

    def see_submit(self, client, number, _, own, disk, block, word, *rest):
        run = self.run
        self.told(int(number) == len(run.commands) + 1 and f"d{disk}" in run.disks and int(block) < run.blocks, self.line, f"submit {number} {client}")
        write = None
        if word == "w":
            write = f"{1 + (int(disk) - 1) % len(run.servers)}:{rest[0]}", int(rest[1]), rest[3]
        run.commands.append(Command(int(number), self.now, client, int(own), f"d{disk}", int(block), write, self.starts[client]))

    def see_answer(self, client, _, op, *text):
        self.told(1 <= int(op) <= len(self.asks[client]) and (client, op) not in self.answered, self.line, f"answer {client} {op} {' '.join(text)}")
        self.answered.add((client, op))
        self.counts["reads"] += text[0] == "read"
        self.run.answers.append((self.now, client, int(op), self.asks[client][int(op) - 1], text))

    def add_entry(self, number, client, file, page, word, text):
        self.told(int(number) == len(self.run.entries) + 1, self.line, f"{word} {number}")
        self.run.entries.append(Entry(int(number), self.now, client, file, int(page), word, text))

    def see_write(self, actor, number, client, file, page, runs):
        self.told(any(ask[:3] == ("write", file, page) and f"4096x{ask[3]}" == runs for _, ask in self.asks[client]), self.line, f"write {number} {client} {file} {page} {runs}")
        self.add_entry(number, client, file, page, "write", runs)
        self.counts["writes"] += 1

    def see_patch(self, actor, number, client, file, page, at, runs):
        self.told(any(ask[:4] == ("patch", file, page, at) and f"{ask[4]}x{ask[5]}" == runs for _, ask in self.asks[client]), self.line, f"patch {number} {client} {file} {page}")
        self.add_entry(number, client, file, page, "patch", f"{runs} at {at}")
        self.counts["writes"] += 1

    def see_cut(self, server, number, file, page):
        self.told(file.split(":")[0] == server[1:], self.line, f"cut {number} {file}")
        self.add_entry(number, None, file, page, "cut", "")

    def fate(self, number, word):
        entries = self.run.entries
        self.told(1 <= int(number) <= len(entries) and entries[int(number) - 1].client and entries[int(number) - 1].fate is None, self.line, f"{word} {number}")
        entries[int(number) - 1].fate, entries[int(number) - 1].end = word, self.now
        self.counts["hard" if word == "hard" else "gone"] += 1

    def see_hard(self, _, number):
        self.fate(number, "hard")

    def see_drop(self, _, number, *cause):
        self.fate(number, "drop " + " ".join(cause))

    def see_lease(self, client, _, server, end):
        message = self.received
        self.told(message is not None and message.sender == server and message.stamp + self.run.settings["lease"] == int(end), self.line, f"lease {client} {server} {end}")
        lease = self.leases.get((client, server))
        if message.kind == "welcome":
            lease = self.leases[client, server] = Lease(message.stamp, message.life, message.epoch)
            self.outstanding.pop((client, server), None)
        self.told(lease is not None, self.line, f"lease {client} {server} {end}")
        lease.date = message.stamp

    def see_lost(self, client, _, server, life):
        self.told((client, server) in self.leases, self.line, f"lost {client} {server} {life}")
        del self.leases[client, server]
        self.outstanding.pop((client, server), None)
        self.end_bar("lease", (client, server), "lost")

    def see_suspect(self, server, _, client, start):
        self.told(client in self.run.clients and int(start) == self.clock and (server, client) not in self.timers, self.line, f"suspect {server} {client} {start}")
        self.timers[server, client] = int(start)
        self.set_bar("timer", (server, client), "timer", str(int(start) + self.run.wait))

    def see_steal(self, server, _, client, life):
        self.told((server, client) in self.timers, self.line, f"steal {server} {client} {life}")
        del self.timers[server, client]
        self.end_bar("timer", (server, client), "stolen")
        self.counts["stolen"] += 1
        for key in [key for key in self.rows if key[:2] == (server, client)]:
            self.end_row(key, "stolen")

    # Phases.

    def phases(self):
        """Each lease's bar has the phase in which this event left it. For a client that stopped it
        goes on, marked, until its end.
        """
        clocks = self.run.clocks[-1]
        for key in {**self.leases, **{of: None for what, of in self.open if what == "lease"}}:
            lease = self.leases.get(key)
            phase = None if lease is None else self.run.phase(lease, clocks[key[0]])
            if lease is not None and lease.crashed:
                phase = None if phase == "over" else "stopped"
            self.set_bar("lease", key, phase)

    def finish(self, foreign):
        run = self.run
        self.now = len(run.events)
        for what, of in list(self.open):
            self.end_bar(what, of, "")
        run.cut_at_end = self.cuts
        if run.refused is None:
            counts = {"events": len(run.events) - 1, "sent": len(run.messages), "commands": len(run.commands), **self.counts}
            line = "end " + " ".join(f"{name} {counts[name]}" for name in ("events", "sent", "commands", "writes", "reads", "hard", "gone", "stolen"))
            if line != run.last:
                raise Bad(foreign + f"its last line is '{run.last}', and its lines count up to '{line}'.")
            return
        self.words = run.refused[3].split(" ")
        _, name, values, text = run.refused
        if name in REFUSES:
            named = any(form.fullmatch(text) for form in EVENTS) and text.split(" ")[0] in REFUSES[name].split()
            numbered = name not in ("NoMessage", "LostMessage", "NoCommand", "DiskState") or values[0] == self.words[1]
            if not named or not numbered:
                raise Bad(foreign + f"its last line is '{run.last}', and that can't refuse '{text[:80]}'.")


NODES = {"send", "submit", "answer", "write", "patch", "cut", "lease", "lost", "suspect", "steal"}
