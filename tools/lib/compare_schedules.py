"""Random hostile schedules, driven by the world of reference/, and mutated lines of schedules:
tools/compare gives them to the program.
"""
import comparing  # noqa: F401  (it makes reference/ known)
from reference import wire
from reference.clocks import steal_wait
from reference.report import observation_text, refusal_text, summary_text
from reference.schedule import event_line, read_head, LineRefused
from reference.settings import Settings, settings_refusal
from reference.world import World

PAGE = wire.WHOLE_PAGE
POOL = [b"a", b"b", b"c", b"d", b"e", b"x.y", b"Z_-", b".", b"..", b"-", b"f2", b"f3", b"f4", b"f9", b"bad/name", b"!", b"n" * 64,
        b"n" * 65, b"~" * 100]

MOODS = {
    #          app  old rnd past lose cut heal eff  ok fail tick jump adv drift crash start
    "calm":   (22, 60, 4,  1,   0,   0,  12, 14, 14, 0,   8,  1,   2,  1,    0,    12),
    "busy":   (40, 60, 6,  1,   0,   0,  12, 12, 12, 1,   8,  1,   1,  1,    0,    12),
    "full":   (50, 70, 2,  0,   0,   0,  2,  3,  3,  0,   4,  0,   0,  0,    0,    3),
    "contend": (30, 22, 26, 4,  1,   0,   3,  14, 14, 1,   14, 6,   3,  1,    0.1,  4),
    "restart": (22, 32, 14, 6,  1,   0,   3,  12, 12, 2,   12, 6,   3,  1,    1.5,  9),
    "storm":  (15, 12, 15, 10,  6,   4,  6,  8,  6,  4,   12, 4,   4,  3,    0.5,  3),
    "time":   (8,  20, 5,  3,   1,   1,  2,  6,  5,  3,   25, 22,  4,  4,    0.2,  2),
    "silent": (14, 12, 3,  2,   10,  8,  1,  6,  5,  3,   20, 14,  6,  3,    0.3,  1),
    "fail":   (18, 30, 4,  2,   1,   0,  3,  5,  3,  14,  14, 8,   3,  2,    0.2,  2),
    "crash":  (15, 22, 8,  6,   2,   1,  3,  8,  5,  3,   10, 5,   3,  2,    4,    9),
    "late":   (10, 6,  8,  30,  1,   1,  3,  5,  5,  3,   12, 8,   3,  2,    1,    4),
}
KINDS = ("app", "old", "rnd", "past", "lose", "cut", "heal", "eff", "ok", "fail", "tick", "jump", "adv", "drift", "crash", "start")


def filling_head(rng):
    """A head with room for many pages."""
    form = rng.choice((1, 2))
    return f"tank {form} 10000 5000 7000 8500 1000 500 101 100 {'5 ' if form == 2 else ''}{rng.randint(1, 3)} {rng.choice((1, 2))} 2 4096"


def contended_head(rng):
    """A head of several clients, with settings under which leases last for some while."""
    form = rng.choice((1, 2))
    clients, servers = rng.randint(2, 5), rng.choice((1, 1, 2))
    lease = rng.choice((200, 1000, 1000))
    demand, retry = rng.choice(((lease // 10, lease // 20), (lease // 2, lease // 20), (lease // 50, lease // 100), (lease, lease // 4)))
    tail = f"{clients} {servers} 2 64"
    return f"tank {form} {lease} {lease // 2} {lease * 7 // 10} {lease * 85 // 100} {demand} {retry} 101 100 {'5 ' if form == 2 else ''}{tail}"


def random_head(rng):
    """A head that holds, of small or of odd settings."""
    form = 1 if rng.random() < 0.45 else 2
    while True:
        lease = rng.choice((20, 100, 100, 1000, 1000, 1000, 10000, rng.randint(10, 3000)))
        renew = rng.randint(1, max(1, lease * 6 // 10))
        quiesce = rng.randint(renew + 1, max(renew + 1, lease * 8 // 10))
        flush = rng.randint(quiesce + 1, max(quiesce + 1, lease - 1))
        if rng.random() < 0.6:
            renew, quiesce, flush = lease // 2, lease * 7 // 10, lease * 85 // 100
        demand = rng.randint(1, lease) if rng.random() < 0.5 else max(1, lease // 10)
        retry = rng.randint(1, demand) if rng.random() < 0.5 else max(1, demand // 2)
        den = rng.choice((1, 1, 3, 100, 100, 1000))
        num = den + rng.choice((0, 0, 1, 1, den // 10, den, 3 * den))
        grain = 0 if form == 1 else rng.choice((0, 1, 2, rng.randint(0, lease), lease // 10))
        settings = Settings(lease, renew, quiesce, flush, demand, retry, num, den, grain)
        if settings_refusal(settings) is None:
            break
    clients = rng.choice((1, 2, 2, 2, 3, 3, 3, 4, 5, 16))
    servers = rng.choice((1, 1, 1, 2, 2, 3, 4))
    disks = rng.randint(servers, 8) if rng.random() < 0.4 else servers
    blocks = rng.choice((1, 2, 3, 8, 64, 64, 64, 4096))
    numbers = list(settings[:8]) + ([grain] if form == 2 else []) + [clients, servers, disks, blocks]
    return f"tank {form} " + " ".join(map(str, numbers))


class Driver:
    """Draws events for a world, with some knowledge of what may come next."""

    def __init__(self, rng, head_line, weird=0.02, profile=None, forms=(1, 2)):
        self.rng, self.head_line = rng, head_line
        self.head = read_head(head_line.encode(), forms)
        self.world = World(self.head)
        self.lines = [head_line]
        self.parts = ["tank report 1\n"]
        self.undelivered = []
        self.commands = []
        self.mood = "calm"
        self.mood_left = rng.randint(20, 120)
        self.nodes = [c.number for c in self.world.clients] + [s.node for s in self.world.servers]
        self.hot = [(rng.randint(1, self.head.servers), rng.randint(2, 9)) for _ in range(rng.choice((1, 1, 2, 3, 5)))]
        self.pages = rng.choice((1, 2, 4, 4, 8, 80, 400))
        self.name_rate = rng.choice((0, 0.02, 0.05, 0.1, 0.3))
        self.weird = weird
        usual = [mood for mood in MOODS if mood not in ("full", "contend", "restart")]
        self.moods = rng.sample(usual, rng.randint(2, len(usual)))
        self.kinds = {}
        self.asked = {}
        self.broken = []
        self.wait = steal_wait(self.head.settings)
        self.haste = rng.choice((0.03, 0.1, 0.3, 1))
        if profile == "fill":
            self.fill()
        elif profile in ("contend", "restart"):
            self.hot = self.hot[: rng.choice((1, 1, 2))]
            self.pages, self.name_rate, self.haste = rng.choice((1, 2)), rng.choice((0, 0.02, 0.08)), rng.choice((0.1, 0.3, 1))
            self.moods = [profile, profile, "busy", rng.choice(usual)]
        self.profile = profile
        self.set_mood("calm")

    def fill(self):
        """A schedule of many pages of one or two files: limits of dirty and of clean pages."""
        self.hot = self.hot[: self.rng.randint(1, 2)]
        self.pages, self.name_rate, self.haste = self.rng.choice((100, 300)), 0, 0.01
        self.moods = ["full", "full", "busy", "calm", "time"]

    def set_mood(self, mood):
        self.mood = mood
        self.weights = [
            weight * self.rng.uniform(0.3, 1.7) * (self.haste if kind in ("jump", "adv", "drift") else 1)
            for kind, weight in zip(KINDS, MOODS[mood])
        ]
        self.mood_left = self.rng.randint(5, 90)

    # Candidates

    def file(self):
        rng = self.rng
        if rng.random() < 0.85:
            place = rng.randrange(len(self.hot))
            server, ino = self.hot[place]
            names = self.world.servers[server - 1].names
            if not names.is_file(ino) and rng.random() < 0.3:
                self.hot[place] = (server, rng.choice([of for of, entry in names.by_ino.items() if not entry.is_directory] or [2]))
            return self.hot[place]
        server = rng.randint(1, self.head.servers)
        if rng.random() < 0.5:
            return server, rng.randint(2, 9)
        inos = list(self.world.servers[server - 1].names.by_ino)
        if inos and rng.random() < 0.8:
            return server, rng.choice(inos)
        return rng.choice((server, server + 1, 65535)), rng.choice((1, 10, 11, 12, rng.randint(1, 4294967295)))

    def page(self):
        return self.rng.randrange(self.pages) if self.rng.random() > self.weird else self.rng.choice((1048575, 1048574, 5))

    def directory(self, server):
        rng = self.rng
        if server <= self.head.servers and rng.random() < 0.4:
            names = self.world.servers[server - 1].names
            directories = [ino for ino, entry in names.by_ino.items() if entry.is_directory]
            if directories:
                return rng.choice(directories)
        return 1 if rng.random() < 0.9 else rng.choice((2, 10, 11, 99, 4294967295))

    def name_ask(self):
        rng = self.rng
        server = rng.choice(self.hot)[0] if rng.random() < 0.8 else rng.randint(1, self.head.servers)
        directory, name = self.directory(server), rng.choice(POOL)
        op = rng.choice((1, 2, 2, 2, 3, 3, 4, 4, 4, 4, 5, 5, 6))
        if op in (1, 4, 5) and rng.random() < 0.75:
            names = self.world.servers[server - 1].names
            entries = list(names.by_ino.values())
            if entries:
                hot = rng.choice(self.hot)
                entry = names.by_ino[hot[1]] if hot[0] == server and hot[1] in names.by_ino and rng.random() < 0.5 else rng.choice(entries)
                directory, name = entry.directory, entry.name
                if op == 4:
                    ino = 0 if entry.is_directory else entry.ino
                    if rng.random() < 0.2:
                        ino = rng.choice((0, entry.ino, 2, 77))
                    return "name", server, (4, directory, name, ino)
        if op == 6:
            after = b"" if rng.random() < 0.6 else rng.choice([n for n in POOL if n != b"-"])
            return "name", server, (6, directory, after)
        if op == 4:
            return "name", server, (4, directory, name, rng.choice((0, rng.randint(2, 9))))
        if op == 5:
            return "name", server, (5, directory, name, self.directory(server), rng.choice(POOL))
        return "name", server, (op, directory, name)

    def ask(self):
        rng = self.rng
        if rng.random() < self.name_rate:
            return self.name_ask()
        file = self.file()
        if self.mood == "full" and rng.random() < 0.9:
            return "write", file, self.page(), bytes((rng.randrange(256),)) * PAGE
        kind = rng.choice(("write", "write", "write", "write", "read", "read", "read", "sync", "cut" if rng.random() < 0.4 else "write",
                           "patch" if self.head.form == 2 else "read"))
        if kind == "sync":
            return "sync", file
        page = self.page()
        if kind == "write":
            return "write", file, page, bytes((rng.randrange(256),)) * PAGE
        if kind == "patch":
            at = rng.choice((0, 1, 4095, rng.randrange(PAGE)))
            length = rng.choice((1, PAGE - at, rng.randint(1, PAGE - at)))
            return "patch", file, page, at, bytes((rng.randrange(256),)) * length
        return kind, file, page

    def moments(self):
        """How far the clocks are from what happens next somewhere."""
        world, s = self.world, self.head.settings
        deltas = []
        for client in world.clients:
            clock = world.clocks[client.number - 1]
            for association in client.associations:
                session = association.session
                if association.greeted is not None:
                    deltas.append(association.greeted + s.retry - clock)
                if session is None:
                    continue
                ends = (s.renew, s.renew, s.quiesce, s.flush, s.flush) + ((s.lease,) if self.mood != "calm" else ())
                deltas += [session.date + at - clock for at in ends]
                if session.request is not None:
                    deltas.append(session.request.sent + s.retry - clock)
                deltas += [wait[1] + s.retry - clock for wait in session.waits.values()]
        for (client, server, life), (end, crashed) in list(world.ended.items())[-3:]:
            if end is not None:
                deltas.append(end - world.clocks[client - 1])
        for server in world.servers:
            clock = world.clock(server.node)
            deltas += [start + self.wait - clock for start in server.timers.starts.values()]
            if server.grace.start is not None:
                deltas.append(server.grace.start + self.wait - clock)
            for rows in server.locks.rows.values():
                for row in rows.values():
                    if row.demand is not None:
                        deltas.append(row.demand.sent + s.retry - clock)
                        if row.demand.since is not None:
                            deltas.append(row.demand.since + s.demand - clock)
        return [delta for delta in deltas if delta > 0]

    def drifting(self):
        """Increments that differ."""
        rng, s = self.rng, self.head.settings
        count = len(self.nodes)
        if self.head.form == 1:
            least = rng.choice((1, 10, 100, 100, rng.randint(1, 500)))
            greatest = max(least, s.num * least // s.den)
            greatest = min(greatest, least * 3)
            return tuple(rng.choice((least, greatest, rng.randint(least, greatest))) for _ in range(count))
        least = rng.choice((0, 0, 1, rng.randint(0, max(1, s.lease // 10))))
        spread = rng.choice((0, 1, 2, s.grain, max(1, s.grain // 2)))
        return tuple(least + rng.choice((0, spread, rng.randint(0, spread))) for _ in range(count))

    def candidate(self):
        """An event by the mood's weights, or None if there is none of the kind that was drawn."""
        kind = self.rng.choices(KINDS, self.weights)[0]
        if kind == "app":
            return self.an_ask()
        if kind in ("old", "rnd", "past", "lose"):
            return self.a_message(kind)
        if kind in ("cut", "heal"):
            return self.a_link(kind)
        if kind in ("eff", "ok", "fail"):
            return self.a_command(kind)
        if kind == "tick":
            return "tick", self.rng.choice(self.nodes)
        if kind in ("jump", "adv", "drift"):
            return self.an_advance(kind)
        return self.a_restart(kind)

    def an_ask(self):
        rng, world = self.rng, self.world
        if self.mood == "full":
            client = 1 if rng.random() < 0.9 else rng.randint(1, len(world.clients))
            return ("app", client, self.ask()) if len(world.clients[client - 1].operations) < 4 else None
        client = rng.randint(1, len(world.clients))
        if len(world.clients[client - 1].operations) > 5 and rng.random() < 0.9:
            return "tick", client
        return "app", client, self.ask()

    def a_message(self, kind):
        rng, world = self.rng, self.world
        if kind == "past":
            if not world.messages:
                return None
            top = len(world.messages)
            return "deliver", rng.randint(max(1, top - rng.choice((4, 12, 60, top))), top)
        if not self.undelivered:
            return None
        if kind == "lose":
            return "lose", rng.choice(self.undelivered)
        if kind == "old":
            return "deliver", self.undelivered[min(len(self.undelivered) - 1, rng.choice((0, 0, 0, 1)))]
        return "deliver", rng.choice(self.undelivered)

    def a_link(self, kind):
        rng, world = self.rng, self.world
        if kind == "heal" and not world.links_cut and rng.random() < 0.95:
            return None
        one, other = rng.choice(self.nodes), rng.choice(self.nodes)
        if kind == "heal" and world.links_cut and rng.random() < 0.9:
            return "heal", *rng.choice(sorted(world.links_cut))
        return kind, one, other

    def a_command(self, kind):
        if not self.commands:
            return None
        number = self.commands[0] if self.rng.random() < 0.5 else self.rng.choice(self.commands)
        return ("effect", number) if kind == "eff" else ("report", number, kind == "ok")

    def an_advance(self, kind):
        rng, settings = self.rng, self.head.settings
        low = 1 if self.head.form == 1 else 0
        if kind == "drift":
            return "adv", self.drifting()
        if kind == "adv":
            delta = rng.choice((low, 1, rng.randint(1, max(1, settings.retry)), rng.randint(1, max(1, settings.lease // 3))))
            return "adv", (delta,) * len(self.nodes)
        deltas = self.moments()
        if not deltas:
            return None
        delta = min(deltas) if rng.random() < 0.5 else rng.choice(deltas)
        delta += rng.choice((-1, 0, 0, 0, 0, 1))
        return ("adv", (delta,) * len(self.nodes)) if delta >= low else None

    def a_restart(self, kind):
        rng, world = self.rng, self.world
        if kind == "crash":
            return "crash", rng.choice(self.nodes[len(world.clients) :] if self.mood == "restart" and rng.random() < 0.8 else self.nodes)
        stopped = [node for node in self.nodes if not world.node(node).running]
        return ("start", rng.choice(stopped)) if stopped else None

    # The run

    def happen(self, event):
        """An admissible event happens; its line and its report's lines are kept."""
        world = self.world
        self.lines.append(event_line(event))
        if event[0] == "app":
            self.asked[event[1], world.asks[event[1] - 1] + 1] = event[2]
        seen = world.step(event)
        number = world.events
        for one in seen:
            self.parts.append(f"{number} {observation_text(one)}\n")
            kind = one[0]
            if kind == "sent":
                self.undelivered.append(one[1])
                message = one[2]
                label = wire.KIND_NAMES[message.kind]
                if message.kind == wire.NACK:
                    label = "nack " + wire.CAUSES[message.body[0] - 1]
                elif message.kind == wire.NAMED and message.body[0] == 2:
                    label = f"named refused {message.body[1]}"
                self.count(label)
            elif kind == "submit":
                self.commands.append(one[1])
                self.count("submit " + ("read" if one[6] is None else "write"))
            elif kind == "answer":
                self.count("answer " + one[3][0])
                if one[3][0] == "read":
                    self.check_read(one, seen)
            elif kind == "dropped":
                self.count("drop crash" if one[2] is None else "drop failed")
            else:
                self.count(kind)
        if event[0] in ("deliver", "lose") and event[1] in self.undelivered:
            self.undelivered.remove(event[1])
        if event[0] == "report" and event[1] in self.commands:
            self.commands.remove(event[1])
        if len(self.undelivered) > 60:
            del self.undelivered[: self.rng.randint(1, 40)]
        if len(self.commands) > 40:
            del self.commands[: self.rng.randint(1, 20)]

    def check_read(self, one, seen):
        """The promise `ReadsReturnLastWrites`, if the event logs nothing of the page after the
        answer.
        """
        ask = self.asked.get((one[1], one[2]))
        if ask is None or any(other[0] in ("write", "patch") and other[3:5] == (ask[1], ask[2]) for other in seen):
            return
        if self.world.log.content(ask[1], ask[2]) != one[3][1]:
            self.broken.append(f"event {self.world.events}: a read of {ask[1]} {ask[2]} is not the last write")

    def count(self, what):
        self.kinds[what] = self.kinds.get(what, 0) + 1

    def next_event(self):
        """An admissible event, drawn by the mood; None after many tries."""
        self.mood_left -= 1
        if self.mood_left <= 0:
            self.set_mood("calm" if self.rng.random() < 0.35 and "full" not in self.moods else self.rng.choice(self.moods))
        for _ in range(40):
            event = self.candidate()
            if event is not None and self.world.refusal(event) is None:
                return event
        return None

    def run(self, length):
        """This many events, or fewer."""
        for _ in range(length):
            event = self.next_event()
            if event is None:
                event = ("heal", 1, self.nodes[-1])
            self.happen(event)

    def finale(self):
        """Brings about what few runs end in: a late command, a cut link, a stopped receiver."""
        rng, world = self.rng, self.world
        which = rng.random()
        late = [n for n in self.commands if not world.disks.commands[n - 1].effected]
        events = []
        if which < 0.5 and late:
            number = rng.choice(late)
            origin = world.origins[number - 1]
            if world.clients[origin.client - 1].running:
                events.append(("crash", origin.client))
            end = world.lease_end_of(origin.client, origin.server, origin.life)
            if end is not None and end > world.clocks[origin.client - 1]:
                events.append(("adv", (end - world.clocks[origin.client - 1] + rng.choice((-1, 0, 0, 1)),) * len(self.nodes)))
            events.append(("effect", number))
        elif which < 0.75 and self.undelivered:
            number = rng.choice(self.undelivered)
            message = world.messages[number - 1]
            events += [("cut", message.sender, message.receiver), ("deliver", number)]
        elif self.undelivered:
            number = rng.choice(self.undelivered)
            events += [("crash", world.messages[number - 1].receiver), ("deliver", number)]
        for event in events:
            if event[0] == "adv" and min(event[1]) < 1:
                continue
            if world.refusal(event) is None:
                self.happen(event)

    def refused_event(self):
        """An event that the world refuses, or None: the schedule's last line. Each refusal that can
        be had is as likely.
        """
        rng, world = self.rng, self.world
        events = [self.hostile_event() for _ in range(40)]
        commands, messages = len(world.origins), len(world.messages)
        for number in range(max(1, commands - 30), commands + 1):
            events += [("effect", number), ("report", number, True), ("report", number, False)]
        events += [("effect", number) for number in self.commands]
        events += [("deliver", number) for number in range(max(1, messages - 30), messages + 1)]
        events += [("deliver", number) for number in sorted(world.lost)[-5:]]
        events += [("lose", number) for number in sorted(world.lost)[-5:]]
        events += [("adv", (delta,) * len(self.nodes)) for delta in self.moments()]
        found = {}
        for event in events:
            refusal = world.refusal(event)
            if refusal is not None:
                found.setdefault(refusal[0], []).append(event)
        return rng.choice(found[rng.choice(sorted(found))]) if found else None

    def hostile_event(self):
        rng, world = self.rng, self.world
        which = rng.randrange(13)
        messages, commands = len(world.messages), len(world.origins)
        node = rng.choice(self.nodes + [rng.randint(1, 99), wire.SERVER_BASE + rng.randint(1, 99)])
        other = rng.choice(self.nodes + [rng.randint(1, 99), wire.SERVER_BASE + rng.randint(1, 99)])
        client = node if node < wire.SERVER_BASE else rng.randint(1, 20)
        if which == 0:
            return rng.choice(("tick", "crash", "start")), node
        if which == 1:
            return "app", client, self.ask()
        if which in (2, 3, 4):
            return rng.choice(("deliver", "deliver", "lose")), rng.randint(1, messages + rng.choice((0, 0, 1, 5)) or 1)
        if which in (5, 6):
            return "effect", rng.randint(1, commands + rng.choice((0, 0, 1)) or 1)
        if which in (7, 8):
            return "report", rng.randint(1, commands + rng.choice((0, 0, 1)) or 1), rng.random() < 0.5
        if which == 9:
            return rng.choice(("cut", "heal")), node, other
        if which in (10, 11):
            increments = tuple(rng.randint(1 if self.head.form == 1 else 0, rng.choice((5, 100, 1000))) for _ in self.nodes)
            return "adv", increments
        return "adv", (rng.randint(1, 2 * self.head.settings.lease),) * len(self.nodes)

    def finish(self, refused):
        """The schedule and its report, ended well or with a refused event."""
        if refused is not None:
            self.lines.append(event_line(refused))
            name, *values = self.world.refusal(refused)
            self.parts.append(refusal_text(len(self.lines), name, values) + "\n")
            self.count("refused " + name)
            if self.rng.random() < 0.5:
                self.lines.append("end")
        else:
            self.lines.append("end")
            self.parts.append(summary_text(self.world.summary()) + "\n")
        return "\n".join(self.lines).encode("latin-1") + b"\n", "".join(self.parts).encode("latin-1")


def odd_head(rng):
    """A head with settings at the ends of what holds, and sometimes another fault."""
    lease = rng.choice((5, 1000, 2**40, 2**40 + 1))
    den = rng.choice((1, 100, 1048575, 1048576))
    demand = rng.choice((lease, max(1, lease // 2)))
    numbers = [lease, lease // 5, lease * 2 // 5, lease * 3 // 5, demand, rng.choice((1, demand)), rng.choice((den, 1048576)), den]
    form = rng.choice((1, 2))
    if form == 2:
        numbers.append(rng.choice((0, lease)))
    servers = rng.choice((1, 1, 2, 4))
    numbers += [rng.choice((1, 3, 16)), servers, rng.choice((servers, 8)), rng.choice((1, 64, 4096))]
    for _ in range(rng.choice((0, 1, 1, 1, 2))):
        place = rng.randrange(len(numbers))
        other = rng.randrange(len(numbers))
        numbers[place] = max(0, rng.choice((0, 1, numbers[place] + 1, numbers[place] - 1, numbers[other], numbers[other] + 1, numbers[other] - 1,
                                            2**63 - 1, 2**63, 1048577, 2**40 + 1)))
    text = f"tank {form} " + " ".join(map(str, numbers))
    return text.encode() + rng.choice((b"\nend\n", b"\nend\n", b"\nend", b"\n", b"", b" 1\nend\n", b"\nadv 1\nend\n", b"\ntick c1\ntick s1\nend\n"))


def grammar_text(rng):
    """A good head, and lines of the grammar, most of them good, the last ones not."""
    lines = [random_head(rng).encode()]
    lines += [rng.choice(GRAMMAR[:-1]) for _ in range(rng.choice((0, 0, 1, 3)))]
    lines += [mutate_line(rng, rng.choice(GRAMMAR)) for _ in range(rng.choice((1, 1, 2)))]
    return b"\n".join(lines + [b"end", b""])


ODD_NUMBERS = [b"0", b"00", b"01", b"1", b"2", b"16", b"17", b"64", b"65", b"99", b"100", b"255", b"256", b"4095", b"4096", b"4097",
               b"65535", b"65536", b"1048575", b"1048576", b"4294967295", b"4294967296", b"9223372036854775807",
               b"9223372036854775808", b"18446744073709551615", b"18446744073709551616", b"9" * 30, b"-1", b"+1", b"1a", b"",
               b"0x1", b"1.0", b"1 ", b"\xd9\xa1"]
ODD_WORDS = [b"", b"-", b"c1", b"c0", b"c01", b"c99", b"c100", b"s1", b"s4", b"s", b"c", b"x1", b"c1".upper(), b"1:2", b"0:1", b"1:0", b"1:02",
             b"65535:4294967295", b"65536:1", b"1:4294967296", b"1:", b":1", b"1:2:3", b"12", b"ok", b"fail", b"okay", b"tick", b"adv",
             b"end", b"app", b"tank", b"write", b"patch", b"list", b"\x00", b"\xff\xfe", b"\t", b"a\tb", b"n" * 100, b"n" * 101,
             b"\x20", b"~", b"!", b"\x7f", b"\r", b"lookup", b"rename"]


def mutate_line(rng, line):
    """A line with some fault in it, or another line."""
    words = line.split(b" ")
    which = rng.randrange(11)
    place = rng.randrange(len(words))
    if which == 0:
        words[place] = rng.choice(ODD_NUMBERS)
    elif which == 1:
        words[place] = rng.choice(ODD_WORDS)
    elif which == 2:
        del words[place]
    elif which == 3:
        words.insert(place, rng.choice(ODD_WORDS + ODD_NUMBERS))
    elif which == 4:
        words.append(rng.choice(ODD_WORDS + ODD_NUMBERS))
    elif which == 5:
        at = rng.randint(0, len(line))
        return line[:at] + bytes((rng.randrange(256),)).replace(b"\n", b" ") + line[at + rng.randint(0, 1) :]
    elif which == 6:
        return line + b" " * rng.choice((1, 2, 255 - len(line), 256 - len(line), 257 - len(line)))
    elif which == 7:
        return line[: rng.randint(0, len(line))]
    elif which == 8 and words[place].isdigit():
        words[place] = str(max(0, int(words[place]) + rng.choice((-1, 1, 2, 10, -5)))).encode()
    elif which == 9:
        return rng.choice((b"", b"end", b"end ", b"tank", b"tank 1", b"x" * 256, b"x" * 257, b"heal c1 s1" + b"0" * 246, b"# note"))
    else:
        at, to = rng.randrange(len(words)), rng.randrange(len(words))
        words[at], words[to] = words[to], words[at]
    return b" ".join(words).replace(b"\n", b"?")


GRAMMAR = [b"adv 1", b"adv 0", b"adv 1 1", b"tick c1", b"tick s1", b"app c1 write 1:2 0 7", b"app c1 read 1:2 0", b"app c1 sync 1:2",
           b"app c1 cut 1:2 1", b"app c1 lookup 1:1 f2", b"app c1 create 1:1 new", b"app c1 mkdir 1:1 dir", b"app c1 remove 1:1 f2 2",
           b"app c1 rename 1:1 f2 1 f99", b"app c1 list 1:1 -", b"app c1 list 1:1 f3", b"app c1 patch 1:2 0 4000 96 9",
           b"app c1 patch 1:2 0 4000 97 9", b"deliver 1", b"lose 1", b"cut c1 s1", b"heal s1 c1", b"effect 1", b"report 1 ok",
           b"report 1 fail", b"crash c1", b"start c1", b"app c1 create 1:1 " + b"n" * 100, b"app c1 create 1:1 " + b"n" * 101,
           b"app c1 create 1:1 a\x7f", b"app c1 mkdir 1:1 a\x1f", b"app c1 rename 1:1 a 0 b", b"app c1 remove 1:1 a 4294967296",
           b"app c1 remove 1:1 a 0", b"end"]


def mutated(rng, text):
    """A schedule's text with mutated lines, order or ends."""
    lines = text.split(b"\n")[:-1]
    which = rng.random()
    if which < 0.15:
        lines = lines[:1]
    elif which < 0.6:
        lines = lines[: rng.randint(1, min(len(lines), 80))]
        if rng.random() < 0.6:
            lines.append(b"end")
    for _ in range(rng.choice((1, 1, 1, 2, 3))):
        place = rng.randrange(len(lines)) if rng.random() < 0.85 else 0
        if rng.random() < 0.45:
            lines.insert(max(1, place), mutate_line(rng, rng.choice(GRAMMAR)) if rng.random() < 0.7 else rng.choice(GRAMMAR))
        elif rng.random() < 0.9:
            lines[place] = mutate_line(rng, lines[place])
        elif rng.random() < 0.5:
            del lines[place]
            lines = lines or [b""]
        else:
            other = rng.randrange(len(lines))
            lines[place], lines[other] = lines[other], lines[place]
    tail = rng.random()
    text = b"\n".join(lines)
    if tail < 0.7:
        text += b"\n"
    elif tail < 0.8:
        text += b"\n\n"
    elif tail < 0.85:
        text += b"\nend\n"
    return text
