"""Joins the traces of a real run's nodes to one schedule, and compares what the nodes said with the
schedule's report.

`read_traces` reads traces, `Join` makes the schedule, and `check` compares. The order of the
schedule is that of the moments in the traces, except for a message, which is delivered after the
step that sent it, and a disk command, which is reported after its effect. At a node's step each
clock of the schedule's world reads what the node's own clock read, less a number that is the same
throughout the run; between two steps of a node its clock goes on evenly.
"""
import bisect
import collections
import functools
import heapq
import subprocess

import comparing  # noqa: F401  (it makes reference/ known)
import trace_text as text
from reference import wire
from reference.clocks import steal_wait
from reference.disks import UNWRITTEN
from reference.report import observation_text
from reference.schedule import LineRefused, event_line, node_word, read_event, read_head
from reference.settings import Settings
from reference.world import World

MOST_EVENTS = 100_000  # of a schedule that the program plays
STEEPEST = 0.1  # by how much the rates of two machines' clocks are apart at the most
SUSPECT, GRACE_OVER = wire.CAUSE_NUMBERS["suspect"], wire.CAUSE_NUMBERS["graceover"]
COMPARED = ("send", "submit", "answer")
PREMISES = {
    "ClockDrift": "a clock drifted from another by more than the settings allow",
    "FlushMissed": "a client with dirty pages took no step in the last part of its lease, or its writes were not reported before the lease ended",
    "LateDisk": "a disk command had its effect after the end of the lease under which it was submitted",
    "MessageUnknown": "a node took a message that no node sent",
    "DiskOrder": "a disk gave what it held before, or never held: its effects are not in the order of its reports",
    "ClockBack": "a clock went back",
    "NotRunning": "a node began fresh, without what outlives a crash",
}


class Verdict:
    """How a run was found: `agrees`, `differs` or a premise's name; the event's number, and what to
    say about it.
    """

    def __init__(self, name, event, lines):
        self.name, self.event, self.lines = name, event, lines


class Machine:
    """How the moments of a node's machine lie among the run's, which are those of the first node:
    moved by a constant, or along a straight line too.
    """

    def __init__(self):
        self.begun, self.at, self.rate = 0, 0, 1.0

    def common(self, moment):
        """The run's moment."""
        gone = moment - self.begun
        return self.at + (gone if self.rate == 1 else round(gone * self.rate))

    def own(self, at):
        """The machine's moment."""
        gone = at - self.at
        return self.begun + (gone if self.rate == 1 else round(gone / self.rate))


class Item:
    """Something that a node did: `what` is step, start, crash or effect. `own` is the moment by its
    machine, `at` among the run's. `line` is where its trace tells it.
    """

    __slots__ = ("node", "what", "own", "at", "low", "high", "reading", "told", "line", "life")

    def __init__(self, node, what, at, told, line, life):
        self.node, self.what, self.own, self.at, self.told, self.line, self.life = node, what, at, at, told, line, life
        self.low = self.high = self.reading = None

    def read_at(self, low, high):
        """Sets the reading of the node's clock. If it lies between two, and the step sent a
        request, the request's stamp is the reading, unless it lies outside: then the least reading
        stays, and the check finds that the stamp differs.
        """
        self.low, self.high, self.reading = low, high, low
        if low == high:
            return
        stamps = [stamp for stamp in map(stamp_of, self.told.outputs or ()) if stamp is not None and low <= stamp <= high]
        if stamps:
            self.settle(stamps[0])

    def settle(self, reading):
        """The reading is this one."""
        self.move(reading)
        self.low = self.high = self.reading

    def move(self, reading):
        """Takes another reading, and the moment at which the clock came to it."""
        if reading > self.reading:
            later = (reading - self.reading) * 1_000_000 - self.own % 1_000_000
            self.own, self.at = self.own + later, self.at + later
        self.reading = reading


def stamp_of(data):
    """The client's clock reading that a request from it has as its stamp, or None."""
    if data[1] in wire.FROM_CLIENT and data[1] != wire.DEMANDSEEN:
        return int.from_bytes(data[30:38], "big")
    return None


@functools.lru_cache(maxsize=1 << 17)
def message_of(data):
    """The message that bytes spell, or None."""
    try:
        return wire.decode(data)
    except wire.Refusal:
        return None


def is_local(data):
    """Whether these bytes are a tick, an ask or the end of a disk command; other bytes are a
    message that a node sent.
    """
    return data[1:2] != b"" and data[1] in wire.LOCAL and message_of(data) is not None


class Node:
    """What the trace of a node tells: its steps, starts and crashes in order, and the effects of
    its disk commands.
    """

    def __init__(self, name, words):
        self.name, self.words, self.steps, self.effects, self.life, self.machine = name, words, [], [], 0, Machine()
        self.stopped = None  # the line of a step without outputs, in which the node was killed

    def take(self, told, line):
        if self.stopped is not None and not isinstance(told, text.Head):
            raise text.Wrong(f"{self.name}: line {line}: forged: the node goes on after line {self.stopped}, in which it was killed, without being started again")
        self.stopped = line if isinstance(told, text.Step) and told.outputs is None else None
        if isinstance(told, text.Head):
            if (told.node, told.words) != (self.name, self.words):
                raise text.Wrong(f"{self.name}: line {line}: another node or other settings than before")
            self.stop(line)
            self.life += 1
        elif isinstance(told, text.Effect):
            self.effects.append(Item(self.name, "effect", told.at, told, line, self.life))
        elif not isinstance(told, text.End):  # an orderly end is a crash after the last step, too
            if isinstance(told, text.Start) and not (self.steps and self.steps[-1].what == "crash"):
                self.steps.append(Item(self.name, "crash", told.at - 1, None, line, self.life))  # it was killed before its first step
            it = Item(self.name, "start" if isinstance(told, text.Start) else "step", told.at, told, line, self.life)
            it.read_at(*((told.reading, told.reading) if it.what == "start" else (told.low, told.high)))
            self.steps.append(it)

    def stop(self, line):
        """The process ended: a crash after the last thing that it did, if it ran."""
        if self.steps and self.steps[-1].what != "crash":
            last = max(it.at for it in (self.steps[-1], *self.effects[-1:])) + 1
            self.steps.append(Item(self.name, "crash", last, None, line, self.life))


def read_traces(paths):
    """The nodes of traces, by name."""
    nodes = {}
    for path in paths:
        node = line = None
        for line, told in text.read(path):
            if node is None:
                if not isinstance(told, text.Head):
                    raise text.Wrong(f"{path}: it does not begin with a line `trace 1`")
                if told.node in nodes:
                    raise text.Wrong(f"{path}: there is another trace of {told.node}")
                node = nodes[told.node] = Node(told.node, told.words)
            node.take(told, line)
        if node is None:
            raise text.Wrong(f"{path}: it has no line")
        node.stop(line)
    if not nodes:
        raise text.Wrong("no trace was given")
    first = next(iter(nodes.values()))
    for node in nodes.values():
        if node.words != first.words:
            raise text.Wrong(f"{node.name} has other settings than {first.name}")
    for node in nodes.values():
        settle(node)
    shift(nodes)
    return nodes


def refusals_of(it):
    """The refusals among a step's outputs: cause, and both values."""
    for data in it.told.outputs or () if it.what == "step" else ():
        if data[1] == wire.NACK and len(data) == wire.HEADER + 17:
            yield data[38], int.from_bytes(data[39:47], "big"), int.from_bytes(data[47:55], "big")


def settle(node):
    """Settles readings that lie between two: a refusal tells when a timer started, on a tick or in
    that very step; that of a late reassertion tells its own.
    """
    told = set()
    for it in node.steps:
        for cause, start, now in refusals_of(it):
            told |= {start} if cause == SUSPECT else set()
            exact = now if cause == GRACE_OVER else start if cause == SUSPECT else None
            if exact is not None and it.low < it.high and it.low <= exact <= it.high:
                it.settle(exact)
    for it in node.steps:
        if it.what == "step" and it.low < it.high and it.told.taken[1:2] == bytes((wire.TICK,)):
            starts = [start for start in told if it.low <= start <= it.high]
            if starts:
                it.settle(starts[0])


def ways_of(nodes):
    """Each message that a node took and another one sent, which is known by its bytes: the sender
    and its moment, the receiver and its moment.
    """
    sent = {}
    for node in nodes.values():
        for it in node.steps:
            for data in (it.told.outputs or ()) if it.what == "step" else ():
                sent.setdefault(data, (node.name, it.own))
    return [(*sent[it.told.taken], node.name, it.own) for node in nodes.values() for it in node.steps if it.what == "step" and it.told.taken in sent]


def shift(nodes):
    """If a message came before it was sent, the moments are of several machines: moves those of
    each node so that none does, in the middle of what is possible.

    They are moved by a constant; and if no constants do, since the machines' clocks drifted,
    along a straight line. If that does not do either, messages wait later.
    """
    ways = ways_of(nodes)
    if all(sent <= came for _, sent, _, came in ways):
        return
    move_by_constants(nodes, ways)
    if any(nodes[sender].machine.common(sent) > nodes[receiver].machine.common(came) for sender, sent, receiver, came in ways):
        move_along_lines(nodes, ways)
    for node in nodes.values():
        for it in (*node.steps, *node.effects):
            it.at = node.machine.common(it.own)


def move_by_constants(nodes, ways):
    """Moves each node's moments by a constant: the middle of the least and the greatest one that
    the least time of a message from one node to another allows.
    """
    least, first = {}, next(iter(nodes))
    for sender, sent, receiver, came in ways:
        least[sender, receiver] = min(least.get((sender, receiver), came - sent), came - sent)
    latest = {name: 0 if name == first else None for name in nodes}  # a receiver may be moved down to its sender's constant less the way, a sender up to that
    earliest = dict(latest)
    for _ in nodes:
        for (sender, receiver), way in least.items():
            if latest[receiver] is not None and (latest[sender] is None or latest[sender] > latest[receiver] + way):
                latest[sender] = latest[receiver] + way
            if earliest[sender] is not None and (earliest[receiver] is None or earliest[receiver] < earliest[sender] - way):
                earliest[receiver] = earliest[sender] - way
    for name, node in nodes.items():
        ends = [end for end in (earliest[name], latest[name]) if end is not None]
        node.machine.at = sum(ends) // len(ends) if ends and name != first else 0


def move_along_lines(nodes, ways):
    """Moves each node's moments along a line: first those of the node with most messages, then each
    time the one that has most with those that have a line.
    """
    counts = collections.Counter(name for sender, _, receiver, _ in ways for name in (sender, receiver))
    left, lines = set(counts), {}
    while left:
        name = max(sorted(left), key=lambda one: (sum(one in (way[0], way[2]) and not {way[0], way[2]} <= left for way in ways), counts[one]))
        left.remove(name)
        machine = nodes[name].machine
        machine.begun = min(it.own for it in nodes[name].steps)
        bounds = [(came - machine.begun, lines[sender].common(sent), True) for sender, sent, receiver, came in ways if receiver == name and sender in lines]
        bounds += [(sent - machine.begun, lines[receiver].common(came), False) for sender, sent, receiver, came in ways if sender == name and receiver in lines]
        machine.at, machine.rate = line_between(bounds)
        lines[name] = machine
    first = lines.get(next(iter(nodes)))
    begun, at, rate = (first.begun, first.at, first.rate) if first else (0, 0, 1)
    for machine in lines.values():  # the first node's moments are the run's
        machine.at, machine.rate = begun + round((machine.at - at) / rate), machine.rate / rate


def line_between(bounds):
    """The height and the slope of the line that is farthest from these points: above those that are
    so marked, and below the others.
    """
    above = [(x, y) for x, y, is_above in bounds if is_above]
    below = [(x, y) for x, y, is_above in bounds if not is_above]
    if not above or not below:
        heights = [y - x for x, y in above or below]
        return (max(heights) if above else min(heights)) if heights else 0, 1.0
    middle = sum(y for _, y in above) // len(above)

    def ends(slope):
        return max(y - middle - slope * x for x, y in above), min(y - middle - slope * x for x, y in below)

    low, high = 1 - STEEPEST, 1 + STEEPEST
    for _ in range(80):  # the room between both ends has one greatest value
        one, other = low + (high - low) / 3, high - (high - low) / 3
        rooms = [end - begin for begin, end in (ends(one), ends(other))]
        low, high = (one, high) if rooms[0] < rooms[1] else (low, other)
    return middle + round(sum(ends(low)) / 2), low


class Clock:
    """The clock of one node in the schedule's world, or of all nodes that have no trace: what it
    should read at a moment.
    """

    def __init__(self, steps, machine):
        self.machine, self.ats = machine, [it.own for it in steps]
        self.readings = [it.reading for it in steps]
        self.gaps = [reading - at // 1_000_000 for at, reading in zip(self.ats, self.readings)] or [0]
        self.is_even = len(set(self.gaps)) == 1
        self.done, self.now = 0, None

    def at(self, at):
        """What the clock shows at a moment."""
        own = self.machine.own(at)
        return own // 1_000_000 + self.gap(own)

    def gap(self, at):
        """By how much the clock is ahead of the machine's clock at a moment of the machine: between
        two steps this changes evenly.
        """
        if self.is_even:
            return self.gaps[0]
        after = bisect.bisect_left(self.ats, at)
        if after in (0, len(self.ats)):
            return self.gaps[min(after, len(self.ats) - 1)]
        at1, at2, gap1, gap2 = self.ats[after - 1], self.ats[after], self.gaps[after - 1], self.gaps[after]
        return gap1 + (gap2 - gap1) * (at - at1) // max(1, at2 - at1)

    def advance(self, at):
        """Goes on to a moment, but not past the reading of the next step; the increment."""
        before, now = self.now, self.at(at)
        if self.done < len(self.readings):
            now = min(now, self.readings[self.done])
        self.now = max(before, now)
        return self.now - before

    def take(self):
        """Goes on to the reading of the next step; the increment, below 0 if the clock would go
        back.
        """
        before, self.now = self.now, self.readings[self.done]
        self.done += 1
        return self.now - before


class Clocks:
    """The clocks of the schedule's world."""

    def __init__(self, names, nodes, begun):
        self.others = Clock([], Machine())
        self.clocks = {name: Clock([it for it in node.steps if it.reading is not None], node.machine) for name, node in nodes.items()}
        self.rows = [self.clocks.get(name, self.others) for name in names]
        self.offsets = []
        for clock in (*self.clocks.values(), self.others):
            clock.now = clock.at(begun * 1_000_000)
        for name, clock in zip(names, self.rows):
            self.offsets.append(clock.now - (1000 * int(name[1:]) if name[0] == "s" else 0))

    def advance(self, at, name):
        """The increments up to a moment, at which the node of this name takes a step; None if
        its clock had to go back.
        """
        steps = {clock: clock.advance(at) for clock in (*self.clocks.values(), self.others)}
        if name is not None:
            clock = self.clocks[name]
            more = clock.take()
            steps[clock] += more
            if more < 0:
                return None
        return [steps[clock] for clock in self.rows]


class Contents:
    """Pages of different bytes, which no schedule can write: each content of a page is renamed to a
    page of one byte, and zeros stay.

    Nodes move the bytes of whole pages and never look at them, so a run and the one with other
    contents are alike. Only if an application asked to write different bytes are all contents of
    the run renamed; a patch has no such name. A page with more than 255 contents has one name for
    two of them.
    """

    def __init__(self, is_used):
        self.is_used, self.names = is_used, collections.defaultdict(dict)

    def of(self, page, data):
        """The content that stands for a page's bytes; `page` is its server, inode and number."""
        if not self.is_used or not any(data):
            return data
        names = self.names[page]
        byte = names.setdefault(data, len(names) % 255 + 1)
        return bytes((byte,)) * len(data)

    def are_several(self, page, data):
        """Whether this name of a page's content is that of several contents of the page."""
        return list(self.names[page].values()).count(data[0]) > 1 if self.is_used and any(data) else False


def is_mixed(it):
    """Whether a step was an ask to write a page of different bytes."""
    if it.what != "step" or it.told.taken[1:2] != bytes((wire.APP,)):
        return False
    message = message_of(it.told.taken)
    return message is not None and message.body[1][0] == "write" and len(set(message.body[1][3])) > 1


class Command:
    """A disk command of the run."""

    def __init__(self, node, own, disk, block, write):
        self.node, self.own, self.place, self.write = node, own, (disk, block), write
        self.effected = self.reported = False
        self.sample = None
        self.stopped = None  # the place among the entries of the crash before which it may have been done
        self.before = self.after = 0  # how many entries there were after the last command on its block before it, and after it


class Problem(Exception):
    """What can be found in the traces, before a replay: a premise's name, and what to say
    about it.
    """

    def __init__(self, name, *lines):
        super().__init__(name)
        self.name, self.lines = name, lines


class Join:
    """The schedule of a run. `entries` has for each event its line, the item that it tells, and the
    texts that the report must have of it.
    """

    def __init__(self, nodes, program, disk=None, unknown=None, made=(), reports=None):
        self.nodes, self.disk, self.made = nodes, disk, set(made)
        self.unknown, self.reports = {} if unknown is None else unknown, reports or Reports(program)
        self.words = next(iter(nodes.values())).words
        self.clients, self.servers = int(self.words[9]), int(self.words[10])
        self.names = [f"c{i + 1}" for i in range(self.clients)] + [f"s{i + 1}" for i in range(self.servers)]
        self.entries, self.advances, self.problem = [], [], None
        self.messages, self.sent, self.delivered = 0, collections.defaultdict(list), set()
        self.senders = []
        self.commands, self.numbers, self.blocks = [], {}, {}
        self.used = {}  # by block, how many entries there were after the last command on it
        self.asks, self.ops, self.read = collections.Counter(), {}, {}
        self.found = []  # the page and the content of each read that was answered
        self.contents = Contents(any(is_mixed(it) for node in nodes.values() for it in node.steps))
        self.unsure = None
        self.ever = {data for node in nodes.values() for it in node.steps if it.what == "step" for data in it.told.outputs or ()}
        self.effects = {(node.name, it.life, it.told.command) for node in nodes.values() for it in node.effects}
        self.begun = first = min((it.at for node in nodes.values() for it in node.steps), default=0)
        self.clocks = Clocks(self.names, nodes, first // 1_000_000 - 1)

    def make(self):
        """Makes all events, up to the first problem."""
        try:
            for it in self.ordered():
                self.happen(it)
            self.compare_disk()
        except Problem as problem:
            self.problem = problem
        return self

    def compare_disk(self):
        """Compares each block that the run wrote with the file of the disks, if there is one."""
        for place, held in sorted(self.blocks.items()) if self.disk else ():
            found = text.block_of(self.disk, *place, int(self.words[12]))
            if found != held and not self.explain(len(self.commands) + 1, place, found):
                raise Problem("DiskOrder", f"block {place[0]}:{place[1]} of the disks at the end of the run",
                              f"it has          {block_text(found)}", f"its last write  {block_text(held)}{self.writer(place, held)}")

    # The order

    def ordered(self):
        """The items, by their moments; one waits until what it needs has happened."""
        rows = [list(reversed(row)) for node in self.nodes.values() for row in (node.steps, node.effects)]
        ready, waiting = [], []
        for number, row in enumerate(rows):
            if row:
                heapq.heappush(ready, (row[-1].at, number))
        while ready or waiting:
            if not ready:
                raise self.stuck([rows[number][-1] for number in waiting])
            at, number = heapq.heappop(ready)
            it = rows[number][-1]
            if not self.may_happen(it):
                waiting.append(number)
                continue
            rows[number].pop()
            if rows[number]:
                heapq.heappush(ready, (max(at, rows[number][-1].at), number))
            yield it
            for other in waiting:
                heapq.heappush(ready, (max(at, rows[other][-1].at), other))
            waiting = []

    def may_happen(self, it):
        """Whether what this needs has happened: its message was sent, its command submitted or
        done.
        """
        if it.what == "effect":
            return (it.node, it.life, it.told.command) in self.numbers
        if it.what != "step":
            return True
        if not is_local(it.told.taken):
            if it.told.taken not in self.ever:
                raise self.stuck([it])
            return bool(self.sent.get(it.told.taken))
        if it.told.taken[1] == wire.DONE:
            return self.is_done(it)
        return True

    def is_done(self, it):
        """Whether the command whose end a step takes was submitted, and had its effect if the
        trace tells one.
        """
        own = int.from_bytes(it.told.taken[38:46], "big")
        number = self.numbers.get((it.node, it.life, own))
        if number is None:
            return False
        return self.commands[number - 1].effected or (it.node, it.life, own) not in self.effects

    def stuck(self, items):
        """Nothing can happen next: a message was never sent, or a command never submitted."""
        it = min(items, key=lambda one: one.at)
        if it.what == "step" and not is_local(it.told.taken):
            return Problem("MessageUnknown", f"{it.node} took it at line {it.line} of its trace: {text.message_text(it.told.taken)}")
        return Problem("DiskOrder", f"line {it.line} of the trace of {it.node} mentions a command that the node never gave")

    # The events

    def add(self, line, it, expected):
        self.entries.append((line, it, expected))

    def happen(self, it):
        """The events of an item, after the advance to its moment."""
        steps = self.clocks.advance(it.at, None if it.reading is None else it.node)
        if steps is None:
            raise Problem("ClockBack", f"line {it.line} of the trace of {it.node} has a reading below the one before it")
        if any(steps):
            self.advances.append(steps)
            self.add(event_line(("adv", steps)), None, [])
        getattr(self, "do_" + it.what)(it)

    def do_crash(self, it):
        for number, command in enumerate(self.commands, 1):
            if command.node == it.node and not command.effected and not command.reported and number in self.made:
                self.effect(number, it)
        for command in self.commands:
            if command.node == it.node:
                if not command.reported:
                    command.stopped = len(self.entries)
                command.reported = True
        self.add(f"crash {it.node}", it, [])

    def do_start(self, it):
        self.add(f"start {it.node}", it, [])

    def do_effect(self, it):
        self.effect(self.numbers[it.node, it.life, it.told.command], it)

    def effect(self, number, it):
        command = self.commands[number - 1]
        command.before, command.after = self.used.get(command.place, 0), len(self.entries) + 1
        self.used[command.place] = command.after
        if command.write is None:
            command.sample = self.blocks.get(command.place, UNWRITTEN)
        else:
            self.blocks[command.place] = command.write
        command.effected = True
        self.add(f"effect {number}", it, [])

    def do_step(self, it):
        data = it.told.taken
        if not is_local(data):
            number = self.number_of(data)
            self.delivered.add(number)
            line = f"deliver {number}"
        else:
            line = self.local_line(it, message_of(data))
        expected = None if it.told.outputs is None else [self.told(it, given) for given in it.told.outputs]
        self.add(line, it, expected)
        if expected is None:
            self.unknown_outputs(it)

    def number_of(self, data):
        """The message that these bytes are: the first one that was not delivered, or the last one.
        """
        numbers = self.sent[data]
        return next((number for number in numbers if number not in self.delivered), numbers[-1])

    def local_line(self, it, message):
        """The line of a tick, an ask, or the report of a disk command."""
        if message.kind == wire.TICK:
            return f"tick {it.node}"
        if message.kind == wire.APP:
            op, ask = message.body
            self.asks[it.node] += 1
            self.ops[it.node, it.life, op] = self.asks[it.node]
            return event_line(("app", message.receiver, self.renamed(it, op, ask)))
        own, end, found = message.body
        number = self.numbers[it.node, it.life, own]
        command = self.commands[number - 1]
        command.reported = True
        if number in self.made and not command.effected:
            self.effect(number, it)
        if end == "failed":
            return f"report {number} fail"
        if not command.effected:
            self.effect(number, it)
        if found is not None and found != command.sample:
            self.misread(it, number, found)
        return f"report {number} ok"

    def renamed(self, it, op, ask):
        """An ask as a schedule can have it."""
        if ask[0] == "patch" and (self.contents.is_used or len(set(ask[4])) > 1):
            raise Problem("NotAnEvent", f"line {it.line} of the trace of {it.node} asks to patch, and a page or the patch has different bytes, which no schedule can express")
        if ask[0] == "read":
            self.read[it.node, it.life, op] = (*ask[1], ask[2])
        return (*ask[:3], self.contents.of((*ask[1], ask[2]), ask[3])) if ask[0] == "write" else ask

    def misread(self, it, number, found):
        """A read found what the effects so far do not give: an unsure write explains it, or no
        order does.
        """
        command = self.commands[number - 1]
        if self.used[command.place] == command.after:  # only this command used it
            self.used[command.place] = command.before
        if self.explain(number, command.place, found):
            self.used[command.place] = command.after
            return
        held = command.sample
        raise Problem(
            "DiskOrder",
            f"{it.node} read block {command.place[0]}:{command.place[1]} by its command {command.own} (line {it.line} of its trace)",
            f"it was given     {block_text(found)}",
            f"its last write   {block_text(held)}{self.writer(command.place, held)}")

    def explain(self, number, place, found):
        """Takes an earlier write of which nobody knows whether it was done as done, if that
        explains what was found; whether there is one. If the block was used since then, the run
        must be joined once more.
        """
        for other, write in enumerate(self.commands[:number - 1], 1):
            if write.place != place or write.write != found or write.effected or other in self.made:
                continue
            if write.stopped is None or self.used.get(place, 0) > write.stopped:
                self.unsure = other
                raise Problem("Unsure")
            self.insert(write.stopped, f"effect {other}")
            write.effected = True
            self.blocks[place] = found
            return True
        return False

    def insert(self, at, line):
        """Puts an event before the entry at this place, with the same item."""
        self.entries.insert(at, (line, self.entries[at][1], []))
        self.senders = [entry + (entry >= at) for entry in self.senders]
        self.used = {block: count + (count > at) for block, count in self.used.items()}
        for command in self.commands:
            command.before, command.after = command.before + (command.before > at), command.after + (command.after > at)
            if command.stopped is not None:
                command.stopped += command.stopped >= at

    def writer(self, place, held):
        for number in range(len(self.commands), 0, -1):
            command = self.commands[number - 1]
            if command.place == place and command.effected and command.write == held:
                return f", by command {command.own} of {command.node}"
        return ""

    def unknown_outputs(self, it):
        """What a step gave in which its node stopped is as the report tells it."""
        if (it.node, it.line) not in self.unknown:
            lines, events = self.schedule(has_losses=False)
            told = self.reports.told_of(lines)[0].get(len(events), ())
            self.unknown[it.node, it.line] = [words.split(" ")[0] for words in told]
        for kind in self.unknown[it.node, it.line]:
            if kind == "send":
                self.messages += 1
                self.senders.append(len(self.entries))
            elif kind == "submit":
                self.commands.append(Command(it.node, 0, 0, 0, None))

    # What a step should give

    def told(self, it, data):
        """The text of an output, as the report should have it."""
        message = message_of(data)
        if message is None:
            return f"bytes that spell no message: {text.message_text(data)}"
        if message.kind == wire.SUBMIT:
            own, disk, block, write = message.body
            self.commands.append(Command(it.node, own, disk, block, write))
            self.numbers[it.node, it.life, own] = len(self.commands)
            if write is not None:
                write = (*write[:4], self.contents.of(write[:3], write[4]))
            return observation_text(("submit", len(self.commands), message.sender, own, disk, block, write))
        if message.kind == wire.APPDONE:
            op, answer = message.body
            if answer[0] == "read":
                page = self.read.get((it.node, it.life, op))
                answer = "read", self.contents.of(page, answer[1])
                self.found.append((page, answer[1]))
            return observation_text(("answer", message.sender, self.ops.get((it.node, it.life, op), 0), answer))
        self.messages += 1
        self.sent[data].append(self.messages)
        self.senders.append(len(self.entries))
        return observation_text(("sent", self.messages, self.worldly(message)))

    def unsure_reads(self):
        """How many reads were answered with a content whose name is that of several."""
        return sum(self.contents.are_several(page, data) for page, data in self.found)

    def offset(self, node):
        name = node_word(node)
        return self.clocks.offsets[self.names.index(name)] if name in self.names else 0

    def worldly(self, message):
        """The message with the clock readings of the schedule's world in place of the real ones."""
        is_request = message.kind in wire.FROM_CLIENT
        stamp = message.stamp - self.offset(message.sender if is_request else message.receiver) if message.stamp else 0
        body = message.body
        if message.kind == wire.NACK:
            cause, a, b = body
            back = self.offset(message.sender)
            body = {1: (1, a - back, b), 4: (4, a - back, b), 5: (5, a - back if a else 0, b - back)}.get(cause, body)
        return message._replace(stamp=stamp, body=body)

    # The schedule

    def schedule(self, has_losses=True):
        """The head, the events with the losses of messages that nobody took, and the end; and for
        each event its entry.
        """
        head = " ".join(["tank 2", *self.words])
        lost = collections.defaultdict(list)
        for number, entry in enumerate(self.senders, 1):
            if has_losses and number not in self.delivered:
                lost[entry].append(number)
        events = []
        for place, entry in enumerate(self.entries):
            events.append(entry)
            events += [(f"lose {number}", None, []) for number in lost.get(place, ())]
        return [head, *(line for line, _, _ in events), "end"], events


def since(join, it):
    """When something happened, in seconds since the first step of the run."""
    return f"{(it.at - join.begun) / 1e9:.3f} s after the first step"


def block_text(held):
    server, ino, page, birth, data = held
    runs = observation_text(("write", 0, 1, (server, ino), page, data)).split(" ")[-1]
    return f"page {page} of {server}:{ino}, birth {birth}, {runs if len(runs) < 60 else runs[:57] + '...'}" if birth else "nothing"


def joined(nodes, program, disk=None):
    """The schedule of a run, once what stopped within a step or a disk command is known from what
    came later.
    """
    unknown, made, reports = {}, set(), Reports(program)
    while True:
        join = Join(nodes, program, disk, unknown, made, reports).make()
        if not join.problem or join.problem.name != "Unsure":
            return join
        made.add(join.unsure)


class Played:
    """The world of reference/ after the events of a schedule, and what it told of them."""

    def __init__(self, head):
        self.head = read_head(head.encode())
        self.world, self.lines, self.told, self.refused = World(self.head), [head], {}, None

    def goes_on(self, lines):
        """Whether the schedule of these lines begins with what was played."""
        return len(lines) > len(self.lines) and lines[:len(self.lines)] == self.lines

    def play(self, lines):
        """Plays the rest of the schedule, up to a line that is refused."""
        for line in lines[len(self.lines):-1]:
            self.lines.append(line)
            self.refused = self.happen(line)
            if self.refused:
                return

    def happen(self, line):
        """Makes an event happen; or its refusal, as the last line of a report."""
        try:
            event = read_event(line.encode("latin-1"), self.head)
        except LineRefused as fault:
            return " ".join(map(str, ["line", len(self.lines), fault.name, *fault.values]))
        refusal = self.world.refusal(event)
        if refusal is not None:
            return " ".join(map(str, ["line", len(self.lines), *refusal]))
        texts = map(observation_text, self.world.step(event))
        self.told[len(self.lines) - 1] = [text for text in texts if text.split(" ", 1)[0] in COMPARED]
        return None


class Reports:
    """The reports of schedules. The program reports the first 100,000 events, and reference/ later
    ones, since no schedule for the program has more.
    """

    def __init__(self, program):
        self.program, self.played = program, None

    def told_of(self, lines):
        """What the report of a schedule tells of each event, as far as it is compared; and its last
        line.
        """
        told, last = self.of_program([*lines[:-1][:MOST_EVENTS + 1], "end"])
        if len(lines) - 2 <= MOST_EVENTS or last.startswith("line "):
            return told, last
        if self.played is None or not self.played.goes_on(lines):
            self.played = Played(lines[0])
        self.played.play(lines)
        return {**self.played.told, **told}, self.played.refused or "end"

    def of_program(self, lines):
        """The same of a schedule that the program plays."""
        ran = subprocess.run([self.program, "replay"], input="\n".join(lines).encode("latin-1") + b"\n", stdout=subprocess.PIPE)
        report = ran.stdout.decode("latin-1").splitlines()
        told = collections.defaultdict(list)
        for line in report[1:-1]:
            event, _, words = line.partition(" ")
            if words.split(" ", 1)[0] in COMPARED:
                told[int(event)].append(words)
        return told, report[-1] if report else "line 1 NoHead"


def difference(events, told, happened):
    """The number of the first of the events that happened of which the report tells something else,
    or None.
    """
    for number, (_, _, expected) in enumerate(events[:happened], 1):
        if expected is not None and expected != told.get(number, []):
            return number
    return None


def compare(join):
    """The verdict of one schedule of a run."""
    lines, events = join.schedule()
    told, last = join.reports.told_of(lines)
    words = last.split(" ")
    refused = int(words[1]) - 1 if words[0] == "line" else None
    number = difference(events, told, len(events) if refused is None else refused - 1)
    if number is not None:
        return Verdict("differs", number, different(join, events[number - 1], told.get(number, [])))
    if refused == 0:
        return Verdict(words[2], 0, [f"the settings are refused: {' '.join(words[2:])}"])
    if refused is not None:
        return Verdict(words[2], refused, broken(join, words, events, refused))
    if join.problem:
        return Verdict(join.problem.name, len(events) + 1, list(join.problem.lines))
    return Verdict("agrees", len(events), [])


def different(join, entry, told):
    """What to say about an event at which a node did something else."""
    line, it, expected = entry
    place = next((at for at, pair in enumerate(zip(expected, told)) if pair[0] != pair[1]), min(len(expected), len(told)))
    lines = [f"{it.node}, line {it.line} of its trace, the event `{line}`, {since(join, it)}",
             f"the node gave     {expected[place] if place < len(expected) else 'nothing more'}",
             f"the report has    {told[place] if place < len(told) else 'nothing more'}"]
    if it.life > 1:
        lines.append(f"{it.node} was started again before: a change that it reported may not have outlived its stop")
    return lines


def broken(join, words, events, refused):
    """What to say about an event that is refused."""
    line, it, _ = events[refused - 1]
    before = next((one for _, one, _ in reversed(events[:refused]) if one is not None), None)
    where = it or next((one for _, one, _ in events[refused:] if one is not None), before)
    return [f"the event `{line}` is refused: {' '.join(words[2:])}", f"this is at line {where.line} of the trace of {where.node}, {since(join, where)}" if where else ""]


def check(nodes, program, disk=None, tries=40):
    """The verdict of a run, and its join. When the reading of a clock lies between two, one that
    agrees is looked for.
    """
    join = joined(nodes, program, disk)
    verdict = compare(join)
    while verdict.name == "differs":
        found = None
        for it in unsure_items(join, verdict):
            before = it.reading, it.own, it.at
            for reading in dict.fromkeys((it.high, *range(it.low + 1, min(it.high, it.low + 4)))):
                if tries == 0:
                    return verdict, join
                tries -= 1
                it.reading, it.own, it.at = before
                it.move(reading)
                again = joined(nodes, program, disk)
                found = compare(again)
                if found.event > verdict.event:
                    break
                it.reading, it.own, it.at = before
            else:
                continue
            it.low = it.reading
            join, verdict = again, found
            break
        else:
            break
    return verdict, join


def unsure_items(join, verdict):
    """The steps of the node that differs whose readings lie between two: the event itself, those
    since which one of the settings' times is over, the last ones.
    """
    _, events = join.schedule()
    last = events[verdict.event - 1][1]
    items = [it for _, it, _ in events[:verdict.event] if it is not None and it.node == last.node and it.low is not None and it.low < it.high]
    times = set(map(int, join.words[:6])) | {steal_wait(Settings(*map(int, join.words[:9])))}
    begun = [it for it in items if any(last.low - it.high - 1 <= time <= last.high - it.low + 1 for time in times)]
    return dict.fromkeys([*(it for it in items if it is last), *reversed(begun), *reversed(items[-6:])])


# What the clocks did

def greatest(advances, m, n, den, num):
    """The greatest of `den * D(m) - num * D(n)` over all intervals, with both sums there; D is how
    much a clock gains.
    """
    best = (0, 0, 1)
    sum_m = sum_n = now = 0
    for steps in advances:
        now += den * steps[m] - num * steps[n]
        sum_m, sum_n = sum_m + steps[m], sum_n + steps[n]
        if now <= 0:
            now = sum_m = sum_n = 0
        elif now > best[0]:
            best = (now, sum_m, sum_n)
    return best


def pairs_of(join):
    """The places of the nodes that have a trace, two by two."""
    places = [place for place, name in enumerate(join.names) if name in join.nodes]
    return [(m, n) for m in places for n in places if m != n]


def uneven(join):
    """The advances in which clocks gained different times, and what they gained in between, so that
    few are left.
    """
    kept, even = [], 0
    for steps in join.advances:
        if len(set(steps)) == 1:
            even += steps[0]
            continue
        if even:
            kept.append([even] * len(steps))
            even = 0
        kept.append(steps)
    return kept


def least_grain(join):
    """The smallest grain that accepts the run's clocks with the rate of its settings."""
    num, den = int(join.words[6]), int(join.words[7])
    advances = uneven(join)
    return max((-(-greatest(advances, m, n, den, num)[0] // den) for m, n in pairs_of(join)), default=0)


def least_rate(join):
    """The smallest rate, in millionths, that accepts the run's clocks with the grain of its
    settings; None if no rate does.
    """
    grain, den, rate = int(join.words[8]), 1_000_000, 1_000_000
    advances = uneven(join)
    for m, n in pairs_of(join):
        while True:
            excess, gained, other = greatest(advances, m, n, den, rate)
            if excess <= den * grain:
                break
            if other == 0:
                return None
            rate = max(rate + 1, -(-den * (gained - grain) // other))
    return rate
