"""The lines of a schedule and of its report, as steps of the volume of reference/volume.py."""
import collections

import comparing  # noqa: F401  (it makes reference/ known)
from reference.report import lines_of
from reference.schedule import LineRefused, ScheduleReader
from reference.wire import WHOLE_PAGE
from reference.volume import Refused, Volume, need

PLAIN = ("written", "hard", "cut", "quiesced", "nofile", "opsfull", "dirtyfull", "notholder",
         "toomanylocks")
NUMBERS = {"named": 1, "refused": 1, "nospace": 2, "diskfault": 1, "uncertain": 2}
OTHER = ("send", "lease", "lost", "suspect", "steal")
COUNTED = {"sent": ("send",), "commands": ("submit",), "writes": ("write", "patch"),
           "reads": ("read",), "hard": ("hard",), "gone": ("drop",), "stolen": ("steal",)}
NAME_OPS = ("lookup", "create", "mkdir", "remove", "rename", "list")
Command = collections.namedtuple("Command", "client own server crashes carries")


def number(word):
    right = word.isascii() and word.isdigit() and (word == "0" or word[0] != "0")
    need(right, f"`{word}` isn't a number")
    return int(word)


def client(word):
    need(word[:1] == "c", f"`{word}` isn't a client")
    return number(word[1:])


def file(word):
    server, _, ino = word.partition(":")
    return number(server), number(ino)


def runs(word):
    """The bytes of COUNTxBYTE,.."""
    pairs = [run.partition("x") for run in word.split(",")]
    right = all(number(byte) < 256 and number(count) <= WHOLE_PAGE for count, _, byte in pairs)
    need(right, f"`{word}` aren't the bytes of a page")
    return b"".join(bytes((number(byte),)) * number(count) for count, _, byte in pairs)


def answer(words):
    need(words, "there is no such answer")
    kind, *rest = words
    if kind in PLAIN and not rest:
        return (kind,)
    if kind in NUMBERS and len(rest) == NUMBERS[kind]:
        return kind, *map(number, rest)
    if kind == "read" and len(rest) == 1:
        return kind, runs(rest[0])
    if kind in ("listed", "lost") and rest and number(rest[0]) == len(rest) - 1:
        rows = [word.split(":") for word in rest[1:]]
        right = all(len(row) == (3 if kind == "listed" else 2) for row in rows)
        need(right, "a row has other fields")
        return kind, tuple((number(a), number(b), *(name.encode("latin-1") for name in more))
                           for a, b, *more in rows)
    raise Refused("there is no such answer")


def asked(ask):
    """An ask of a schedule, with the words of its kind."""
    if ask[0] != "name":
        return ask
    op, *fields = ask[2]
    return "name", ask[1], (NAME_OPS[op - 1], *fields)


def fields(words, count):
    need(len(words) == count, "the line has other fields")
    return words


def joined(kind, words):
    """The number, the client and the change of the line of an entry."""
    if kind == "cut":
        index, of, page = fields(words, 3)
        return number(index), None, (kind, file(of), number(page))
    index, who, of, page, *more = fields(words, 5 if kind == "write" else 6)
    change = kind, file(of), number(page), *map(number, more[:-1]), runs(more[-1])
    return number(index), client(who), change


class Judge:
    """A run, as far as it is told."""

    def __init__(self, head):
        self.head, self.events, self.counts = head, 0, collections.Counter()
        disks = [1 + disk % head.servers for disk in range(head.disks)]
        servers = range(1, head.servers + 1)
        self.volume = Volume([head.blocks * disks.count(server) for server in servers])
        self.commands, self.crashes = {}, collections.Counter()

    def event(self, event):
        """An event begins."""
        self.events += 1
        kind, *fields = event
        if kind == "app":
            self.volume.asked(fields[0], asked(fields[1]))
        elif kind == "crash" and fields[0] <= 16:
            self.crashes[fields[0]] += 1
            self.volume.crashed(fields[0])
        elif kind == "start" and fields[0] > 16:
            self.volume.restarted(fields[0] - 32768)
        elif kind == "report" and not fields[1]:
            need(fields[0] in self.commands, f"no command {fields[0]} was submitted")
            self.failed(self.commands[fields[0]])

    def failed(self, command):
        if command.crashes == self.crashes[command.client]:
            if command.carries is None:
                self.volume.read_failed(command.client, command.server, command.own)
            else:
                self.volume.write_failed(command.client, command.own, command.carries)

    def line(self, words):
        """A line of the present event."""
        kind, *rest = words
        self.counts[kind] += 1
        if kind == "answer":
            need(len(rest) > 2, "the line has other fields")
            who, op, told = client(rest[0]), number(rest[1]), answer(rest[2:])
            self.counts["read"] += told[0] == "read"
            self.volume.answered(who, op, told)
        elif kind in ("write", "patch", "cut"):
            self.volume.joined(*joined(kind, rest))
        elif kind == "hard":
            self.volume.hardened(*map(number, fields(rest, 1)))
        elif kind == "drop":
            need(len(rest) > 1, "the line has other fields")
            self.dropped(number(rest[0]), rest[1:])
        elif kind == "submit":
            self.submitted(*fields(rest, 10 if rest[5:6] == ["w"] else 6))
        else:
            need(kind in OTHER, "there is no such line")

    def dropped(self, index, cause):
        if cause == ["crash"]:
            self.volume.dropped(index, None)
        else:
            failed, command = fields(cause, 2)
            need(failed == "failed" and number(command) in self.commands, "there is no such cause")
            self.volume.dropped(index, self.commands[number(command)].own)

    def submitted(self, command, who, own, disk, block, kind, *written):
        """A command: a write carries the latest entry of its client for its page."""
        server, carries = 1 + (number(disk) - 1) % self.head.servers, None
        if kind == "w":
            mine = client(who), ((server, number(written[0])), number(written[1]))
            carries = max((index for index, it in enumerate(self.volume.log, 1)
                           if (it.client, it.place) == mine), default=0)
        self.commands[number(command)] = Command(
            client(who), number(own), server, self.crashes[client(who)], carries)

    def end(self, words):
        told = dict(zip(words[::2], map(number, words[1::2])))
        counts = {"events": self.events}
        for name, kinds in COUNTED.items():
            counts[name] = sum(self.counts[kind] for kind in kinds)
        text = " ".join(f"{name} {count}" for name, count in counts.items())
        need(told == counts, f"the lines count {text}")


def schedule_items(schedule):
    """The head and the events, the line that is refused, or None, and why."""
    reader, items = ScheduleReader(), []
    try:
        for line in lines_of([schedule]):
            items.append(reader.line(line))
        reader.finish()
    except LineRefused as refusal:
        return items[:1], [it for it in items[1:] if it != ("end",)], reader.lines + 1
    return items[:1], items[1:-1], None


# The line is None if all is accepted.
Verdict = collections.namedtuple("Verdict", "line why whole")


def judged(schedule, report):
    """The line of a report at which the volume refuses it, why, and whether all was tried."""
    heads, events, bad = schedule_items(schedule)
    lines = report.decode("latin-1").split("\n")
    if not heads:
        refused = lines[0].startswith("line ")
        return Verdict(None if refused else 1, "the schedule has no head", True)
    judge, place = Judge(heads[0]), 0
    try:
        need(lines[0] == "tank report 1", "this isn't the first line of a report")
        for place, text in enumerate(lines[1:], 1):
            words = text.split(" ")
            if words[0] in ("end", "line"):
                last(judge, words, events, bad)
                place += 1
                need(lines[place:] == [""], "the report goes on after its last line")
                return Verdict(None, None, True)
            event = number(words[0])
            need(judge.events <= event <= len(events) and event > 0, "there is no such event now")
            while judge.events < event:
                judge.event(events[judge.events])
            judge.line(words[1:])
        raise Refused("the report has no last line")
    except Refused as refusal:
        return Verdict(place + 1, str(refusal), judge.volume.whole)


def last(judge, words, events, bad):
    """The last line: of a whole run, or of the line that is refused."""
    if words[0] == "end":
        need(bad is None, f"line {bad} of the schedule should be refused")
        upto = len(events)
    else:
        refused = number(fields(words[1:2], 1)[0])
        known = judge.events + 2 <= refused and (refused == bad or refused - 2 < len(events))
        need(known, "no such line of the schedule may be refused now")
        upto = min(refused - 2, len(events))
    while judge.events < upto:
        judge.event(events[judge.events])
    if words[0] == "end":
        judge.end(words[1:])
