"""The report of a run. Chapter "The report"."""

from . import wire
from .schedule import LineRefused, ScheduleReader, node_word, runs_text
from .world import World


def text_of_name(name):
    """Names as they are. Chapter "The report"."""
    return name.decode("latin-1")


def entries_text(entries):
    """A count and entries as INO:KIND:NAME. Chapter "The report"."""
    return " ".join([str(len(entries)), *(f"{ino}:{kind}:{text_of_name(name)}" for ino, kind, name in entries)])


def body_text(message):
    """The fields of a body, each after a space. Paragraph "A body". Chapter "The report"."""
    kind, body = message.kind, message.body
    if kind == wire.REASSERT:
        fields = [len(body[0]), *(field for row in body[0] for field in row)]
    elif kind == wire.EXTENTS:
        fields = [body[0], len(body[1]), *(field for row in body[1] for field in row)]
    elif kind == wire.NAMED and body[0] == 1:
        fields = [1, entries_text(body[1])]
    elif kind == wire.NAME:
        fields = [text_of_name(field) if isinstance(field, bytes) else field for field in body]
        if body[0] == wire.LIST and not body[2]:
            fields[2] = "-"
    else:
        fields = body
    return "".join(f" {field}" for field in fields)


def answer_text(answer):
    """Paragraph "An answer". Chapter "The report"."""
    kind = answer[0]
    if kind == "read":
        return f"read {runs_text(answer[1])}"
    if kind == "listed":
        return f"listed {entries_text(answer[1])}"
    if kind == "lost":
        return " ".join(["lost", str(len(answer[1])), *(f"{page}:{own}" for page, own in answer[1])])
    return " ".join(map(str, answer))


def file_text(file):
    """A file is written SERVER:INODE. Chapter "The report"."""
    return f"{file[0]}:{file[1]}"


def observation_text(seen):
    """The text of an observation. Chapter "The report"."""
    kind = seen[0]
    if kind == "sent":
        _, number, m = seen
        head = f"{node_word(m.sender)} {node_word(m.receiver)} {wire.KIND_NAMES[m.kind]} {m.life} {m.epoch} {m.number} {m.stamp}"
        return f"send {number} {head}{body_text(m)}"
    if kind == "submit":
        _, number, client, own, disk, block, write = seen
        head = f"submit {number} c{client} {own} {disk} {block}"
        return f"{head} r" if write is None else f"{head} w {write[1]} {write[2]} {write[3]} {runs_text(write[4])}"
    if kind == "answer":
        return f"answer c{seen[1]} {seen[2]} {answer_text(seen[3])}"
    if kind == "write":
        _, number, client, file, page, data = seen
        return f"write {number} c{client} {file_text(file)} {page} {runs_text(data)}"
    if kind == "patch":
        _, number, client, file, page, at, data = seen
        return f"patch {number} c{client} {file_text(file)} {page} {at} {runs_text(data)}"
    if kind == "cut":
        return f"cut {seen[1]} {file_text(seen[2])} {seen[3]}"
    if kind == "hard":
        return f"hard {seen[1]}"
    if kind == "dropped":
        return f"drop {seen[1]} crash" if seen[2] is None else f"drop {seen[1]} failed {seen[2]}"
    if kind == "dated":
        return f"lease c{seen[1]} s{seen[2]} {seen[3]}"
    if kind == "lost":
        return f"lost c{seen[1]} s{seen[2]} {seen[3]}"
    if kind == "ended":
        return f"end c{seen[1]} s{seen[2]} {seen[3]}"
    if kind == "suspected":
        return f"suspect s{seen[1]} c{seen[2]} {seen[3]}"
    return f"steal s{seen[1]} c{seen[2]} {seen[3]}"


def summary_text(counts):
    """The last line of a run without a refusal. Chapter "The report"."""
    names = ("events", "sent", "commands", "writes", "reads", "hard", "gone", "stolen")
    return "end " + " ".join(f"{name} {count}" for name, count in zip(names, counts))


def refusal_text(line, name, values):
    """Paragraph "A refusal". Chapter "The report"."""
    return " ".join(["line", str(line), name, *map(str, values)])


def lines_of(pieces):
    """The lines of a source: each ended by a newline, except for the last one. Chapter "The
    report".
    """
    held = b""
    for piece in pieces:
        held += piece
        *whole, held = held.split(b"\n")
        yield from whole
    if held:
        yield held


class Replay:
    """The run of a schedule, line by line, with its report's lines. Chapters "Schedules", "The
    report".
    """

    def __init__(self, write, forms=(1, 2)):
        self.write = write
        self.reader = ScheduleReader(forms)
        self.world = None
        self.refused = None

    def line(self, line):
        """One line is read and run. Whether the run goes on. Chapter "The report"."""
        try:
            read = self.reader.line(line)
        except LineRefused as refusal:
            return self.refuse(self.number() + 1, refusal.name, refusal.values)
        if self.world is None:
            self.world = World(read)
            self.write("tank report 1\n")
            return True
        if read == ("end",):
            return True
        refusal = self.world.refusal(read)
        if refusal is not None:
            return self.refuse(self.number(), refusal[0], refusal[1:])
        for seen in self.world.step(read):
            self.write(f"{self.world.events} {observation_text(seen)}\n")
        return True

    def number(self):
        """How many lines were read well. Chapter "The report"."""
        return self.reader.lines

    def refuse(self, line, name, values):
        """The run ends with a refusal. Chapter "The report"."""
        self.refused = (line, name, *values)
        self.write(refusal_text(line, name, values) + "\n")
        return False

    def finish(self):
        """The input ended: the last line. Whether it is that of a whole run. Chapter "The report".
        """
        try:
            self.reader.finish()
        except LineRefused as refusal:
            return self.refuse(self.number() + 1, refusal.name, refusal.values)
        self.write(summary_text(self.world.summary()) + "\n")
        return True


def replay(pieces, write, forms=(1, 2)):
    """The report of the schedule that the pieces spell. Whether it ran through its end. Chapter
    "The report".
    """
    run = Replay(write, forms)
    for line in lines_of(pieces):
        if not run.line(line):
            return False
    return run.finish()


def report_of(schedule, forms=(1, 2)):
    """The report of a schedule, as text. Chapter "The report"."""
    parts = []
    replay([schedule], parts.append, forms)
    return "".join(parts)
