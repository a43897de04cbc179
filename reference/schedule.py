"""The grammar of schedules. Chapter "Schedules"."""

from typing import NamedTuple

from . import wire
from .settings import Limits, Settings, settings_refusal

LINE = 256
LINES = {1: LINE, 2: LINE, 3: 1024}
EVENTS = {1: 100000, 2: 100000, 3: 2**24}
TOP = 4294967295
LIMITS = ((10, 2**24), (1, 4096), (1, 65536), (2, 2**20), (1, 4096))


class Head(NamedTuple):
    """A head: its form, settings, clients, servers, disks, blocks and limits. Chapter "Schedules".
    """

    form: int
    settings: Settings
    clients: int
    servers: int
    disks: int
    blocks: int
    limits: Limits = Limits()


class LineRefused(Exception):
    """A refusal of a line: its name and values. Chapter "Schedules", "Refusals"."""

    def __init__(self, name, *values):
        super().__init__(name, *values)
        self.name, self.values = name, values


def node_word(node):
    """How a node is written. Chapter "The report"."""
    return f"s{node - wire.SERVER_BASE}" if node > wire.SERVER_BASE else f"c{node}"


def digits(word):
    """Whether a word is decimal digits. Chapter "Schedules"."""
    return len(word) > 0 and all(48 <= byte <= 57 for byte in word)


class Words:
    """The words of a line, taken from the left; the first wrong one is raised. Chapter "Schedules".
    """

    def __init__(self, line):
        self.words = []
        self.end = len(line) + 1
        column = 1
        for word in line.split(b" "):
            self.words.append((word, column))
            column += len(word) + 1
        self.place = 0

    def more(self):
        """Whether words are left. Chapter "Schedules"."""
        return self.place < len(self.words)

    def take(self):
        """The next word with its column; a missing one is Syntax past the line's end. Chapter
        "Schedules".
        """
        if not self.more():
            raise LineRefused("Syntax", self.end)
        self.place += 1
        return self.words[self.place - 1]

    def number(self, low, high):
        """A number in its range. Paragraph "Numbers". Chapter "Schedules"."""
        word, column = self.take()
        if not digits(word):
            raise LineRefused("Syntax", column)
        if (len(word) > 1 and word[0] == 48) or len(word) > 20 or not low <= int(word) <= high:
            raise LineRefused("Number", column)
        return int(word)

    def choice(self, *choices):
        """One of some words. Chapter "Schedules"."""
        word, column = self.take()
        for choice in choices:
            if word == choice.encode():
                return choice
        raise LineRefused("Syntax", column)

    @staticmethod
    def inner(word, low, high):
        """A number inside a node or a file, or None. Chapter "Schedules"."""
        if not digits(word) or (len(word) > 1 and word[0] == 48) or len(word) > 20:
            return None
        return int(word) if low <= int(word) <= high else None

    def node(self, letters=(b"c", b"s")):
        """A node: `c` or `s` and a number from 1 to 99. Chapter "Schedules"."""
        word, column = self.take()
        number = self.inner(word[1:], 1, 99)
        if word[:1] not in letters or number is None:
            raise LineRefused("Syntax", column)
        return number if word[:1] == b"c" else wire.SERVER_BASE + number

    def client(self):
        """A client's node. Chapter "Schedules"."""
        return self.node((b"c",))

    def file(self):
        """A file: `SERVER:INODE`. Chapter "Schedules"."""
        word, column = self.take()
        parts = word.split(b":")
        if len(parts) == 2:
            server, ino = self.inner(parts[0], 1, 65535), self.inner(parts[1], 1, TOP)
            if server is not None and ino is not None:
                return server, ino
        raise LineRefused("Syntax", column)

    def name(self):
        """A name: 1 to 100 bytes from 33 to 126. Chapter "Schedules"."""
        word, column = self.take()
        if not 1 <= len(word) <= 100 or not all(33 <= byte <= 126 for byte in word):
            raise LineRefused("Syntax", column)
        return word

    def page(self):
        """A page's number. Chapter "Schedules"."""
        return self.number(0, wire.LAST_PAGE)

    def finish(self):
        """No word may follow. Chapter "Schedules"."""
        if self.more():
            raise LineRefused("Syntax", self.take()[1])


def read_head(line, forms=(1, 2)):
    """A head of one of these forms. Paragraph "Heads". Chapter "Schedules"; of the third form,
    chapter "The third form".
    """
    words = Words(line)
    if words.take()[0] != b"tank":
        raise LineRefused("NoHead")
    form = int(words.choice(*map(str, forms)))
    numbers = [words.number(0, 2**63 - 1) for _ in range(8 if form == 1 else 9)]
    settings = Settings(*numbers, *([0] if form == 1 else []))
    wide = form == 3
    clients, servers = words.number(1, 64 if wide else 16), words.number(1, 8 if wide else 4)
    disks, blocks = words.number(servers, 16 if wide else 8), words.number(1, 2**28 if wide else 4096)
    limits = Limits()
    if wide:
        limits = Limits(*(words.number(*bounds) for bounds in LIMITS), True)
    words.finish()
    why = settings_refusal(settings)
    if why is not None:
        raise LineRefused("Config", why)
    return Head(form, settings, clients, servers, disks, blocks, limits)


def read_event(line, head):
    """An event, or ("end",). Paragraph "Events". Chapter "Schedules"."""
    words = Words(line)
    event = read_words(words, head)
    words.finish()
    return event


def read_words(words, head):
    """The words of an event. Chapter "Schedules"."""
    verb = words.choice("adv", "tick", "app", "deliver", "lose", "cut", "heal", "effect", "report", "crash", "start", "end")
    if verb == "adv":
        return "adv", read_increments(words, head)
    if verb in ("tick", "crash", "start"):
        return verb, words.node()
    if verb == "app":
        client = words.client()
        return "app", client, read_ask(words, head)
    if verb in ("deliver", "lose", "effect"):
        return verb, words.number(1, TOP)
    if verb in ("cut", "heal"):
        return verb, words.node(), words.node()
    if verb == "report":
        command = words.number(1, TOP)
        return "report", command, words.choice("ok", "fail") == "ok"
    return ("end",)


def read_increments(words, head):
    """One increment for all clocks, or one for each node. Chapter "Schedules"."""
    low = 1 if head.form == 1 else 0
    nodes = head.clients + head.servers
    first = words.number(low, TOP)
    if not words.more():
        return (first,) * nodes
    return (first, *(words.number(low, TOP) for _ in range(nodes - 1)))


def read_ask(words, head):
    """The ask of an `app` line. Chapter "Schedules"."""
    verbs = ("write", "read", "sync", "cut", "lookup", "create", "mkdir", "remove", "rename", "list", "patch", "leave")
    verb = words.choice(*verbs[: 9 + head.form])
    if verb == "leave":
        return "leave", words.number(1, 65535)
    file = words.file()
    if verb == "sync":
        return "sync", file
    if verb in ("write", "read", "cut", "patch"):
        page = words.page()
        if verb == "write":
            return "write", file, page, bytes((words.number(0, 255),)) * wire.WHOLE_PAGE
        if verb == "patch":
            at = words.number(0, wire.WHOLE_PAGE - 1)
            length = words.number(1, wire.WHOLE_PAGE - at)
            return "patch", file, page, at, bytes((words.number(0, 255),)) * length
        return verb, file, page
    server, directory = file
    name = words.name()
    if verb == "list":
        return "name", server, (wire.LIST, directory, b"" if name == b"-" else name)
    if verb == "remove":
        return "name", server, (wire.REMOVE, directory, name, words.number(0, TOP))
    if verb == "rename":
        directory2 = words.number(1, TOP)
        return "name", server, (wire.RENAME, directory, name, directory2, words.name())
    return "name", server, ({"lookup": wire.LOOKUP, "create": wire.CREATE, "mkdir": wire.MKDIR}[verb], directory, name)


class ScheduleReader:
    """Reads line after line: a head, events, the end. Chapter "Schedules"."""

    def __init__(self, forms=(1, 2)):
        self.forms = forms
        self.lines = 0
        self.head = None
        self.events = 0
        self.ended = False

    def line(self, line):
        """What a line spells: a Head, an event or ("end",). Otherwise LineRefused; the first
        refusal applies. Chapter "Schedules".
        """
        most = LINE if self.head is None else LINES[self.head.form]
        if len(line) > most:
            raise LineRefused("LineTooLong", most)
        if self.ended:
            raise LineRefused("AfterEnd")
        if self.lines == 0:
            self.head = read_head(line, self.forms)
            self.lines = 1
            return self.head
        event = read_event(line, self.head)
        if event == ("end",):
            self.ended = True
        elif self.events >= EVENTS[self.head.form]:
            raise LineRefused("TooMany", EVENTS[self.head.form])
        else:
            self.events += 1
        self.lines += 1
        return event

    def finish(self):
        """The input ends. Refusals `NoHead` and `NoEnd`. Chapter "Schedules"."""
        if self.lines == 0:
            raise LineRefused("NoHead")
        if not self.ended:
            raise LineRefused("NoEnd")


def runs_text(data):
    """Runs of a page: COUNTxBYTE joined by commas. Chapter "The report"."""
    runs, place = [], 0
    while place < len(data):
        byte = data[place : place + 1]
        count = len(data) - place - len(data[place:].lstrip(byte))
        runs.append(f"{count}x{byte[0]}")
        place += count
    return ",".join(runs)


def event_line(event):
    """The line of an event. Chapter "Schedules"."""
    verb = event[0]
    if verb == "adv":
        increments = event[1]
        return "adv " + (str(increments[0]) if len(set(increments)) == 1 else " ".join(map(str, increments)))
    if verb in ("tick", "crash", "start"):
        return f"{verb} {node_word(event[1])}"
    if verb in ("cut", "heal"):
        return f"{verb} {node_word(event[1])} {node_word(event[2])}"
    if verb == "report":
        return f"report {event[1]} {'ok' if event[2] else 'fail'}"
    if verb == "app":
        return f"app {node_word(event[1])} {ask_words(event[2])}"
    if verb == "end":
        return "end"
    return f"{verb} {event[1]}"


def ask_words(ask):
    """The words of an ask. Chapter "Schedules"."""
    kind = ask[0]
    if kind == "leave":
        return f"leave {ask[1]}"
    if kind != "name":
        words = f"{kind} {ask[1][0]}:{ask[1][1]}"
        if kind == "sync":
            return words
        words += f" {ask[2]}"
        if kind == "write":
            return f"{words} {ask[3][0]}"
        return f"{words} {ask[3]} {len(ask[4])} {ask[4][0]}" if kind == "patch" else words
    op, directory, *fields = ask[2]
    verb = ("lookup", "create", "mkdir", "remove", "rename", "list")[op - 1]
    words = [field.decode("latin-1") if isinstance(field, bytes) else str(field) for field in fields]
    if op == wire.LIST and not fields[0]:
        words = ["-"]
    return " ".join([verb, f"{ask[1]}:{directory}", *words])
