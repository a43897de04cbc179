"""Messages and their bytes. Chapter "Wire"."""

from typing import NamedTuple

HELLO, KEEPALIVE, ACQUIRE, RELEASED, MAP, ALLOCATE, CUT, NAME, REASSERT, DEMANDSEEN = range(1, 11)
WELCOME, ACK, NACK, GRANTED, QUEUED, DEMAND, EXTENTS, NAMED, REASSERTED = range(32, 41)
TICK, APP, APPDONE, SUBMIT, DONE = range(64, 69)

KIND_NAMES = {
    HELLO: "hello", KEEPALIVE: "keepalive", ACQUIRE: "acquire", RELEASED: "released", MAP: "map", ALLOCATE: "allocate",
    CUT: "cut", NAME: "name", REASSERT: "reassert", DEMANDSEEN: "demandseen", WELCOME: "welcome", ACK: "ack", NACK: "nack",
    GRANTED: "granted", QUEUED: "queued", DEMAND: "demand", EXTENTS: "extents", NAMED: "named", REASSERTED: "reasserted",
    TICK: "tick", APP: "app", APPDONE: "appdone", SUBMIT: "submit", DONE: "done",
}

LOOKUP, CREATE, MKDIR, REMOVE, RENAME, LIST = range(1, 7)

CAUSES = ("suspect", "nosession", "otherepoch", "grace", "graceover", "conflict", "notholder", "nofile", "nospace", "toomanylocks")
CAUSE_NUMBERS = {cause: number for number, cause in enumerate(CAUSES, 1)}

SURROUNDINGS = 0
SERVER_BASE = 32768
LAST_PAGE = 1048575
WHOLE_PAGE = 4096
HEADER = 38
FRAME_LIMIT = 65536


class Message(NamedTuple):
    """The parts of a message; the body has the fields of its kind in order. Chapter "Wire"."""

    kind: int
    sender: int
    receiver: int
    life: int
    epoch: int
    number: int
    stamp: int
    body: tuple


def is_client(node, version=3):
    """A client is the node of its own number, 1 to 16, in version 3 to 64. Chapter "Wire"."""
    return 1 <= node <= (64 if version == 3 else 16)


def is_server(node, version=3):
    """A server is the node 32,768 and its number, 1 to 4, in version 3 to 8. Chapter "Wire"."""
    return SERVER_BASE + 1 <= node <= SERVER_BASE + (8 if version == 3 else 4)


class Refusal(Exception):
    """Short, Version, Kind, Value(offset), Long, FrameTooLong(length). Chapter "Wire", section
    "Refusals".
    """

    def __init__(self, name, *values):
        super().__init__(name, *values)
        self.name, self.values = name, values


class Reader:
    """Reads fields from the left; the first fault is raised. Section "Refusals"."""

    def __init__(self, data):
        self.data, self.place = data, 0

    def take(self, count):
        """The next bytes; Short if they end. Chapter "Wire"."""
        if self.place + count > len(self.data):
            raise Refusal("Short")
        piece = self.data[self.place : self.place + count]
        self.place += count
        return piece

    def number(self, width, fits=None):
        """A number, its highest byte first; out of range it is Value at its first byte. Chapter
        "Wire".
        """
        offset = self.place
        value = int.from_bytes(self.take(width), "big")
        if fits is not None and not fits(value):
            raise Refusal("Value", offset)
        return value

    def between(self, width, low, high):
        """A number in a range. Chapter "Wire"."""
        return self.number(width, lambda value: low <= value <= high)

    def above(self, width, low):
        """A number that is at least this. Chapter "Wire"."""
        return self.number(width, lambda value: value >= low)

    def ino(self):
        """An ino. Chapter "Wire"."""
        return self.above(4, 1)

    def page(self):
        """A page. Chapter "Wire"."""
        return self.between(4, 0, LAST_PAGE)

    def grant(self):
        """A grant. Chapter "Wire"."""
        return self.number(8)

    def mode(self):
        """A mode. Chapter "Wire"."""
        return self.between(1, 1, 2)

    def to(self):
        """A to. Chapter "Wire"."""
        return self.between(1, 0, 1)

    def name(self, low=1, high=255):
        """A name with its length. Chapter "Wire"."""
        length = self.between(1, low, high)
        return self.take(length)

    def file(self):
        """A file. Chapter "Wire"."""
        return (self.above(2, 1), self.ino())

    def whole_page(self):
        """A whole page. Chapter "Wire"."""
        return self.take(WHOLE_PAGE)


FROM_CLIENT = range(HELLO, DEMANDSEEN + 1)
FROM_SERVER = range(WELCOME, REASSERTED + 1)
LOCAL = range(TICK, DONE + 1)

VERSIONS = {1: (1, 2), 2: (1, 2), 3: (3,)}


def header_ranges(kind, version):
    """What fits from, to, life, epoch, number and stamp of a kind. Section "The header". Chapter
    "Wire".
    """
    client, server = lambda node: is_client(node, version), lambda node: is_server(node, version)
    anything = lambda value: True
    nothing = lambda value: value == 0
    positive = lambda value: value >= 1
    if kind in FROM_CLIENT:
        epoch = nothing if kind == HELLO else positive
        number = nothing if kind in (HELLO, DEMANDSEEN) else positive
        stamp = nothing if kind == DEMANDSEEN else anything
        return client, server, positive, epoch, number, stamp
    if kind in FROM_SERVER:
        number = nothing if kind in (WELCOME, DEMAND) else anything if kind in (NACK, GRANTED) else positive
        stamp = nothing if kind == DEMAND else anything
        return server, client, positive, positive, number, stamp
    if kind == TICK:
        return nothing, lambda value: client(value) or server(value), nothing, nothing, nothing, nothing
    if kind in (APP, DONE):
        return nothing, client, nothing, nothing, nothing, nothing
    return client, nothing, nothing, nothing, nothing, nothing


def decode(data, form=1):
    """The message that the bytes spell, in a version of the form; else Refusal. Chapter "Wire"."""
    reader = Reader(bytes(data))
    version = reader.number(1)
    if version not in VERSIONS[form]:
        raise Refusal("Version")
    kind = reader.number(1)
    if kind not in KIND_NAMES or (version == 2 and kind != APP):
        raise Refusal("Kind")
    ranges = header_ranges(kind, version)
    head = [reader.number(width, fits) for width, fits in zip((2, 2, 8, 8, 8, 8), ranges)]
    body = read_body(reader, kind, version)
    if reader.place < len(reader.data):
        raise Refusal("Long")
    return Message(kind, *head, body)


def read_body(reader, kind, version):
    """The fields of a body. Sections "Bodies from a client to a server" to "Local bodies". Chapter
    "Wire".
    """
    if kind in (HELLO, KEEPALIVE, WELCOME, ACK, REASSERTED, TICK):
        return ()
    if kind == ACQUIRE or kind == QUEUED:
        return reader.ino(), reader.mode()
    if kind == RELEASED or kind == DEMAND:
        return reader.ino(), reader.grant(), reader.to()
    if kind in (MAP, CUT):
        return reader.ino(), reader.grant(), reader.page()
    if kind == ALLOCATE:
        ino, grant, page = reader.ino(), reader.grant(), reader.page()
        return ino, grant, page, reader.number(2, lambda count: 1 <= count <= 64 and page + count <= LAST_PAGE + 1)
    if kind == NAME:
        return read_name_op(reader, False)
    if kind == REASSERT:
        return (read_locks(reader, version),)
    if kind == DEMANDSEEN:
        return reader.ino(), reader.grant()
    if kind == NACK:
        return reader.between(1, 1, 10), reader.number(8), reader.number(8)
    if kind == GRANTED:
        return reader.ino(), reader.grant(), reader.mode()
    if kind == EXTENTS:
        return reader.ino(), read_extents(reader, version)
    if kind == NAMED:
        tag = reader.between(1, 0, 2)
        if tag == 0:
            return 0, reader.ino()
        if tag == 1:
            return 1, read_entries(reader)
        return 2, reader.between(1, 1, 8)
    if kind == APP:
        return reader.number(4), read_ask(reader, version)
    if kind == APPDONE:
        return reader.number(4), read_answer(reader, version)
    if kind == SUBMIT:
        own, disk, block = reader.number(8), reader.number(2), reader.number(4)
        if reader.between(1, 0, 1) == 0:
            return own, disk, block, None
        server, ino = reader.file()
        return own, disk, block, (server, ino, reader.page(), reader.number(8), reader.whole_page())
    own = reader.number(8)
    ending = reader.between(1, 0, 2)
    if ending < 2:
        return own, ("failed", "written")[ending], None
    return own, "read", (reader.number(2), reader.number(4), reader.page(), reader.number(8), reader.whole_page())


def read_name_op(reader, is_ask):
    """An op and its fields. Section "Bodies from a client to a server", kind 8. Chapter "Wire"."""
    op = reader.between(1, LOOKUP, LIST)
    directory = reader.ino()
    if op == LIST:
        return op, directory, reader.name(0)
    name = reader.name()
    if op == REMOVE:
        return op, directory, name, reader.number(4 if is_ask else 8)
    if op == RENAME:
        return op, directory, name, reader.ino(), reader.name()
    return op, directory, name


def read_rising(reader, count, first, rest):
    """Rows whose first fields rise strictly; one that does not is Value there. Chapter "Wire"."""
    rows, last = [], -1
    for _ in range(count):
        offset = reader.place
        leading = first()
        if leading <= last:
            raise Refusal("Value", offset)
        last = leading
        rows.append((leading, *rest()))
    return tuple(rows)


def read_locks(reader, version):
    """The rows of a reassertion: inode, grant, mode. Chapter "Wire"."""
    count = reader.between(2, 0, 4096 if version == 3 else 1024)
    return read_rising(reader, count, reader.ino, lambda: (reader.grant(), reader.mode()))


def read_extents(reader, version):
    """The rows of extents: page, disk, block, birth. Chapter "Wire"."""
    count = reader.between(2, 0, 64)
    disks, blocks = (16, 2**28) if version == 3 else (8, 4096)
    return read_rising(
        reader, count, reader.page, lambda: (reader.between(2, 1, disks), reader.between(4, 0, blocks - 1), reader.number(8))
    )


def read_entries(reader):
    """Entries of a listing: inode, kind, name. Chapter "Wire"."""
    count = reader.between(2, 0, 256)
    return tuple((reader.ino(), reader.between(1, 1, 2), reader.name(1, 64)) for _ in range(count))


def read_ask(reader, version):
    """An ask and its fields. Section "Local bodies". Chapter "Wire"."""
    ask = reader.number(1, lambda value: 1 <= value <= (5, 6, 7)[version - 1] and (version != 2 or value == 6))
    if ask == 1:
        return "write", reader.file(), reader.page(), reader.whole_page()
    if ask == 2:
        return "read", reader.file(), reader.page()
    if ask == 3:
        return "sync", reader.file()
    if ask == 4:
        return "cut", reader.file(), reader.page()
    if ask == 5:
        server = reader.above(2, 1)
        return "name", server, read_name_op(reader, True)
    if ask == 7:
        return "leave", reader.above(2, 1)
    file, page = reader.file(), reader.page()
    at = reader.between(2, 0, WHOLE_PAGE - 1)
    length = reader.between(2, 1, WHOLE_PAGE - at)
    return "patch", file, page, at, reader.take(length)


ANSWER_TAGS = {
    0: "written", 1: "read", 2: "hard", 3: "cut", 4: "named", 5: "listed", 6: "refused", 17: "quiesced", 18: "nofile",
    19: "nospace", 20: "diskfault", 21: "opsfull", 22: "uncertain", 23: "lost", 24: "dirtyfull", 25: "notholder",
    26: "toomanylocks",
}
TAGS_OF_FORM_3 = {7: "left", 27: "unsynced"}
TAGS_OF_ANSWERS = {name: tag for tag, name in (ANSWER_TAGS | TAGS_OF_FORM_3).items()}


def read_answer(reader, version):
    """An answer and its fields. Section "Local bodies". Chapter "Wire"."""
    tags = ANSWER_TAGS | TAGS_OF_FORM_3 if version == 3 else ANSWER_TAGS
    answer = tags[reader.number(1, tags.__contains__)]
    if answer == "read":
        return answer, reader.whole_page()
    if answer in ("named", "unsynced"):
        return answer, reader.ino()
    if answer == "listed":
        return answer, read_entries(reader)
    if answer == "refused":
        return answer, reader.number(1)
    if answer in ("nospace", "uncertain"):
        return answer, reader.number(8), reader.number(8)
    if answer == "diskfault":
        return answer, reader.number(8)
    if answer == "lost":
        count = reader.between(2, 1, 1024)
        return answer, read_rising(reader, count, reader.page, lambda: (reader.number(8),))
    return (answer,)


def number(value, width):
    """A number, its highest byte first. Chapter "Wire"."""
    return value.to_bytes(width, "big")


def encode(message, form=1):
    """The one spelling of a message that fits. Chapter "Wire"."""
    version = 3 if form == 3 else 2 if message.kind == APP and message.body[1][0] == "patch" else 1
    head = bytes((version, message.kind))
    for value, width in zip(message[1:7], (2, 2, 8, 8, 8, 8)):
        head += number(value, width)
    return head + spell_body(message.kind, message.body)


def spell_body(kind, body):
    """The bytes of a body. Chapter "Wire"."""
    if kind in (HELLO, KEEPALIVE, WELCOME, ACK, REASSERTED, TICK):
        return b""
    if kind in (ACQUIRE, QUEUED):
        return number(body[0], 4) + number(body[1], 1)
    if kind in (RELEASED, DEMAND, GRANTED):
        return number(body[0], 4) + number(body[1], 8) + number(body[2], 1)
    if kind in (MAP, CUT):
        return number(body[0], 4) + number(body[1], 8) + number(body[2], 4)
    if kind == ALLOCATE:
        return number(body[0], 4) + number(body[1], 8) + number(body[2], 4) + number(body[3], 2)
    if kind == NAME:
        return spell_name_op(body, 8)
    if kind == REASSERT:
        return number(len(body[0]), 2) + b"".join(number(i, 4) + number(g, 8) + number(m, 1) for i, g, m in body[0])
    if kind == DEMANDSEEN:
        return number(body[0], 4) + number(body[1], 8)
    if kind == NACK:
        return number(body[0], 1) + number(body[1], 8) + number(body[2], 8)
    if kind == EXTENTS:
        rows = b"".join(number(p, 4) + number(d, 2) + number(b, 4) + number(n, 8) for p, d, b, n in body[1])
        return number(body[0], 4) + number(len(body[1]), 2) + rows
    if kind == NAMED:
        tag = number(body[0], 1)
        if body[0] == 0:
            return tag + number(body[1], 4)
        return tag + (spell_entries(body[1]) if body[0] == 1 else number(body[1], 1))
    if kind == APP:
        return number(body[0], 4) + spell_ask(body[1])
    if kind == APPDONE:
        return number(body[0], 4) + spell_answer(body[1])
    if kind == SUBMIT:
        own, disk, block, write = body
        return number(own, 8) + number(disk, 2) + number(block, 4) + (b"\0" if write is None else b"\1" + spell_tagged(write))
    own, ending, found = body
    return number(own, 8) + number(("failed", "written", "read").index(ending), 1) + (spell_tagged(found) if found else b"")


def spell_tagged(tagged):
    """File, page, birth and whole page. Chapter "Wire"."""
    server, ino, page, birth, data = tagged
    return number(server, 2) + number(ino, 4) + number(page, 4) + number(birth, 8) + data


def spell_name(name):
    """A name with its length. Chapter "Wire"."""
    return number(len(name), 1) + name


def spell_name_op(fields, last_width):
    """An op and its fields. Chapter "Wire"."""
    op, directory = fields[0], fields[1]
    spelled = number(op, 1) + number(directory, 4) + spell_name(fields[2])
    if op == REMOVE:
        return spelled + number(fields[3], last_width)
    if op == RENAME:
        return spelled + number(fields[3], 4) + spell_name(fields[4])
    return spelled


def spell_entries(entries):
    """Entries of a listing with their count. Chapter "Wire"."""
    return number(len(entries), 2) + b"".join(number(i, 4) + number(k, 1) + spell_name(n) for i, k, n in entries)


def spell_file(file):
    """A file: server and inode. Chapter "Wire"."""
    return number(file[0], 2) + number(file[1], 4)


def spell_ask(ask):
    """An ask and its fields. Chapter "Wire"."""
    kind = ask[0]
    if kind == "name":
        return b"\5" + number(ask[1], 2) + spell_name_op(ask[2], 4)
    if kind == "leave":
        return b"\7" + number(ask[1], 2)
    spelled = spell_file(ask[1])
    if kind == "sync":
        return b"\3" + spelled
    spelled += number(ask[2], 4)
    if kind == "write":
        return b"\1" + spelled + ask[3]
    if kind == "patch":
        return b"\6" + spelled + number(ask[3], 2) + number(len(ask[4]), 2) + ask[4]
    return (b"\2" if kind == "read" else b"\4") + spelled


def spell_answer(answer):
    """An answer and its fields. Chapter "Wire"."""
    kind = answer[0]
    tag = number(TAGS_OF_ANSWERS[kind], 1)
    if kind == "read":
        return tag + answer[1]
    if kind in ("named", "unsynced"):
        return tag + number(answer[1], 4)
    if kind == "listed":
        return tag + spell_entries(answer[1])
    if kind == "refused":
        return tag + number(answer[1], 1)
    if kind in ("nospace", "uncertain"):
        return tag + number(answer[1], 8) + number(answer[2], 8)
    if kind == "diskfault":
        return tag + number(answer[1], 8)
    if kind == "lost":
        return tag + number(len(answer[1]), 2) + b"".join(number(p, 4) + number(c, 8) for p, c in answer[1])
    return tag


FIXED_SIZES = {
    HELLO: 0, KEEPALIVE: 0, WELCOME: 0, ACK: 0, REASSERTED: 0, ACQUIRE: 5, QUEUED: 5, RELEASED: 13, DEMAND: 13, GRANTED: 13,
    MAP: 16, CUT: 16, ALLOCATE: 18, DEMANDSEEN: 12, NACK: 17,
}


def size_of(message):
    """The length of the spelling. Chapter "Wire"."""
    fixed = FIXED_SIZES.get(message.kind)
    if fixed is not None:
        return HEADER + fixed
    return HEADER + len(spell_body(message.kind, message.body))


class FrameReader:
    """Frames from a stream in any pieces. Section "Frames"."""

    def __init__(self, form=1):
        self.form = form
        self.held = b""
        self.offset = 0
        self.refusal = None

    def feed(self, piece):
        """A piece of the stream is held. Chapter "Wire"."""
        self.held += piece

    def next(self):
        """The next message, None, or the refusal raised (then again and again). Chapter "Wire"."""
        if self.refusal is not None:
            raise self.refusal
        while len(self.held) >= 4:
            length = int.from_bytes(self.held[:4], "big")
            try:
                if length > FRAME_LIMIT:
                    raise Refusal("FrameTooLong", length)
                if len(self.held) < 4 + length:
                    return None
                data = self.held[4 : 4 + length]
                message = None if self.passes_over(data) else decode(data, self.form)
            except Refusal as refusal:
                self.refusal = refusal
                raise
            self.held = self.held[4 + length :]
            self.offset += 4 + length
            if message is not None:
                return message
        return None

    def passes_over(self, data):
        """A node of the third form ignores versions 1 and 2. Chapter "The third form"."""
        return self.form == 3 and data[:1] in (b"\1", b"\2")


def frame(message, form=1):
    """The frame of a message. Section "Frames". Chapter "Wire"."""
    spelled = encode(message, form)
    return number(len(spelled), 4) + spelled
