"""The nodes of libtank from Python: a thin layer over include/tank.h, whose words count.

    with Client(settings, 1, [0]) as client:
        frames = client.step(now, frame)          # a list of frames, each with its length
        server.step(now, frame, keep)             # keep(place, bytes) writes to the journal and syncs

Set TANK_LIBRARY to the shared library, or put libtank.so beside this file.
"""
import ctypes as c
import os
import pathlib

RESULTS = {
    0: "TANK_DONE", 1: "TANK_BUSY", 2: "TANK_ABSENT", 3: "TANK_NO_MEMORY", 4: "TANK_CRASHED",
    5: "TANK_STARVED", 6: "TANK_UNTAKEN", 7: "TANK_TIME", 8: "TANK_FULL", 9: "TANK_UNKEPT",
    10: "TANK_SHORT_ROOM", 11: "TANK_JOURNAL_FULL", 12: "TANK_UNKNOWN", 13: "TANK_RANGE",
    14: "TANK_OTHER_KIND", 15: "TANK_NULL", 16: "TANK_CUT", 17: "TANK_EXTRA", 18: "TANK_SHORT",
    19: "TANK_LONG", 20: "TANK_KIND", 21: "TANK_VALUE", 22: "TANK_NO_VERSION", 23: "TANK_TOO_LONG",
    32: "TANK_SETTINGS_ORDER", 33: "TANK_SETTINGS_RATE", 34: "TANK_SETTINGS_LEASE",
    35: "TANK_SETTINGS_DEMAND", 36: "TANK_SETTINGS_GRAIN", 37: "TANK_NUMBER", 38: "TANK_SERVERS",
    39: "TANK_LIVES", 40: "TANK_SHAPE", 41: "TANK_JOURNAL_SIZE", 42: "TANK_JOURNAL_DAMAGED",
    43: "TANK_JOURNAL_FOREIGN", 44: "TANK_EPOCHS",
}
ASKS = {
    "write": 1, "read": 2, "sync": 3, "cut": 4, "patch": 6, "lookup": 81, "create": 82,
    "mkdir": 83, "remove": 84, "rename": 85, "list": 86,
}
ANSWERS = {
    "written": 0, "read": 1, "hard": 2, "cut": 3, "named": 4, "listed": 5, "refused": 6,
    "quiesced": 17, "no_file": 18, "no_space": 19, "disk_fault": 20, "ops_full": 21,
    "uncertain": 22, "lost": 23, "dirty_full": 24, "not_holder": 25, "too_many_locks": 26,
}
EVENTS = {
    "suspected": 1, "stolen": 2, "cut": 3, "granted": 4, "welcomed": 5, "leased": 6, "lost": 7,
    "written": 8,
}
ENDS = {"failed": 0, "written": 1, "read": 2}
PAGE = 4096
NEVER = 2**64 - 1  # no reading of a clock
PHASES = ("none", "valid", "renewal", "quiesce", "flush", "expired")


class Refused(Exception):
    """A call that was refused: the result's number, its name, and the place that it tells."""

    def __init__(self, result, at=0):
        super().__init__(f"{RESULTS.get(result, result)} at {at}" if at else RESULTS.get(result, result))
        self.result, self.name, self.at = result, RESULTS.get(result, ""), at


class Settings(c.Structure):
    _fields_ = [(name, c.c_uint64) for name in ("lease", "renew", "quiesce", "flush", "demand", "retry", "num", "den", "grain")]


class Shape(c.Structure):
    _fields_ = [("id", c.c_uint16), ("servers", c.c_uint16), ("disks", c.c_uint16), ("blocks", c.c_uint32)]


class Association(c.Structure):
    _fields_ = [("life", c.c_uint64), ("lease_end", c.c_uint64), ("phase", c.c_uint32), ("dirty", c.c_uint32)]


class ClientCounted(c.Structure):
    """How much a client has of a server."""
    _fields_ = [(name, c.c_uint64) for name in ("locks", "waits", "dirty", "clean", "commands", "pending")]


class ServerCounted(c.Structure):
    """How much a server has."""
    _fields_ = [(name, c.c_uint64) for name in ("sessions", "locks", "waits", "suspects", "names", "mapped", "free", "journal", "journal_size")]


class Event(c.Structure):
    """What a step tells beside its frames. Its kind is a number of EVENTS."""
    _fields_ = [("life", c.c_uint64), ("moment", c.c_uint64), ("grant", c.c_uint64), ("event", c.c_uint32), ("ino", c.c_uint32),
                ("page", c.c_uint32), ("mode", c.c_uint32), ("client", c.c_uint16), ("server", c.c_uint16)]


class Tag(c.Structure):
    _fields_ = [("birth", c.c_uint64), ("ino", c.c_uint32), ("page", c.c_uint32),
                ("server", c.c_uint16)]


class Ask(c.Structure):
    """An ask. Its kind is a number of ASKS."""
    _fields_ = [("op", c.c_uint64), ("ask", c.c_uint32), ("ino", c.c_uint32), ("page", c.c_uint32),
                ("other", c.c_uint32), ("server", c.c_uint16), ("at", c.c_uint16),
                ("client", c.c_uint16)]


class Done(c.Structure):
    """The end of a disk command. Its result is a number of ENDS."""
    _fields_ = [("number", c.c_uint64), ("tag", Tag), ("result", c.c_uint32), ("client", c.c_uint16)]


class Answer(c.Structure):
    """An answer. Its kind is a number of ANSWERS."""
    _fields_ = [("op", c.c_uint64), ("first", c.c_uint64), ("second", c.c_uint64),
                ("page", c.c_size_t), ("rows", c.c_size_t), ("answer", c.c_uint32),
                ("client", c.c_uint16)]


class Entry(c.Structure):
    _fields_ = [("length", c.c_size_t), ("ino", c.c_uint32), ("directory", c.c_uint32),
                ("name", c.c_uint8 * 64)]


class LostPage(c.Structure):
    _fields_ = [("command", c.c_uint64), ("page", c.c_uint32)]


class Command(c.Structure):
    """A disk command: 0 for a read and 1 for a write."""
    _fields_ = [("number", c.c_uint64), ("tag", Tag), ("page", c.c_size_t), ("command", c.c_uint32),
                ("block", c.c_uint32), ("disk", c.c_uint16), ("client", c.c_uint16)]


class Frame(c.Structure):
    _fields_ = [("size", c.c_size_t), ("version", c.c_uint16), ("kind", c.c_uint16),
                ("from_", c.c_uint16), ("to", c.c_uint16)]


class _Handle(c.Structure):
    _fields_ = [("at", c.c_void_p), ("full", c.c_bool)]


class _Step(c.Structure):
    _fields_ = [("at", c.c_uint64), ("flag", c.c_uint32)]


class _Record(c.Structure):
    _fields_ = [("gate", c.c_uint64), ("size", c.c_size_t)]


_P, _bytes, _size = c.POINTER, c.c_char_p, c.c_size_t
_CALLS = {
    "tank_client_open": [_P(_Handle), _P(Settings), c.c_uint16, _P(c.c_uint64), _size],
    "tank_client_step": [_P(_Handle), c.c_uint64, _bytes, _size, _P(_Step)],
    "tank_client_take": [_P(_Handle), _bytes, _size, _P(_size)],
    "tank_client_at": [_P(_Handle), c.c_uint16, c.c_uint64, _P(Association)],
    "tank_client_counts": [_P(_Handle), c.c_uint16, _P(ClientCounted)],
    "tank_client_owes": [_P(_Handle), c.c_uint16, c.c_uint32, _P(c.c_uint32)],
    "tank_client_due": [_P(_Handle), c.c_uint64, _P(c.c_uint64)],
    "tank_client_events": [_P(_Handle), _P(Event), _size, _P(_size)],
    "tank_client_close": [_P(_Handle)],
    "tank_server_open": [_P(_Handle), _P(Settings), _P(Shape), c.c_uint64, _bytes, _size, _P(c.c_uint64)],
    "tank_server_step": [_P(_Handle), c.c_uint64, _bytes, _size, _P(_Step)],
    "tank_server_record": [_P(_Handle), _bytes, _size, _P(_Record)],
    "tank_server_kept": [_P(_Handle)],
    "tank_server_take": [_P(_Handle), _bytes, _size, _P(_size)],
    "tank_server_epoch": [_P(_Handle)],
    "tank_server_counts": [_P(_Handle), _P(ServerCounted)],
    "tank_server_due": [_P(_Handle), _P(c.c_uint64)],
    "tank_server_events": [_P(_Handle), _P(Event), _size, _P(_size)],
    "tank_server_close": [_P(_Handle)],
    "tank_version": [],
    "tank_frame_at": [_bytes, _size, _P(Frame)],
    "tank_encode_tick": [c.c_uint16, _bytes, _size, _P(_size)],
    "tank_encode_ask": [_P(Ask), _bytes, _size, _bytes, _size, _bytes, _size, _P(_size)],
    "tank_encode_done": [_P(Done), _bytes, _size, _bytes, _size, _P(_size)],
    "tank_decode_answer": [_bytes, _size, _P(Answer), _bytes, _size],
    "tank_decode_entries": [_bytes, _size, _P(Entry), _size, _P(_size)],
    "tank_decode_lost_pages": [_bytes, _size, _P(LostPage), _size, _P(_size)],
    "tank_decode_command": [_bytes, _size, _P(Command), _bytes, _size],
}


def _load():
    library = c.CDLL(os.environ.get("TANK_LIBRARY") or str(pathlib.Path(__file__).resolve().parent / "libtank.so"))
    for name, arguments in _CALLS.items():
        call = getattr(library, name)
        call.argtypes = arguments
        call.restype = c.c_uint64 if name.endswith("epoch") else None if name.endswith("close") else c.c_uint32
    return library


_library = _load()


def frames_of(stream):
    """The frames of bytes that are whole frames, each with its length."""
    frames = []
    at = 0
    while at < len(stream):
        end = at + 4 + int.from_bytes(stream[at:at + 4], "big")
        frames.append(stream[at:end])
        at = end
    return frames


def version():
    return _library.tank_version()


def _encoded(call, *given):
    """The frame that a call writes."""
    out, count = c.create_string_buffer(65540), _size()
    result = call(*given, out, len(out), c.byref(count))
    if result:
        raise Refused(result)
    return c.string_at(out, count.value)


def tick(node):
    """The frame of a tick for a node."""
    return _encoded(_library.tank_encode_tick, node)


def ask(it, data=b"", other=b""):
    """The frame of an Ask with the bytes of its page, patch or name, and those of a new name."""
    return _encoded(_library.tank_encode_ask, c.byref(it), data, len(data), other, len(other))


def done(it, page=b""):
    """The frame of a Done with the page that was read."""
    return _encoded(_library.tank_encode_done, c.byref(it), page, len(page))


def _shown(call, frame, it):
    """What a call shows of a frame, with the bytes of a page."""
    page = c.create_string_buffer(PAGE)
    result = call(frame, len(frame), c.byref(it), page, len(page))
    if result:
        raise Refused(result)
    return it, page.raw[:it.page]


def _rows(call, frame, kind, most):
    rows, count = (kind * most)(), _size()
    result = call(frame, len(frame), rows, most, c.byref(count))
    if result:
        raise Refused(result)
    return rows[:count.value]


def answer(frame):
    """The Answer of a frame, and the page that was read."""
    return _shown(_library.tank_decode_answer, frame, Answer())


def entries(frame):
    """The entries of an answer that lists them."""
    return _rows(_library.tank_decode_entries, frame, Entry, 256)


def lost_pages(frame):
    """The pages of an answer that tells lost ones."""
    return _rows(_library.tank_decode_lost_pages, frame, LostPage, 1024)


def command(frame):
    """The disk Command of a frame, and the page that it writes."""
    return _shown(_library.tank_decode_command, frame, Command())


class _Node:
    def __init__(self, kind):
        self._handle = _Handle()
        self._ref = c.byref(self._handle)
        self._step = _Step()
        self._step_ref = c.byref(self._step)
        self._out = c.create_string_buffer(65540)
        self._count = _size()
        self._count_ref = c.byref(self._count)
        self._step_call = getattr(_library, f"tank_{kind}_step")
        self._take_call = getattr(_library, f"tank_{kind}_take")
        self._close_call = getattr(_library, f"tank_{kind}_close")
        self._events_call = getattr(_library, f"tank_{kind}_events")

    def _stepped(self, now, frame):
        result = self._step_call(self._ref, now, frame, len(frame), self._step_ref)
        if result:
            raise Refused(result, self._step.at)
        return self._step.flag

    def take(self):
        """The bytes that must be taken out, all of them."""
        pieces = []
        while True:
            result = self._take_call(self._ref, self._out, len(self._out), self._count_ref)
            if result:
                raise Refused(result)
            if not self._count.value:
                return pieces[0] if len(pieces) == 1 else b"".join(pieces)
            pieces.append(c.string_at(self._out, self._count.value))

    def events(self):
        """What the last step told, in order."""
        room, count = 16, _size()
        while True:
            found = (Event * room)()
            result = self._events_call(self._ref, found, room, c.byref(count))
            if RESULTS.get(result) != "TANK_SHORT_ROOM":
                break
            room = count.value
        if result:
            raise Refused(result)
        return found[:count.value]

    def close(self):
        self._close_call(self._ref)

    __del__ = close

    def __enter__(self):
        return self

    def __exit__(self, *error):
        self.close()


class Client(_Node):
    """A client that runs. `lives` has one number for each server: all 0, or those that were kept
    last. `keep(lives)` is called when there are new ones to be kept, in opening and in steps."""

    def __init__(self, settings, id, lives, keep=None):
        super().__init__("client")
        self._servers, self._keep = len(lives), keep
        result = _library.tank_client_open(self._ref, c.byref(settings), id, (c.c_uint64 * max(len(lives), 1))(*lives), len(lives))
        if result:
            raise Refused(result)
        self._kept()

    def _kept(self):
        if self._keep is not None:
            self._keep(self.lives())

    def lives(self):
        return [self.at(server, 0).life for server in range(1, self._servers + 1)]

    def at(self, server, now):
        """What the client has at a server: life, lease_end, phase (see PHASES) and dirty."""
        found = Association()
        result = _library.tank_client_at(self._ref, server, now, c.byref(found))
        if result:
            raise Refused(result)
        return found

    def counts(self, server):
        """How much the client has of a server."""
        found = ClientCounted()
        result = _library.tank_client_counts(self._ref, server, c.byref(found))
        if result:
            raise Refused(result)
        return found

    def owes(self, server, ino):
        """Whether an ask waits for this file of the server, so demands for it are held back."""
        found = c.c_uint32()
        result = _library.tank_client_owes(self._ref, server, ino, c.byref(found))
        if result:
            raise Refused(result)
        return found.value == 1

    def due(self, now):
        """The first moment from now on at which a tick does something; None if there is none."""
        found = c.c_uint64()
        result = _library.tank_client_due(self._ref, now, c.byref(found))
        if result:
            raise Refused(result)
        return None if found.value == NEVER else found.value

    def step(self, now, frame):
        """Takes a step for one frame, with its length, and returns the frames that come of it."""
        return frames_of(self.step_bytes(now, frame))

    def step_bytes(self, now, frame):
        """The same as one run of bytes."""
        if self._stepped(now, frame):
            self._kept()
        return self.take()


class Server(_Node):
    """A server on the bytes of its journal, in its next epoch. `keep(place, bytes)` writes bytes at
    a place of the journal and syncs; it returns only when they are on the disk."""

    def __init__(self, settings, shape, now, journal, keep):
        super().__init__("server")
        self._keep = keep
        self._record = c.create_string_buffer(526)
        at = c.c_uint64()
        result = _library.tank_server_open(self._ref, c.byref(settings), c.byref(shape), now, bytes(journal), len(journal), c.byref(at))
        if result:
            raise Refused(result, at.value)
        self._write()

    def _write(self):
        record = _Record()
        result = _library.tank_server_record(self._ref, self._record, len(self._record), c.byref(record))
        if result:
            raise Refused(result)
        if record.size:
            self._keep(record.gate + 1, c.string_at(self._record, record.size))
            self._keep(record.gate, b"\1")
            _library.tank_server_kept(self._ref)

    @property
    def epoch(self):
        return _library.tank_server_epoch(self._ref)

    def due(self):
        """The earliest moment at which a tick would do something; None if there is none."""
        found = c.c_uint64()
        result = _library.tank_server_due(self._ref, c.byref(found))
        if result:
            raise Refused(result)
        return None if found.value == NEVER else found.value

    def counts(self):
        """How much the server has."""
        found = ServerCounted()
        result = _library.tank_server_counts(self._ref, c.byref(found))
        if result:
            raise Refused(result)
        return found

    def step(self, now, frame):
        """Takes a step for one frame, with its length, keeps its change, and returns the frames
        that come of it.
        """
        return frames_of(self.step_bytes(now, frame))

    def step_bytes(self, now, frame):
        """The same as one run of bytes."""
        if self._stepped(now, frame):
            self._write()
        return self.take()
