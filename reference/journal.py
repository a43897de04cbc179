"""A journal of changes over a store that may crash, and its script. Chapters "A metadata journal",
"Scripts".
"""

from .extents import Extents
from .names import Names
from .wire import LAST_PAGE

STORE = 4 * 1024 * 1024
EPOCH, ALLOCATE, CUT, CREATE, MKDIR, REMOVE, RENAME = 1, 2, 3, 4, 5, 6, 7


class StoreFailed(Exception):
    """A call of a store that failed."""


class MemoryStore:
    """A store in memory, with the stop that a script sets. Chapter "A metadata journal", "A store
    in memory".
    """

    def __init__(self, size):
        self.bytes = bytearray(size)
        self.loose = []
        self.stopped_at = None
        self.filled = 0
        self.calls = 0

    def stop(self, call, byte):
        """In the call of this number, counted from now, the bytes since the last sync become this
        one; it and later calls fail.
        """
        self.stopped_at, self.filled, self.calls = call, byte, 0

    def restart(self):
        """The stop is taken out; the bytes stay."""
        self.stopped_at = None

    def call(self):
        """One more call; whether it is that of the stop. A later one fails."""
        self.calls += 1
        if self.stopped_at is not None and self.calls > self.stopped_at:
            raise StoreFailed
        return self.calls == self.stopped_at

    def fail(self):
        """The stop: each byte that was written since the last sync becomes the one of the stop."""
        for at, count in self.loose:
            self.bytes[at : at + count] = bytes((self.filled,)) * count
        raise StoreFailed

    def read(self, at, count):
        if self.call():
            self.fail()
        return bytes(self.bytes[at : at + count])

    def write(self, at, data):
        stops = self.call()
        self.bytes[at : at + len(data)] = data
        self.loose.append((at, len(data)))
        if stops:
            self.fail()

    def sync(self):
        if self.call():
            self.fail()
        self.loose = []


def encoded(change):
    """The bytes of a change: its kind and its fields. Chapter "A metadata journal", "Changes"."""
    kind, *fields = change
    sizes = {ALLOCATE: (4, 4, 2), CUT: (4, 4)}.get(kind, (4, 4) if kind == RENAME else (4,))
    numbers = [field for field in fields if not isinstance(field, bytes)]
    places = iter(sizes)
    out = bytes((kind,))
    for field in fields:
        out += bytes((len(field),)) + field if isinstance(field, bytes) else field.to_bytes(next(places), "big")
    assert len(numbers) <= len(sizes)
    return out


def decoded(data):
    """The change of these bytes, all of them, or None. Chapter "A metadata journal", "Changes"."""
    forms = {EPOCH: "", ALLOCATE: "442", CUT: "44", CREATE: "4n", MKDIR: "4n", REMOVE: "4n", RENAME: "4n4n"}
    if not data or data[0] not in forms:
        return None
    fields, at = [], 1
    for form in forms[data[0]]:
        if form == "n":
            if at >= len(data) or at + 1 + data[at] > len(data):
                return None
            fields.append(data[at + 1 : at + 1 + data[at]])
            at += 1 + data[at]
        else:
            if at + int(form) > len(data):
                return None
            fields.append(int.from_bytes(data[at : at + int(form)], "big"))
            at += int(form)
    if at != len(data) or not in_ranges(data[0], fields):
        return None
    return (data[0], *fields)


def in_ranges(kind, fields):
    """The numbers of an Allocate and a Cut are in their ranges. Chapter "A metadata journal",
    "Changes".
    """
    if kind not in (ALLOCATE, CUT):
        return True
    if fields[0] < 1 or fields[1] > LAST_PAGE:
        return False
    return kind == CUT or (1 <= fields[2] <= 64 and fields[1] + fields[2] <= LAST_PAGE + 1)


class Stable:
    """Epoch, names and extents. Chapter "A metadata journal", "Apply"."""

    def __init__(self):
        self.epoch, self.names, self.extents = 0, Names(), Extents(1, 1, 1, 64)

    def apply(self, change):
        """A refusal as the words of an answer, or None. Chapter "A metadata journal", "Apply"."""
        kind, *fields = change
        if kind == EPOCH:
            self.epoch += 1
            return None
        if kind in (ALLOCATE, CUT):
            return self.apply_to_pages(kind, *fields)
        if kind in (CREATE, MKDIR):
            refusal, _ = self.names.create(*fields, kind == MKDIR)
        elif kind == REMOVE:
            refusal, ino = self.names.remove(*fields)
            if refusal is None:
                self.extents.release(ino, 0)
        else:
            refusal, _ = self.names.rename(*fields)
        return None if refusal is None else f"refused {refusal}"

    def apply_to_pages(self, kind, ino, page, count=0):
        """An Allocate or a Cut. Chapter "A metadata journal", "Apply"."""
        if not self.names.is_file(ino):
            return "nofile"
        if kind == CUT:
            self.extents.release(ino, page)
            return None
        short = self.extents.allocate(ino, page, count)
        return None if short is None else f"nospace {short[0]} {short[1]}"

    def text(self):
        """The last line of a script. Chapter "Scripts", "journal"."""
        mapped = sum(len(pages) for pages in self.extents.pages.values())
        return (
            f"state epoch {self.epoch} entries {len(self.names.by_ino)} mapped {mapped} free {self.extents.free()} "
            f"next {self.extents.births + 1}"
        )


class Journal:
    """An opened journal: its store, the place of its last gate, and how many changes it has.
    Chapter "A metadata journal".
    """

    def __init__(self, store):
        """The journal is opened: a sync, and then all is read."""
        store.sync()
        self.store, self.gate, self.changes, self.stable = store, 0, 0, Stable()
        while store.read(self.gate, 1) == b"\x01":
            length = int.from_bytes(store.read(self.gate + 1, 4), "big")
            change = decoded(store.read(self.gate + 5, length))
            assert change is not None and self.stable.apply(change) is None
            self.gate += 5 + length
            self.changes += 1

    def append(self, change):
        """A change is written after the last gate, and then the gate. Chapter "A metadata journal",
        "How a change is written".
        """
        data = encoded(change)
        self.store.write(self.gate + 1, len(data).to_bytes(4, "big") + data + b"\x00")
        self.store.sync()
        self.store.write(self.gate, b"\x01")
        self.store.sync()
        self.gate += 5 + len(data)
        self.changes += 1


class JournalScript:
    """The command `journal`. Chapter "Scripts"."""

    def __init__(self):
        self.journal = Journal(MemoryStore(STORE))
        self.stable = self.journal.stable
        self.stop = None

    @staticmethod
    def read(words):
        """An event of a line. Chapter "Scripts", "journal"."""
        verb = words.choice("epoch", "allocate", "cut", "create", "mkdir", "remove", "rename", "stop")
        if verb == "stop":
            return "stop", words.number(1, 4), words.number(0, 255)
        if verb == "epoch":
            return (EPOCH,)
        number = words.number(1, 2**32 - 1)
        if verb in ("allocate", "cut"):
            page = words.page()
            return (CUT, number, page) if verb == "cut" else (ALLOCATE, number, page, words.number(1, min(64, LAST_PAGE + 1 - page)))
        name = words.name()
        if verb == "rename":
            return RENAME, number, name, words.number(1, 2**32 - 1), words.name()
        return {"create": CREATE, "mkdir": MKDIR, "remove": REMOVE}[verb], number, name

    def play(self, event):
        """The answers of an event. Chapter "Scripts", "journal"."""
        if event[0] == "stop":
            self.stop = event[1:]
            return []
        refusal = self.stable.apply(event)
        if refusal is not None:
            return [refusal]
        if self.stop is None:
            self.journal.append(event)
            return ["ok"]
        return [self.append_until_the_stop(event)]

    def append_until_the_stop(self, change):
        """The append of a stop, and the journal opened again. Chapter "Scripts", "journal"."""
        before = self.journal.changes
        self.journal.store.stop(*self.stop)
        self.stop = None
        try:
            self.journal.append(change)
        except StoreFailed:
            pass
        self.journal.store.restart()
        self.journal = Journal(self.journal.store)
        self.stable = self.journal.stable
        return "stopped kept" if self.journal.changes == before + 1 else "stopped lost"

    def last(self, events):
        """The last line. Chapter "Scripts", "journal"."""
        return self.stable.text()
