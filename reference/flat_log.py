"""The flat log. Chapter "The flat log"."""

from .disks import PAGE, ZEROS

PENDING, HARD, GONE = "pending", "hard", "gone"


class Entry:
    """A write, a patch or a cut, with its fate. Chapter "The flat log"."""

    __slots__ = ("kind", "client", "life", "file", "page", "at", "bytes", "fate", "cause")

    def __init__(self, kind, client, life, file, page, at, data):
        self.kind, self.client, self.life, self.file, self.page, self.at, self.bytes = kind, client, life, file, page, at, data
        self.fate = HARD if kind == "cut" else PENDING
        self.cause = None


class FlatLog:
    """All changes of pages, numbered from 1. Chapter "The flat log"."""

    def __init__(self):
        self.entries = []
        self.latest = {}
        self.pending = {}
        self.changes = self.hard = self.gone = 0

    def add(self, kind, client, life, file, page, at=0, data=ZEROS):
        """A write, a patch or a cut is accepted: its number. Chapter "The flat log"."""
        self.entries.append(Entry(kind, client, life, file, page, at, data))
        number = len(self.entries)
        if kind != "cut":
            self.changes += 1
            self.latest[client, file, page] = number
            self.pending.setdefault((client, file[0], life), set()).add(number)
        return number

    def entry(self, number):
        """The entry of a number. Chapter "The flat log"."""
        return self.entries[number - 1]

    def harden(self, number):
        """Rule "Harden": the numbers that became hard, rising. Chapter "The flat log"."""
        carried = self.entry(number)
        owner = (carried.client, carried.life, carried.file, carried.page)
        key = (carried.client, carried.file[0], carried.life)
        became = sorted(
            other
            for other in self.pending.get(key, ())
            if other <= number and self.owner(other) == owner
        )
        for other in became:
            self.entry(other).fate = HARD
            self.hard += 1
            self.settle(key, other)
        return became

    def owner(self, number):
        """Whose an entry is: client, life, file and page. Chapter "The flat log"."""
        entry = self.entry(number)
        return entry.client, entry.life, entry.file, entry.page

    def drop(self, number, cause):
        """Rule "Drop": a pending entry is gone with its cause. Chapter "The flat log"."""
        entry = self.entry(number)
        entry.fate, entry.cause = GONE, cause
        self.gone += 1
        self.settle((entry.client, entry.file[0], entry.life), number)

    def settle(self, key, number):
        """An entry is no longer pending. Chapter "The flat log"."""
        pending = self.pending[key]
        pending.discard(number)
        if not pending:
            del self.pending[key]

    def content(self, file, page):
        """Rule "Content": the bytes of a page, by the entries that touch it and are not gone.
        Chapter "The flat log".
        """
        data = ZEROS
        for entry in self.entries:
            if entry.file != file or entry.fate == GONE:
                continue
            if entry.kind == "cut":
                if page >= entry.page:
                    data = ZEROS
            elif entry.page == page:
                data = data[: entry.at] + entry.bytes + data[entry.at + len(entry.bytes) :]
        assert len(data) == PAGE
        return data
