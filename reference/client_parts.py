"""The parts of a client. Section "Leases, locks, pages and commands" of "The client"."""

from collections import OrderedDict

from .disks import ZEROS
from .modes import EXCLUSIVE, NONE, SHARED

LOST_TOLD = 1024
RUN = 64
UNMAPPED = "unmapped"


class Lock:
    """A held lock: grant number and mode."""

    __slots__ = ("grant", "mode")

    def __init__(self, grant, mode):
        self.grant, self.mode = grant, mode


class Dirty:
    """A dirty page: bytes, version, and the last command for these bytes that failed (or None)."""

    __slots__ = ("bytes", "version", "failed")

    def __init__(self, data, version):
        self.bytes, self.version, self.failed = data, version, None


class Outstanding:
    """An outstanding disk command: its page, and the version that a write writes (None: a read)."""

    __slots__ = ("ino", "page", "version")

    def __init__(self, ino, page, version):
        self.ino, self.page, self.version = ino, page, version


class Request:
    """The outstanding request: number, kind, body, when it was last sent, and whose operation it is
    (or None).
    """

    __slots__ = ("number", "kind", "body", "sent", "operation")

    def __init__(self, number, kind, body, sent, operation):
        self.number, self.kind, self.body, self.sent, self.operation = number, kind, body, sent, operation


class Session:
    """A session of a client with a server. Chapter "The client"."""

    def __init__(self, epoch, date):
        self.epoch, self.date, self.condemned = epoch, date, False
        self.next_number = 1
        self.request = None
        self.must_reassert = False
        self.locks = {}
        self.seen = {}
        self.demands = {}
        self.owed = {}
        self.full = None
        self.run = RUN
        self.waits = {}
        self.releases = []

    def mode(self, ino):
        """The held mode of a file. Chapter "The client"."""
        lock = self.locks.get(ino)
        return NONE if lock is None else lock.mode

    def renew(self, stamp):
        """Rule "Renewing": to a later stamp, if the lease is not condemned. Whether the date
        moved. Chapter "The client".
        """
        if self.condemned or stamp <= self.date:
            return False
        self.date = stamp
        return True

    def condemn(self):
        """Rule "Condemning". Chapter "The client"."""
        self.condemned = True

    def is_above_seen(self, ino, grant):
        """Whether a grant is above the greatest seen of its file. Chapter "The client"."""
        return grant > self.seen.get(ino, 0)

    def install(self, ino, grant, mode):
        """Rule "Installing": the grant becomes the lock and the greatest seen; the demand is
        forgotten. Chapter "The client".
        """
        self.seen[ino] = grant
        self.locks[ino] = Lock(grant, mode)
        self.demands.pop(ino, None)

    def demand(self, ino, grant, to):
        """Rule "A demand": "unheld", "stale" or "taken". Chapter "The client"."""
        lock = self.locks.get(ino)
        if lock is None:
            self.seen[ino] = max(self.seen.get(ino, 0), grant)
            return "unheld"
        if grant < lock.grant:
            return "stale"
        lock.grant = self.seen[ino] = grant
        self.demands[ino] = min(to, self.demands.get(ino, to))
        return "taken"

    def end_request(self):
        """The outstanding request ends. The request. Chapter "The client"."""
        request, self.request = self.request, None
        return request


class Store:
    """The pages of a server's files and the outstanding commands. Chapter "The client"."""

    def __init__(self, limits):
        self.limits = limits
        self.known = {}
        self.clean = OrderedDict()
        self.dirty = {}
        self.versions = 0
        self.standing = 0
        self.commands = {}

    def known_at(self, ino, page):
        """What is known of a page: a mapping (disk, block, birth), UNMAPPED, or None. Chapter "The
        client".
        """
        return self.known.get(ino, {}).get(page)

    def mapped_at(self, ino, page):
        """The known mapping of a page, or None. Chapter "The client"."""
        known = self.known_at(ino, page)
        return None if known is UNMAPPED else known

    def know(self, ino, page, what):
        """Rule "Known extents". Chapter "The client"."""
        self.known.setdefault(ino, {})[page] = what

    def is_cached(self, ino, page):
        """Whether a page is dirty or clean. Chapter "The client"."""
        return (ino, page) in self.dirty or (ino, page) in self.clean

    def make_clean(self, ino, page, data):
        """Rule "Clean pages": the page becomes the newest, and the oldest of too many goes. Chapter
        "The client".
        """
        self.clean[ino, page] = data
        self.clean.move_to_end((ino, page))
        if len(self.clean) > self.limits.clean:
            self.clean.popitem(last=False)

    def is_dirty_full(self, ino, page):
        """Whether as many other pages are dirty as may be. Rule "Dirty pages". Chapter "The
        client".
        """
        return len(self.dirty) - ((ino, page) in self.dirty) >= self.limits.dirty

    def make_dirty(self, ino, page, data):
        """Rule "Dirty pages": new bytes, the next version, no failed command; a page is not both.
        Chapter "The client".
        """
        self.clean.pop((ino, page), None)
        self.versions += 1
        self.dirty[ino, page] = Dirty(data, self.versions)

    def oldest(self, count):
        """This many of the first dirty pages by version that are being written or were not tried in
        vain. Rule "Making room".
        """
        written = self.written()
        hopeful = [(dirty.version, place) for place, dirty in self.dirty.items() if dirty.failed is None or place in written]
        return {place for _, place in sorted(hopeful)[:count]}

    def written(self):
        """The pages with an outstanding write. Chapter "The client"."""
        return {(command.ino, command.page) for command in self.commands.values() if command.version is not None}

    def is_stuck(self, ino):
        """Whether a dirty page of the file was tried in vain, and is not being written. Rule
        "Giving back".
        """
        written = self.written()
        return any(place[0] == ino and dirty.failed is not None and place not in written for place, dirty in self.dirty.items())

    def is_idle(self, ino):
        """A file is idle if it has no dirty page and no outstanding command. Chapter "The
        client".
        """
        return not self.has_dirty(ino) and not any(command.ino == ino for command in self.commands.values())

    def has_dirty(self, ino):
        """Whether a page of the file is dirty. Chapter "The client"."""
        return any(of == ino for of, _ in self.dirty)

    def has_outstanding_write(self, ino):
        """Whether a write of the file is outstanding. Chapter "The client"."""
        return any(command.ino == ino and command.version is not None for command in self.commands.values())

    def command_on(self, ino, page):
        """The number of the outstanding command on a page, or None. Chapter "The client"."""
        for number, command in self.commands.items():
            if command.ino == ino and command.page == page:
                return number
        return None

    def forget_from(self, ino, page):
        """Clean pages and known extents of a file from a page on go. Chapter "The client"."""
        for key in [key for key in self.clean if key[0] == ino and key[1] >= page]:
            del self.clean[key]
        known = self.known.get(ino, {})
        for at in [at for at in known if at >= page]:
            del known[at]

    def found(self, server, ino, page, tagged):
        """Rule "What a read found": the bytes if the tag has the page and the known birth, else
        zeros. Chapter "The client".
        """
        *tag, data = tagged
        extent = self.mapped_at(ino, page)
        return data if extent is not None and tag == [server, ino, page, extent[2]] else ZEROS


class Association:
    """What a client has of one server. Chapter "The client"."""

    def __init__(self, server, life, limits):
        self.server, self.life, self.limits = server, life, limits
        self.lost = {}
        self.empty()

    def empty(self):
        """All but the life and the lost rows goes. Chapter "The client"."""
        self.greeted = None
        self.session = None
        self.store = Store(self.limits)

    def lost_of(self, ino):
        """The lost rows of a file: at most 1,024 (page, command), rising; they are forgotten. None
        if there are none. Chapter "The client".
        """
        rows = self.lost.get(ino)
        if not rows:
            return None
        told = sorted(rows.items())[:LOST_TOLD]
        for page, _ in told:
            del rows[page]
        if not rows:
            del self.lost[ino]
        return tuple(told)


class Operation:
    """A pending operation: its number, its ask, and whether its request was sent. Chapter "The
    client".
    """

    __slots__ = ("number", "ask", "kind", "server", "ino", "page", "sent")

    def __init__(self, number, ask):
        self.number, self.ask, self.sent = number, ask, False
        self.kind = ask[0]
        self.ino = self.page = None
        if self.kind == "name":
            self.server = ask[1]
            if ask[2][0] == 4:
                self.kind = "remove"
                self.ino, self.page = (ask[2][3] or None), 0
        elif self.kind == "leave":
            self.server = ask[1]
        else:
            (self.server, self.ino) = ask[1]
            if self.kind != "sync":
                self.page = ask[2]

    def is_cut(self):
        """A cut, or a remove of a file. Chapter "The client"."""
        return self.kind == "cut" or (self.kind == "remove" and self.ino is not None)

    def needs(self):
        """Rule "Needs": the mode of lock that it needs; none for a sync, a leave and a name without
        a file. Chapter "The client".
        """
        if self.ino is None or self.kind == "sync":
            return NONE
        return SHARED if self.kind == "read" else EXCLUSIVE

    def is_change(self):
        """A write or a patch. Chapter "The client"."""
        return self.kind in ("write", "patch")
