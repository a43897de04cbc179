"""Streams of frames of a client against two servers, which are played by hand and by chance.
tools/rows/node_rows.py uses it.

The client of reference/ takes each step, so that each message can answer what the client asked.
"""
import random

from row_records import (
    Ack, App, Block, Create, CutAsk, Demand, Done, Extents, FRESH_TAG, File, Granted, ListDir, Lookup, Message, Mkdir, NONE, Nack, NameAsk, NameRow,
    Named, PatchAsk, PlayedClient, Queued, ReadAsk, Reasserted, RemoveEntry, Rename, S, SERVER_BASE, SyncAsk, Tag, Tick, UNMAPPED, Welcome, WriteAsk,
    X, body_record, frame, uniform_page,
)
from row_words import fitting_reply
from reference.settings import Settings

CONFIG = Settings(100, 50, 70, 85, 10, 5, 3, 2, 2)
SELF, SERVERS = 3, 2
G1 = 2 ** 32 + 1


class Peer:
    """What a client has of one server, for those who play that server."""

    def __init__(self, association):
        session, store = association.session, association.store
        self.server, self.life, self.greeting = association.server, association.life, association.greeted
        self.epoch, self.date = (session.epoch, session.date) if session else (0, 0)
        self.locks, self.greatest = (session.locks, session.seen) if session else ({}, {})
        self.commands = store.commands
        self.outstanding = Outstanding(session.request) if session and session.request else None
        self.extents = {(ino, page): (Block(*extent[:2]), extent[2]) for ino, pages in store.known.items()
                        for page, extent in pages.items() if extent is not UNMAPPED}


class Outstanding:
    """The outstanding request: its number, its body and when it was last sent."""

    def __init__(self, request):
        self.number, self.sent, self.body = request.number, request.sent, body_record(request.kind, request.body)


class Run:
    """A node of the reference, with the frames that it took and the readings of its clock."""

    def __init__(self):
        self.readings, self.frames, self.now, self.ops = [], b"", 0, 0
        self.node = PlayedClient(SELF, CONFIG, SERVERS)

    def step(self, message):
        """A frame, which is ignored if it is for another node."""
        self.readings.append(self.now)
        self.frames += frame(message)
        if message.receiver == SELF:
            self.node.step(self.now, message.body if isinstance(message.body, (App, Done, Tick)) else message)

    def local(self, body):
        """What a client hears from its own surroundings."""
        self.step(Message(0, SELF, 0, 0, 0, 0, body))

    def at(self, now):
        assert now >= self.now
        self.now = now
        return self

    def tick(self, later=0):
        self.now += later
        return self.local(Tick())

    def app(self, ask):
        self.ops += 1
        return self.local(App(self.ops, ask))

    def write(self, s, ino, page, byte):
        return self.app(WriteAsk(File(s, ino), page, uniform_page(byte)))

    def read(self, s, ino, page):
        return self.app(ReadAsk(File(s, ino), page))

    def patch(self, s, ino, page, at, data):
        return self.app(PatchAsk(File(s, ino), page, at, data))

    def sync(self, s, ino):
        return self.app(SyncAsk(File(s, ino)))

    def cut(self, s, ino, page):
        return self.app(CutAsk(File(s, ino), page))

    def name(self, s, op):
        return self.app(NameAsk(s, op))

    def message(self, s, body, number, stamp, epoch, life=None, to=SELF):
        return Message(SERVER_BASE + s, to, life or (self.peer(s).life if s <= SERVERS else 1), epoch, number, stamp, body)

    def peer(self, s):
        """What the client has of a server."""
        return Peer(self.node.node.associations[s - 1])

    def hear(self, s, body, number=None, stamp=None, epoch=None, life=None, to=SELF):
        """A message of server s; by default the reply to the outstanding request, or number and
        stamp 0.
        """
        peer = self.peer(s) if s <= SERVERS else None
        q = None if peer is None else peer.outstanding
        number = (q.number if q else 0) if number is None else number
        stamp = (q.sent if q and number == q.number else 0) if stamp is None else stamp
        return self.step(self.message(s, body, number, stamp, (peer.epoch or 1) if epoch is None else epoch, life, to))

    def welcome(self, s, epoch=1):
        return self.hear(s, Welcome(), 0, self.peer(s).greeting, epoch)

    def free(self, s, body):
        """A message that answers no request."""
        return self.hear(s, body, 0, 0)

    def done(self, command, result):
        return self.local(Done(command, result))

    def last_command(self):
        return self.node.node.next_command - 1

    def read_done(self, command, byte, own=True):
        for peer in map(self.peer, range(1, SERVERS + 1)):
            if command in peer.commands:
                c = peer.commands[command]
                tag = Tag(File(peer.server, c.ino), c.page, peer.extents[c.ino, c.page][1]) if own else FRESH_TAG
                return self.done(command, (tag, uniform_page(byte)))

    def asked(self, s):
        return self.peer(s).outstanding.body


def at(page, birth=7):
    """The row of a page: page p lies on block p of disk 1."""
    return (page, Block(1, page), birth)


# Passages, in order of time. Each says what it shows.

def beginning(r):
    """Greetings and their repetition; messages that are ignored; the lease is dated from the
    greeting; a write, a read of it.
    """
    r.tick()
    r.read(1, 2, 0)
    r.at(3).write(1, 2, 0, 0x11)
    r.tick(1)
    r.tick(1)
    r.hear(1, Welcome(), 0, 5, 1, to=4)
    r.hear(3, Welcome(), 0, 5, 1)
    r.hear(1, Welcome(), 0, 5, 1, life=2)
    r.hear(1, Welcome(), 0, 6, 1)
    r.hear(1, Nack(2, 0, 0), 0, 0, 1)
    r.at(7).welcome(1)
    r.hear(1, Granted(2, G1, S), epoch=2)
    r.hear(1, Granted(3, G1, S))
    r.hear(1, Ack())
    r.hear(1, Granted(2, G1, S), number=9)
    r.hear(1, Granted(2, G1, S))
    r.hear(1, Extents(2, ()))
    r.hear(1, Queued(2, X))
    r.tick(4)
    r.tick(1)
    r.hear(1, Granted(2, G1 + 1, X))
    r.hear(1, Extents(2, (at(0), at(1))))
    r.read(1, 2, 0)
    r.write(1, 2, 1, 0x22)
    r.sync(1, 2)
    r.done(1, ())
    r.write(1, 2, 1, 0x23)
    r.done(2, None)
    r.sync(1, 2)
    r.tick(1)
    r.done(3, ())


def patches(r):
    """A patch reads its page first; a page of another file's tag is zeros; a failed read; a write
    that comes while its page is read.
    """
    r.hear(1, Granted(3, G1 + 2, X), 0, 0)
    r.patch(1, 3, 0, 5, b"\xaa\xbb")
    r.hear(1, Extents(3, (at(0), at(1), at(2), at(4))))
    r.read_done(r.last_command(), 0x31)
    r.patch(1, 3, 0, 6, b"\xcc" * 3)
    r.read(1, 3, 1)
    r.read_done(r.last_command(), 0x32, own=False)
    r.read(1, 3, 1)
    r.patch(1, 3, 2, 4095, b"\x01")
    r.read(1, 3, 2)
    r.done(r.last_command(), None)
    r.read(1, 3, 4)
    r.write(1, 3, 4, 0x44)
    r.done(r.last_command(), None)
    r.patch(1, 3, 3, 0, b"\x05" * 4)
    r.hear(1, Extents(3, (at(3, 9),)))
    r.read_done(r.last_command(), 0x33)


def demands(r):
    """A lock is reduced when its pages are hard; demands of what is not held, of older and later
    grants; a grant lifts a demand.
    """
    r.free(1, Demand(3, G1 + 2, S))
    r.tick()
    r.write(1, 3, 0, 0x77)
    for command in list(r.peer(1).commands):
        r.done(command, ())
    r.hear(1, Ack())
    r.hear(1, Queued(3, X))
    r.free(1, Granted(3, G1 + 5, X))
    r.free(1, Demand(3, G1 + 4, NONE))
    r.free(1, Demand(3, G1 + 5, NONE))
    r.hear(1, Ack()) if r.peer(1).outstanding else r.tick()
    for command in list(r.peer(1).commands):
        r.done(command, ())
    r.tick(5)
    r.hear(1, Ack())
    r.free(1, Demand(9, G1 + 9, NONE))
    r.free(1, Demand(9, G1 + 9, NONE))
    r.free(1, Granted(9, G1 + 8, S))
    r.hear(1, Ack())


def names(r):
    """Names found, listed and refused; a cut; removes of a file: the pages go out first, the lock
    goes at the end; a file in use waits.
    """
    r.name(1, Lookup(1, b"f2"))
    r.name(1, ListDir(1, b""))
    r.name(1, Mkdir(1, b"d"))
    r.hear(1, Named(0, 2))
    r.hear(1, Named(1, (NameRow(2, 1, b"f2"), NameRow(10, 2, b"d"))))
    r.hear(1, Named(2, 2))
    r.write(1, 2, 0, 0x51)
    r.cut(1, 2, 1)
    r.read(1, 2, 0)
    for command in list(r.peer(1).commands):
        r.done(command, ())
    r.read(1, 2, 1)
    r.hear(1, Ack())
    r.hear(1, Extents(2, ()))
    r.name(1, RemoveEntry(1, b"f2", 2))
    r.read(1, 2, 0)
    r.free(1, Demand(2, G1 + 1, NONE))
    r.hear(1, Named(0, 2))
    r.hear(1, Ack())
    r.hear(1, Nack(8, 2, 0))
    r.name(1, RemoveEntry(1, b"d", 0))
    r.hear(1, Named(0, 10))
    r.name(1, Rename(1, b"a", 10, b"b"))
    r.hear(1, Named(0, 4))
    r.cut(1, 4, 0)
    r.hear(1, Granted(4, G1 + 12, X))
    r.hear(1, Nack(7, 4, 0))
    r.name(1, RemoveEntry(1, b"f4", 4))
    r.hear(1, Nack(7, 4, 0))


def refusals(r):
    """Refusals of the outstanding request: no file, no space, too many locks, not a holder; and of
    asks: too many, and a server that is not there.
    """
    r.read(1, 5, 0)
    r.write(1, 5, 1, 0x61)
    r.sync(1, 5)
    r.hear(1, Nack(10, 0, 0))
    r.write(1, 4, 0, 0x62)
    r.write(1, 4, 0, 0x63)
    r.patch(1, 4, 0, 1, b"\x64")
    r.read(1, 4, 3)
    r.hear(1, Nack(9, 1, 2))
    r.hear(1, Nack(7, 4, 0))
    r.hear(1, Extents(4, (at(3, 11),)))
    r.read_done(r.last_command(), 0x65)
    r.read(4, 2, 0)
    r.sync(7, 1)
    r.name(3, Lookup(1, b"f2"))
    for i in range(16):
        r.read(2, 2, i)
    r.read(1, 4, 3)
    r.name(2, Lookup(1, b"f2"))


def second_server(r):
    """The other server answers at last: one request for each page that is not known; a map of none.
    """
    r.tick(6)
    r.welcome(2)
    r.hear(2, Granted(2, G1, S))
    for i in range(4):
        r.hear(2, Extents(2, () if i % 2 else (at(i, 20 + i),)))
    r.hear(2, Nack(8, 2, 0))
    r.read_done(r.last_command() - 1, 0x70)
    r.read(2, 2, 0)


def renewal(r):
    """Keep-alives from the age of renewal on; a late reply renews from its sending; a refusal that
    condemns: quiesce, and no request.
    """
    r.tick(max(0, r.peer(1).date + 50 - r.now))
    r.tick(3)
    r.hear(1, Ack())
    r.tick(2)
    r.write(1, 4, 3, 0x66)
    r.name(1, Create(1, b"n"))
    r.hear(1, Nack(4, 0, 0))
    r.hear(1, Nack(1, 0, 0))
    r.read(1, 4, 3)
    r.patch(1, 4, 3, 2, b"\x01")
    r.sync(1, 4)
    r.tick(5)
    r.done(r.last_command(), None)
    r.sync(1, 4)
    r.tick()


def losing(r):
    """A reply that comes when the lease is over: the lease is lost first. Dirty pages are reported
    once, what was sent is uncertain, the rest is quiesced; a message of the life before is ignored.
    """
    r.at(r.peer(2).date + 99)
    r.at(r.peer(2).date + 100)
    r.hear(2, Ack())
    r.at(r.peer(1).date + 85).tick()
    r.tick(5)
    r.at(r.peer(1).date + 100).tick()
    r.sync(1, 4)
    r.sync(1, 4)
    r.read(1, 4, 3)
    r.hear(1, Ack(), 3, r.now, 1, 1)
    r.welcome(1)
    r.hear(1, Granted(4, G1 + 20, X))
    r.hear(1, Extents(4, (at(3, 11),)))
    r.done(1, ())
    r.read_done(r.last_command(), 0x67)


def restarted(r):
    """A server restarts: what was sent is uncertain, the locks are reasserted, waits and releases
    are dropped; an older epoch is ignored; a reassertion that is refused condemns. The flush phase
    writes what is dirty; what it could not write is reported to the next sync."""
    r.write(1, 4, 3, 0x68)
    r.write(1, 4, 4, 0x69)
    r.hear(1, Extents(4, (at(4, 12),)))
    r.name(1, Mkdir(1, b"e"))
    r.read(1, 6, 0)
    r.free(1, Granted(7, G1 + 21, S))
    r.free(1, Demand(8, G1 + 9, NONE))
    r.hear(1, Nack(3, 1, 2), epoch=2)
    r.hear(1, Nack(3, 1, 2), epoch=1)
    r.hear(1, Nack(4, 0, 0))
    r.tick(5)
    r.hear(1, Reasserted())
    r.hear(1, Queued(6, S))
    r.hear(1, Nack(3, 2, 3), epoch=3, number=1)
    r.hear(1, Nack(8, 4, 0))
    r.hear(1, Nack(6, 4, 0))
    r.tick(6)
    r.at(r.peer(1).date + 85).tick()
    r.done(r.last_command() - 1, ())
    r.at(r.peer(1).date + 100).tick()
    r.sync(1, 4)
    r.sync(1, 4)
    r.read(1, 4, 3)
    r.welcome(1, 3)
    r.hear(1, Granted(4, 3 * 2 ** 32 + 1, S))
    r.hear(1, Extents(4, (at(3, 11),)))
    r.read(1, 5, 0)
    r.hear(1, Queued(5, S))
    r.sync(1, 5)
    r.at(r.peer(1).date + 100).tick()


def begun(r):
    """Writes and syncs at two servers, of which one is not greeted yet."""
    r.tick(1)
    r.write(1, 2, 0, 0x12)
    r.sync(2, 2)
    r.welcome(1, 3)
    r.hear(1, Granted(2, 3 * 2 ** 32 + 2, X))
    r.free(1, Granted(2, 3 * 2 ** 32 + 3, X))
    r.hear(1, Extents(2, (at(0),)))
    r.hear(1, Extents(2, (at(0),)))


class Chances:
    """What happens to a client by chance: asks, messages and ends of commands, each mostly one that
    fits what the client has.
    """

    def __init__(self, r, rng):
        self.r, self.rng, self.last_byte, self.last_block = r, rng, 0, 100

    def byte(self):
        self.last_byte = (self.last_byte + 1) % 256
        return self.last_byte

    def block(self):
        self.last_block += 1
        return Block(self.rng.randint(1, 2), self.last_block)

    def ino(self):
        return self.rng.choice((2, 2, 2, 3, 3, 4))

    def page(self):
        return self.rng.choice((0, 0, 1, 2))

    def grant(self, peer):
        seen = max(peer.greatest.values(), default=peer.epoch * 2 ** 32)
        return max(1, seen + self.rng.choice((-1, 0, 1, 1, 1, 1, 2)))

    def ask(self, s):
        r, rng, k = self.r, self.rng, self.rng.random()
        if k < 0.28:
            r.write(s, self.ino(), self.page(), self.byte())
        elif k < 0.5:
            r.read(s, self.ino(), self.page())
        elif k < 0.66:
            r.sync(s, self.ino())
        elif k < 0.74:
            r.cut(s, self.ino(), self.page())
        elif k < 0.86:
            r.patch(s, self.ino(), self.page(), rng.choice((0, 7, 4000)), bytes([self.byte(), self.byte()]))
        else:
            r.name(s, rng.choice((
                Create(1, b"n"), RemoveEntry(1, b"f2", 2), RemoveEntry(1, b"f3", 3), RemoveEntry(1, b"d", 0),
                ListDir(1, b""), Rename(1, b"a", 10, b"b"))))

    def hear(self, s):
        r, rng = self.r, self.rng
        peer, k = r.peer(s), rng.random()
        if peer.epoch == 0:
            stamp = peer.greeting if peer.greeting is not None else max(0, r.now - 1)
            body = Welcome() if rng.random() < 0.9 else Granted(2, G1, X)
            return r.hear(s, body, 0, stamp, rng.choice((1, 1, 2)))
        q = peer.outstanding
        if q is not None and k < 0.72:
            return r.hear(s, fitting_reply(rng, q.body, 0.12, lambda _: self.grant(peer), self.block), q.number, rng.choice((q.sent, q.sent, r.now)))
        if k < 0.84:
            return r.free(s, Granted(self.ino(), self.grant(peer), rng.choice((S, X, X))))
        if k < 0.94:
            i = self.ino()
            g = peer.locks[i].grant + rng.choice((0, 0, 0, 1, -1)) if i in peer.locks else self.grant(peer)
            return r.free(s, Demand(i, g, rng.choice((NONE, S))))
        if k < 0.965:
            return r.hear(s, Nack(3, peer.epoch, peer.epoch + 1), rng.randint(0, 3), 0, peer.epoch + 1)
        return r.hear(s, rng.choice((Ack(), Reasserted(), Queued(2, X), Named(0, 2))), rng.randint(1, 4), r.now + rng.randint(0, 1),
                      peer.epoch + rng.randint(0, 1), peer.life + rng.choice((0, 0, 0, 1)))

    def done(self, s):
        r, rng = self.r, self.rng
        peer = r.peer(s)
        if not peer.commands or rng.random() < 0.05:
            return r.done(rng.randint(1, 9), rng.choice((None, ())))
        number = rng.choice(list(peer.commands))
        c = peer.commands[number]
        if rng.random() < 0.25:
            return r.done(number, None)
        if (c.version is None) == (rng.random() < 0.95):
            extent = peer.extents.get((c.ino, c.page))
            tag = Tag(File(s, c.ino), c.page, extent[1]) if extent and rng.random() < 0.7 else FRESH_TAG
            return r.done(number, (tag, uniform_page(self.byte())))
        return r.done(number, ())


def by_chance(r, rng, count):
    """Asks, messages, ends of commands and ticks by chance."""
    chances = Chances(r, rng)
    for _ in range(count):
        r.now += rng.choice((0,) * 16 + (1, 1, 4, 5, 6, 10, 20, 35))
        s = rng.choice((1, 1, 1, 2))
        k = rng.random()
        if k < 0.3:
            chances.ask(s)
        elif k < 0.76:
            chances.hear(s)
        elif k < 0.91:
            chances.done(s)
        else:
            r.tick()


def by_hand():
    """Passages by hand, one after another."""
    r = Run()
    for passage in (beginning, patches, demands, names, refusals, second_server, renewal, losing, restarted):
        passage(r)
    return r


def drawn(seed):
    """A session that begins, and what comes by chance."""
    r = Run()
    begun(r)
    by_chance(r, random.Random(seed), 110)
    return r


def full():
    """The 65th dirty page of a server is refused, and one that is dirty is not."""
    r = Run()
    r.write(1, 2, 0, 0)
    r.welcome(1)
    r.hear(1, Granted(2, G1, X))
    r.hear(1, Extents(2, tuple(at(p) for p in range(64))))
    for p in range(1, 64):
        r.write(1, 2, p, p)
    r.write(1, 2, 64, 64)
    r.hear(1, Extents(2, (at(64),)))
    r.write(1, 2, 5, 0x80)
    return r


def streams():
    """For each stream what it shows, and its run."""
    return [
        ("two servers: greetings, locks, pages, patches, names, refusals, renewal, losses, a new epoch", by_hand()),
        *((f"two servers, by chance {seed}", drawn(seed)) for seed in (20, 21)),
        ("no more than 64 dirty pages", full()),
    ]
