"""The server. Chapter "The server"."""

from . import wire
from .clocks import steal_wait
from .extents import Extents
from .grace import Grace, reassertion_refusal
from .locks import LockTable
from .modes import EXCLUSIVE
from .names import Names
from .sessions import Sessions
from .settings import Limits
from .suspicion import Timers
from .wire import Message, is_client


class Server:
    """A server node: its machine and whether it runs. Chapter "The server"."""

    def __init__(self, number, settings, servers, disks, blocks, limits=Limits()):
        self.number, self.settings, self.limits = number, settings, limits
        self.node = wire.SERVER_BASE + number
        self.wait = steal_wait(settings)
        self.epoch = 1
        self.names = Names(limits.inodes)
        self.extents = Extents(number, servers, disks, blocks)
        self.running = True
        self.empty(Grace())

    def empty(self, grace):
        """All but the stable part as in a new epoch. Chapter "The server"."""
        self.grace, self.sessions, self.locks, self.timers = grace, Sessions(), LockTable(self.epoch, self.limits.locks), Timers()

    def is_client(self, node):
        """Whether a node is a client: the third form has more of them. Chapter "Wire"."""
        return is_client(node, 3 if self.limits.cooperate else 1)

    def crash(self):
        """A crash keeps the stable part. Rule "Crash". Chapter "The server"."""
        self.running = False
        self.empty(Grace())

    def start(self, now):
        """A start raises the epoch by 1 and begins grace. Rule "start". Chapter "The server"."""
        self.running = True
        self.epoch += 1
        self.empty(Grace(now))

    # The step

    def step(self, now, message):
        """A step: thefts, the rule for the input (None is a tick), and three passes. Its outputs.
        Chapter "The server".
        """
        self.outputs = []
        self.thefts(now)
        if message is not None:
            self.receive(now, message)
        else:
            self.suspecting(now)
        if not self.grace.is_on(now, self.wait):
            self.granting()
        self.demanding(now, message is None)
        return self.outputs

    def thefts(self, now):
        """Rule "Theft" of "Suspicion and theft". Chapter "The server"."""
        for client in self.timers.over(now, self.wait):
            life = self.sessions.end(client)
            self.outputs.append(("stolen", client, life))
            self.locks.forget_client(client)

    # Messages out

    def reply(self, request, kind, body):
        """Rule "Reply": the request's life, number and stamp, the server's epoch. Chapter "The
        server".
        """
        self.send(Message(kind, self.node, request.sender, request.life, self.epoch, request.number, request.stamp, body))

    def refuse(self, request, cause, a=0, b=0):
        """A refusal with its cause and two values. Chapter "The server"."""
        self.reply(request, wire.NACK, (wire.CAUSE_NUMBERS[cause], a, b))

    def send_own(self, client, life, kind, body):
        """A message that the server starts: the life of the row, number 0 and stamp 0. Rule
        "Reply". Chapter "The server".
        """
        self.send(Message(kind, self.node, client, life, self.epoch, 0, 0, body))

    def send(self, message):
        """A message goes out. Chapter "The server"."""
        self.outputs.append(("send", message))

    # The rule for a message

    def receive(self, now, message):
        """Rule "Receiving". Chapter "The server"."""
        if message.receiver != self.node or not self.is_client(message.sender) or message.kind not in wire.FROM_CLIENT:
            return
        client = message.sender
        if self.timers.suspects(client):
            if message.kind != wire.DEMANDSEEN:
                self.refuse(message, "suspect", self.timers.starts[client])
        elif message.kind == wire.DEMANDSEEN:
            self.seen_demand(message)
        elif message.kind == wire.HELLO:
            self.greeting(now, message)
        elif message.epoch != self.epoch:
            self.refuse(message, "otherepoch", message.epoch, self.epoch)
        elif message.kind == wire.REASSERT and not self.sessions.knows(client, message.life):
            self.reassertion(now, message)
        else:
            self.request(now, message)

    def seen_demand(self, message):
        """Rule "Seen demand": only with this epoch and the living session's life. Chapter "The
        server".
        """
        session = self.sessions.of.get(message.sender)
        if message.epoch == self.epoch and session is not None and session.living and session.life == message.life:
            ino, grant = message.body
            self.locks.demand_seen(ino, message.sender, grant)

    def greeting(self, now, message):
        """Rule "Greeting". Chapter "The server"."""
        if self.grace.is_on(now, self.wait):
            self.refuse(message, "grace", self.grace.start)
            return
        client = message.sender
        case = self.sessions.greet(client, message.life, self.locks.has_rows(client))
        if case == "old":
            return
        if case == "wait":
            self.suspect(now, client)
            self.refuse(message, "suspect", now)
            return
        if case == "replaced":
            self.locks.forget_waits(client)
        self.reply(message, wire.WELCOME, ())

    def reassertion(self, now, message):
        """Rule "Accepting a reassertion" of "Grace and reassertion". Chapter "The server"."""
        client, rows = message.sender, message.body[0]
        refusal = reassertion_refusal(self.grace, now, self.wait, self.locks, client, message.life, rows)
        if refusal is None:
            conflict = self.locks.install(client, message.life, rows)
            if conflict is not None:
                refusal = ("conflict", *conflict)
        if refusal is not None:
            self.refuse(message, *refusal)
            return
        reply = (wire.REASSERTED, ())
        self.sessions.reasserted(client, message.life, reply)
        self.reply(message, *reply)

    def request(self, now, message):
        """Rule "Requests by the session". Chapter "The server"."""
        client = message.sender
        case = self.sessions.take(client, message.life, message.number)
        if case == "nosession":
            self.refuse(message, "nosession")
        elif case == "again":
            self.reply(message, *self.sessions.of[client].reply)
        elif case == "fresh" and message.kind != wire.REASSERT:
            reply = self.serve(now, message)
            self.sessions.keep(client, message.number, reply)
            self.reply(message, *reply)

    def serve(self, now, message):
        """The reply of a fresh request, by its kind. Chapter "The server"."""
        kind, client, body = message.kind, message.sender, message.body
        if kind == wire.KEEPALIVE:
            return wire.ACK, ()
        if kind == wire.ACQUIRE:
            return self.acquire(now, client, message.life, *body)
        if kind == wire.RELEASED:
            ino, grant, to = body
            self.locks.release(ino, client, message.life, grant, to)
            return wire.ACK, ()
        if kind == wire.MAP:
            return self.map(client, *body)
        if kind == wire.ALLOCATE:
            return self.allocate(client, *body)
        if kind == wire.CUT:
            return self.cut(client, *body)
        return self.name(client, *body)

    @staticmethod
    def refusal(cause, a=0, b=0):
        """The reply that refuses. Chapter "The server"."""
        return wire.NACK, (wire.CAUSE_NUMBERS[cause], a, b)

    def acquire(self, now, client, life, ino, mode):
        """Rule "Acquire". Chapter "The server"."""
        if not self.names.is_file(ino):
            return self.refusal("nofile", ino)
        result = self.locks.acquire(ino, client, life, mode, not self.grace.is_on(now, self.wait))
        if result[0] == "granted":
            return wire.GRANTED, (ino, result[1].grant, result[1].mode)
        if result[0] == "toomany":
            return self.refusal("toomanylocks", self.limits.locks)
        return wire.QUEUED, (ino, mode)

    def map(self, client, ino, grant, page):
        """Rule "Map". Chapter "The server"."""
        if not self.names.is_file(ino):
            return self.refusal("nofile", ino)
        row = self.locks.row(ino, client)
        if row is None or row.grant != grant:
            return self.refusal("notholder", ino, grant)
        return wire.EXTENTS, (ino, self.extents.rows(ino, page, 1))

    def exclusive_refusal(self, client, ino, grant):
        """The refusals of an allocation and a cut: no file, and no exclusive row with that grant
        number. Chapter "The server".
        """
        if not self.names.is_file(ino):
            return self.refusal("nofile", ino)
        row = self.locks.row(ino, client)
        if row is None or row.grant != grant or row.mode != EXCLUSIVE:
            return self.refusal("notholder", ino, grant)
        return None

    def allocate(self, client, ino, grant, page, count):
        """Rule "Allocate". Chapter "The server"."""
        refusal = self.exclusive_refusal(client, ino, grant)
        if refusal is not None:
            return refusal
        few = self.extents.allocate(ino, page, count)
        if few is not None:
            return self.refusal("nospace", *few)
        return wire.EXTENTS, (ino, self.extents.rows(ino, page, count))

    def cut(self, client, ino, grant, page):
        """Rule "Cut". Chapter "The server"."""
        refusal = self.exclusive_refusal(client, ino, grant)
        if refusal is not None:
            return refusal
        self.release_extents(ino, page)
        return wire.ACK, ()

    def release_extents(self, ino, page):
        """The extents from the page on are released, with a note. Rules "Cut" and "Remove". Chapter
        "The server".
        """
        self.extents.release(ino, page)
        self.outputs.append(("cutdone", ino, page))

    def name(self, client, op, *fields):
        """Rule "Names". Chapter "The server"."""
        if op == wire.LIST:
            refusal, entries = self.names.list(*fields)
            return self.named(refusal, (1, entries))
        if op == wire.LOOKUP:
            refusal, entry = self.names.lookup(*fields)
            return self.named(refusal, (0, entry and entry.ino))
        if op == wire.REMOVE:
            return self.remove(client, *fields)
        if op == wire.RENAME:
            refusal, ino = self.names.rename(*fields)
        else:
            refusal, ino = self.names.create(*fields, op == wire.MKDIR)
        return self.named(refusal, (0, ino))

    @staticmethod
    def named(refusal, body):
        """The reply to a name: a refusal's number, or what was found. Chapter "The server"."""
        return wire.NAMED, (2, refusal) if refusal is not None else body

    def remove(self, client, directory, name, grant):
        """Rule "Remove". Chapter "The server"."""
        refusal, entry = self.names.lookup(directory, name)
        if refusal is not None:
            return self.named(refusal, None)
        ino = entry.ino
        if entry.is_directory:
            if grant != 0:
                return self.named(4, None)
            refusal, ino = self.names.remove(directory, name)
            return self.named(refusal, (0, ino))
        row = self.locks.row(ino, client)
        if row is None or row.grant != grant or row.mode != EXCLUSIVE:
            return self.refusal("notholder", ino, grant)
        self.names.remove(directory, name)
        self.release_extents(ino, 0)
        self.locks.forget_waits_for(ino)
        return self.named(None, (0, ino))

    # The passes

    def suspect(self, now, client):
        """Rule "Suspicion": a timer with a note, and the client's waits are dropped. Chapter "The
        server".
        """
        if self.timers.start(client, now):
            self.outputs.append(("suspected", client, now))
            self.locks.forget_waits(client)

    def suspecting(self, now):
        """The pass "suspecting", only on a tick. Chapter "The server"."""
        for client in self.locks.suspecting(now, self.settings.demand):
            self.suspect(now, client)

    def granting(self):
        """The pass "granting", only outside grace. Chapter "The server"."""
        for ino, client, row in self.locks.granting():
            self.send_own(client, row.life, wire.GRANTED, (ino, row.grant, row.mode))

    def demanding(self, now, is_tick):
        """The pass "demanding". Chapter "The server"."""
        for ino, client, row in self.locks.demanding(now, is_tick, self.settings.retry, self.timers.starts):
            self.send_own(client, row.life, wire.DEMAND, (ino, row.grant, row.demand.to))
