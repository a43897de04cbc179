"""The rule for the input, and the losses. Sections "Losses" and "The rule for the input" of "The
client".
"""

from . import wire
from .client_parts import RUN, UNMAPPED, Operation, Session
from .clocks import EXPIRED, lease_end, phase
from .modes import NONE
from .wire import CAUSES, LIST, NAME

CONDEMNING = ("suspect", "nosession", "graceover", "conflict")
PASSED_OVER = ("grace", "otherepoch")


class Inputs:
    """The rules for inputs, a part of the client's machine."""

    # Losses

    def losses(self):
        """The losses at each server, in rising order. Chapter "The client"."""
        for association in self.associations:
            session = association.session
            if session is not None and phase(self.settings, session.date, session.condemned, self.now) == EXPIRED:
                self.loss(association)

    def loss(self, association):
        """Rule "Loss". Chapter "The client"."""
        self.note("lost", association.server, association.life)
        store = association.store
        for (ino, page), dirty in store.dirty.items():
            command = dirty.failed if dirty.failed is not None else store.command_on(ino, page)
            association.lost.setdefault(ino, {})[page] = 0 if command is None else command
        for operation in self.operations_of(association):
            if operation.sent:
                self.answer(operation, ("uncertain", association.session.epoch, 0))
                continue
            self.answer(operation, self.told_lost(association, operation) or ("quiesced",))
        association.empty()
        association.life += 1

    @staticmethod
    def told_lost(association, operation):
        """What a sync and a leave are told of lost rows, or None. Rules "Loss", "Asks" and
        "Leaving". Chapter "The client".
        """
        if operation.kind == "leave":
            return ("unsynced", min(association.lost)) if association.lost else None
        lost = association.lost_of(operation.ino) if operation.kind == "sync" else None
        return None if lost is None else ("lost", lost)

    # Asks

    def asked(self, number, ask):
        """Rule "Asks": the first case that applies. Chapter "The client"."""
        operation = Operation(number, ask)
        if len(self.operations) >= self.limits.operations:
            self.say(number, ("opsfull",))
            return
        association = self.association(operation.server)
        if association is None:
            self.say(number, ("nofile",))
            return
        told = self.told_lost(association, operation)
        if told is not None:
            self.say(number, told)
            return
        self.operations.append(operation)

    # Messages

    def receive(self, message):
        """Rule "Receiving". Chapter "The client"."""
        if message.receiver != self.number or message.kind not in wire.FROM_SERVER:
            return
        association = self.association(message.sender - wire.SERVER_BASE)
        if association is None or message.life != association.life or message.stamp > self.now:
            return
        session = association.session
        if session is None:
            self.welcome(association, message)
        elif message.epoch != session.epoch:
            self.newer_epoch(association, message)
        elif message.kind == wire.NACK:
            self.refusal(association, message)
        elif message.kind == wire.DEMAND:
            self.demand(association, *message.body)
        elif message.kind == wire.GRANTED and message.number == 0:
            self.granted(association, *message.body)
        elif self.counts(session, message):
            self.counting(association, message)

    def welcome(self, association, message):
        """Rules "Welcome" and "Take a fresh welcome only"; without a session every other message is
        ignored.
        """
        if message.kind != wire.WELCOME or association.greeted is None:
            return
        if phase(self.settings, message.stamp, False, self.now) == EXPIRED:
            return
        if self.limits.cooperate and self.now >= message.stamp + self.settings.renew:
            return
        association.session = Session(message.epoch, message.stamp)
        self.dated(association)

    def dated(self, association):
        """The lease is noted. Chapter "The client"."""
        self.note("dated", association.server, lease_end(self.settings, association.session.date))

    def newer_epoch(self, association, message):
        """Rule "A newer epoch"; every other message of another epoch is ignored. Chapter "The
        client".
        """
        session = association.session
        if message.kind != wire.NACK or CAUSES[message.body[0] - 1] != "otherepoch":
            return
        if message.epoch < session.epoch or session.condemned:
            return
        request = session.end_request()
        if request is not None and request.operation is not None:
            self.answer(request.operation, ("uncertain", session.epoch, message.epoch))
        session.epoch = message.epoch
        session.waits, session.releases, session.demands = {}, [], {}
        session.next_number = 1
        session.must_reassert = True

    def refusal(self, association, message):
        """Rule "Refusals" of the session's epoch. Chapter "The client"."""
        session = association.session
        cause = CAUSES[message.body[0] - 1]
        if cause in CONDEMNING:
            session.condemn()
        elif cause not in PASSED_OVER and self.counts(session, message):
            self.counting(association, message)

    def counts(self, session, message):
        """Rule "Counting": the outstanding number, and a kind that fits the request. Chapter "The
        client".
        """
        request = session.request
        if request is None or message.number != request.number:
            return False
        kind, asked = message.kind, request.kind
        if kind == wire.NACK:
            return True
        if kind == wire.ACK:
            return asked in (wire.KEEPALIVE, wire.RELEASED, wire.CUT)
        if kind in (wire.GRANTED, wire.QUEUED):
            return asked == wire.ACQUIRE and message.body[0] == request.body[0]
        if kind == wire.EXTENTS:
            return asked in (wire.MAP, wire.ALLOCATE) and message.body[0] == request.body[0]
        if kind == wire.NAMED:
            return asked == wire.NAME
        return kind == wire.REASSERTED and asked == wire.REASSERT

    def counting(self, association, message):
        """Rule "Counting": the request ends, the lease is renewed, and the reply has its effect.
        Chapter "The client".
        """
        session = association.session
        if message.kind == wire.NACK and session.request.kind == wire.REASSERT:
            session.condemn()
            return
        request = session.end_request()
        if session.renew(message.stamp):
            self.dated(association)
        if message.kind == wire.GRANTED:
            self.granted(association, *message.body)
        elif message.kind == wire.QUEUED:
            self.queued(session, *message.body)
        elif message.kind == wire.EXTENTS:
            self.extents(association, request, *message.body)
        elif message.kind == wire.ACK:
            if request.kind == wire.CUT:
                self.answer(request.operation, ("cut",))
        elif message.kind == wire.NAMED:
            self.named(association, request, *message.body)
        elif message.kind == wire.REASSERTED:
            session.must_reassert = False
        else:
            self.refused(association, request, *message.body)

    def granted(self, association, ino, grant, mode):
        """Rule "Granted". Chapter "The client"."""
        session = association.session
        session.waits.pop(ino, None)
        if not session.is_above_seen(ino, grant):
            return
        session.seen[ino] = grant
        if ino in session.locks or len(session.locks) < self.limits.locks:
            session.install(ino, grant, mode)
            self.owe(association, ino)
        else:
            session.releases.append((ino, grant, NONE))

    def queued(self, session, ino, mode):
        """Rule "Queued". Chapter "The client"."""
        if session.mode(ino) < mode:
            session.waits[ino] = (mode, self.now)

    def extents(self, association, request, ino, rows):
        """Rule "Extents". Chapter "The client"."""
        lock = association.session.locks.get(ino)
        if lock is None or lock.grant != request.body[1]:
            return
        for page, *extent in rows:
            association.store.know(ino, page, tuple(extent))
        if request.kind == wire.MAP and not rows:
            association.store.know(ino, request.body[2], UNMAPPED)
        if request.kind == wire.ALLOCATE:
            association.session.run = RUN

    def named(self, association, request, tag, told):
        """Rule "Named". Chapter "The client"."""
        session = association.session
        self.answer(request.operation, (("named", "listed", "refused")[tag], told))
        removed = request.operation.ino
        if removed is not None and tag == 0:
            lock = session.locks.pop(removed, None)
            session.demands.pop(removed, None)
            if lock is not None:
                session.releases.append((removed, lock.grant, NONE))

    def refused(self, association, request, number, a, b):
        """Rule "Refused". Chapter "The client"."""
        cause = CAUSES[number - 1]
        ino = request.operation.ino if request.kind == NAME else self.file_of(request)
        if cause == "toomanylocks" and self.limits.cooperate and request.kind == wire.ACQUIRE:
            self.full(association, ino)
        elif cause in ("nofile", "toomanylocks"):
            self.answer_all(association, ino, cause)
        elif cause == "nospace" and self.limits.cooperate and request.kind == wire.ALLOCATE and 0 < a < request.body[3]:
            association.session.run = a
        elif cause == "nospace":
            if request.kind in (wire.MAP, wire.ALLOCATE):
                for operation in self.operations_of(association):
                    if operation.is_change() and (operation.ino, operation.page) == (ino, request.body[2]):
                        self.answer(operation, ("nospace", a, b))
        elif cause == "notholder" and request.operation is not None and request.operation.kind in ("cut", "remove"):
            self.answer(request.operation, ("notholder",))

    def answer_all(self, association, ino, cause):
        """All reads, writes, patches, cuts and removes of a file are refused. Rules "Refused" and
        "Giving back". Chapter "The client".
        """
        for operation in self.operations_of(association):
            if ino is not None and operation.ino == ino and operation.kind != "sync":
                self.answer(operation, (cause,))

    def full(self, association, ino):
        """The server has too many locks and waits of this client: a lock is given back, and locks
        of more files are asked for `retry` later.
        """
        association.session.full = self.now
        for operation in self.active(association):
            if operation.ino == ino and operation.needs() > NONE:
                self.give_back(association, operation)
                return

    @staticmethod
    def file_of(request):
        """The inode of a request, or None. Chapter "The client"."""
        return request.body[0] if request.kind in (wire.ACQUIRE, wire.RELEASED, wire.MAP, wire.ALLOCATE, wire.CUT) else None

    def demand(self, association, ino, grant, to):
        """Rule "Demand". Chapter "The client"."""
        session = association.session
        case = session.demand(ino, grant, to)
        if case == "unheld":
            release = (ino, grant, NONE)
            outstanding = session.request is not None and session.request.kind == wire.RELEASED and session.request.body == release
            if release not in session.releases and not outstanding:
                session.releases.append(release)
        if case == "taken" or (case == "unheld" and self.limits.cooperate):
            self.send_from(association, wire.DEMANDSEEN, session.epoch, 0, 0, (ino, grant))

    # Ends of commands

    def ended(self, own, ending, tagged):
        """Rule "Ends of commands": failed, written, or read with what the block had. Chapter "The
        client".
        """
        for association in self.associations:
            command = association.store.commands.get(own)
            if command is not None:
                break
        else:
            return
        is_write = command.version is not None
        if (ending == "read" and is_write) or (ending == "written" and not is_write):
            return
        store = association.store
        ino, page = command.ino, command.page
        del store.commands[own]
        if ending == "read":
            store.make_clean(ino, page, store.found(association.server, ino, page, tagged))
        elif ending == "written":
            dirty = store.dirty.get((ino, page))
            if dirty is not None and dirty.version == command.version:
                del store.dirty[ino, page]
                store.make_clean(ino, page, dirty.bytes)
        elif is_write:
            dirty = store.dirty.get((ino, page))
            if dirty is not None and dirty.version == command.version:
                dirty.failed = own
            for operation in self.operations_of(association):
                if operation.kind == "leave" or (operation.kind == "sync" and operation.ino == ino):
                    self.answer(operation, ("diskfault", own))
        else:
            for operation in self.operations_of(association):
                if operation.kind in ("read", "patch") and (operation.ino, operation.page) == (ino, page):
                    self.answer(operation, ("diskfault", own))
