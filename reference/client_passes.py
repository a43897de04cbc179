"""The passes of a client. Section "The passes" of "The client"."""

from . import wire
from .client_parts import UNMAPPED, Outstanding, Request
from .clocks import FLUSH, QUIESCE, RENEWAL, VALID, lease_end, phase
from .disks import ZEROS
from .modes import EXCLUSIVE, NONE


class Passes:
    """The five passes, a part of the client's machine."""

    def passes(self, association, is_tick):
        """Operations, reductions, writes, leaving, greeting, requests at one server. Chapter "The
        client".
        """
        self.pass_operations(association)
        if association.session is not None:
            self.pass_reductions(association)
            self.pass_writes(association, is_tick)
            self.pass_leaving(association)
        if association.session is None:
            self.pass_greeting(association, is_tick)
        if association.session is not None and not association.session.condemned:
            self.pass_requests(association, is_tick)

    def phase_of(self, session):
        """The phase of a session's lease now. Chapter "The client"."""
        return phase(self.settings, session.date, session.condemned, self.now)

    # Operations

    def pass_operations(self, association):
        """Rule "Operations", in order. Chapter "The client"."""
        session = association.session
        serves = session is not None and self.phase_of(session) in (VALID, RENEWAL)
        association.store.standing, active = 0, set(self.active(association))
        for operation in self.operations_of(association):
            if operation.kind == "sync":
                self.serve_sync(association, operation)
            elif operation.kind == "leave":
                self.serve_leave(association, operation)
            elif session is None:
                continue
            elif not serves:
                if not operation.sent:
                    self.answer(operation, ("quiesced",))
            elif operation.kind in ("write", "patch", "read") and operation in active and self.is_open(association, operation):
                self.serve(association, operation)
        if serves and self.limits.cooperate:
            self.stand_for_locks(association)

    def serve_sync(self, association, operation):
        """A sync is hard if its file has no dirty page and no outstanding write. Rule
        "Operations". Chapter "The client".
        """
        store = association.store
        if not store.has_dirty(operation.ino) and not store.has_outstanding_write(operation.ino):
            self.answer(operation, ("hard",))

    def serve_leave(self, association, operation):
        """A leave ends in a session in which nothing was asked yet. Rule "Leaving"."""
        session = association.session
        if self.is_leaving(association) and session is not None and session.next_number == 1 and not session.must_reassert:
            self.answer(operation, ("left",))

    def serve(self, association, operation):
        """Rules "Writing", "Patching", "Reading" and "Fetching". Chapter "The client"."""
        if operation.kind == "read":
            self.serve_read(association, operation)
        else:
            self.serve_change(association, operation)

    def serve_change(self, association, operation):
        """Rules "Writing" and "Patching": an exclusive lock and a mapped extent; a patch needs the
        page cached. Chapter "The client".
        """
        ino, page, store = operation.ino, operation.page, association.store
        if association.session.mode(ino) != EXCLUSIVE or store.mapped_at(ino, page) is None:
            return
        if operation.kind == "patch" and not store.is_cached(ino, page):
            self.fetch(association, ino, page)
            return
        if store.is_dirty_full(ino, page):
            if self.limits.cooperate and store.oldest(1):
                store.standing += 1
            else:
                self.answer(operation, ("dirtyfull",))
            return
        if operation.kind == "write":
            data = operation.ask[3]
            self.note("write", (association.server, ino), page, data)
        else:
            at, piece = operation.ask[3:]
            old = store.dirty[ino, page].bytes if (ino, page) in store.dirty else store.clean[ino, page]
            data = old[:at] + piece + old[at + len(piece) :]
            self.note("patch", (association.server, ino), page, at, piece)
        store.make_dirty(ino, page, data)
        number = store.command_on(ino, page)
        if number is not None and store.commands[number].version is None:
            del store.commands[number]
        self.answer(operation, ("written",))

    def serve_read(self, association, operation):
        """Rule "Reading". Chapter "The client"."""
        ino, page, store = operation.ino, operation.page, association.store
        if association.session.mode(ino) == NONE:
            return
        if (ino, page) in store.dirty:
            self.answer(operation, ("read", store.dirty[ino, page].bytes))
        elif (ino, page) in store.clean:
            store.clean.move_to_end((ino, page))
            self.answer(operation, ("read", store.clean[ino, page]))
        elif store.known_at(ino, page) is UNMAPPED:
            self.answer(operation, ("read", ZEROS))
        elif store.mapped_at(ino, page) is not None:
            self.fetch(association, ino, page)

    def fetch(self, association, ino, page):
        """Rule "Fetching": a mapped page is read from its disk, unless that is under way. Chapter
        "The client".
        """
        store = association.store
        if store.command_on(ino, page) is None:
            self.submit(association, ino, page, None)

    def submit(self, association, ino, page, dirty):
        """A command with the next number: a read, or a write of a dirty page. Chapter "The client".
        """
        disk, block, birth = association.store.mapped_at(ino, page)
        own = self.next_command
        self.next_command += 1
        association.store.commands[own] = Outstanding(ino, page, None if dirty is None else dirty.version)
        write = None if dirty is None else (association.server, ino, page, birth, dirty.bytes)
        self.outputs.append(("submit", own, disk, block, write))

    # Reductions

    def pass_reductions(self, association):
        """Rule "Reductions", by rising file. Chapter "The client"."""
        session, store = association.session, association.store
        demanded = dict.fromkeys(session.locks, NONE) if self.is_leaving(association) else dict(session.demands)
        for ino, to in sorted(demanded.items()):
            if not store.is_idle(ino) or self.is_busy(association, ino) or self.owed(association, ino) is not None:
                continue
            session.owed.pop(ino, None)
            session.demands.pop(ino, None)
            lock = session.locks[ino]
            if to == NONE:
                del session.locks[ino]
                store.forget_from(ino, 0)
            else:
                lock.mode = min(lock.mode, to)
            session.releases.append((ino, lock.grant, to))
            session.waits.pop(ino, None)

    # Giving back

    def is_full(self, association):
        """Whether the client is at its limit: its locks, and the files without one for which it
        waits for an operation. Rule "Giving back".
        """
        session = association.session
        waited = {operation.ino for operation in self.operations_of(association)} & session.waits.keys() - session.locks.keys()
        return len(session.locks) + len(waited) >= self.limits.locks

    def stand_for_locks(self, association):
        """At the limit, a lock is given back for the first operation that needs a lock on another
        file. Rule "Giving back".
        """
        session = association.session
        for operation in self.active(association):
            ino = operation.ino
            if operation not in self.operations or operation.sent or operation.needs() == NONE:
                continue
            if ino not in session.locks and ino not in session.waits:
                if not self.is_full(association) or self.give_back(association, operation):
                    return

    def give_back(self, association, operation):
        """Rule "Giving back", for an operation: whether it waits; else all locks are stuck, and its
        file is refused. Chapter "The client".
        """
        session, store = association.session, association.store
        if len(session.locks) >= self.limits.locks and all(map(store.is_stuck, session.locks)):
            self.answer_all(association, operation.ino, "toomanylocks")
            return False
        given = {ino for ino, to in session.demands.items() if to == NONE}
        if not all(map(store.is_stuck, given)):
            return True
        before = self.operations[: self.operations.index(operation)]
        kept = {other.ino for other in before if other.server == association.server}
        free = [ino for ino in session.locks.keys() - kept - given if not self.is_busy(association, ino) and not store.is_stuck(ino)]
        if free:
            session.demands[min(free, key=lambda ino: (not store.is_idle(ino), session.locks[ino].grant))] = NONE
        return True

    # Writes

    def pass_writes(self, association, is_tick):
        """Rule "Writes", by rising file and page. Chapter "The client"."""
        session, store = association.session, association.store
        if not store.dirty:
            return
        in_flush = self.phase_of(session) == FLUSH
        written, room = store.written(), store.oldest(store.standing)
        for (ino, page), dirty in sorted(store.dirty.items(), key=lambda item: item[0]):
            if (ino, page) in written:
                continue
            if in_flush:
                due = dirty.failed is None
            else:
                due = ((dirty.failed is None or is_tick) and self.is_wanted(association, ino)) or (ino, page) in room
            if due:
                self.submit(association, ino, page, dirty)

    def is_wanted(self, association, ino):
        """Rule "Writes": demanded, or a sync pending, or a cut or a remove pending, not sent, under
        an exclusive lock. Chapter "The client".
        """
        session = association.session
        if ino in session.demands or self.is_leaving(association):
            return True
        for operation in self.operations_of(association):
            if operation.ino != ino:
                continue
            if operation.kind == "sync":
                return True
            if operation.is_cut() and not operation.sent and session.mode(ino) == EXCLUSIVE:
                return True
        return False

    # Leaving

    def pass_leaving(self, association):
        """Rule "Leaving": with nothing left the life ends, with a note, and the client greets in
        the next one. Chapter "The client".
        """
        session, store = association.session, association.store
        if not self.is_leaving(association) or session.locks or session.releases or session.request or store.dirty or store.commands:
            return
        self.note("ended", association.server, association.life, lease_end(self.settings, session.date))
        association.empty()
        association.life += 1

    # Greeting

    def pass_greeting(self, association, is_tick):
        """Rule "Greeting". Chapter "The client"."""
        if not self.operations_of(association):
            return
        old = association.greeted is not None and self.now - association.greeted >= self.settings.retry
        if association.greeted is None or (is_tick and old):
            association.greeted = self.now
            self.send_from(association, wire.HELLO, 0, 0, self.now, ())

    # Requests

    def pass_requests(self, association, is_tick):
        """Rule "Requests". Chapter "The client"."""
        session = association.session
        request = session.request
        if request is not None:
            if is_tick and self.now - request.sent >= self.settings.retry:
                request.sent = self.now
                self.send_from(association, request.kind, session.epoch, request.number, self.now, request.body)
            return
        wanted = self.next_request(association)
        if wanted is None:
            return
        kind, body, operation = wanted
        number = session.next_number
        session.next_number += 1
        session.request = Request(number, kind, body, self.now, operation)
        self.send_from(association, kind, session.epoch, number, self.now, body)

    def next_request(self, association):
        """The first request that there is: (kind, body, operation), or None. Rule "Requests".
        Chapter "The client".
        """
        session = association.session
        if session.must_reassert:
            rows = tuple((ino, lock.grant, lock.mode) for ino, lock in sorted(session.locks.items()))
            return wire.REASSERT, (rows,), None
        if session.releases:
            return wire.RELEASED, session.releases.pop(0), None
        now_in = self.phase_of(session)
        if now_in in (VALID, RENEWAL):
            for operation in self.active(association):
                wanted = self.asks(association, operation)
                if wanted is not None:
                    return wanted
        if now_in in (RENEWAL, QUIESCE, FLUSH):
            return wire.KEEPALIVE, (), None
        return None

    def asks(self, association, operation):
        """Rule "What an operation asks": (kind, body, operation that waits for the reply), or None.
        Chapter "The client".
        """
        session, store = association.session, association.store
        ino, page = operation.ino, operation.page
        if operation.sent or operation.kind == "sync" or (ino is not None and not self.is_open(association, operation)):
            return None
        if ino is None:
            return self.ask_name(session, operation, 0)
        needed = operation.needs()
        if session.mode(ino) < needed:
            wait = session.waits.get(ino)
            if wait is None and session.mode(ino) == NONE and self.limits.cooperate and (self.is_full(association) or self.was_full(session)):
                return None
            if wait is None or wait[0] < needed or self.now - wait[1] >= self.settings.retry:
                return wire.ACQUIRE, (ino, needed), None
            return None
        grant = session.locks[ino].grant
        if operation.kind == "read":
            if not store.is_cached(ino, page) and store.known_at(ino, page) is None:
                return wire.MAP, (ino, grant, page), None
            return None
        if operation.is_change():
            if store.mapped_at(ino, page) is None:
                return wire.ALLOCATE, (ino, grant, page, self.run(association, ino, page)), None
            return None
        if not store.is_idle(ino) or self.owed(association, ino) not in (None, operation):
            return None
        store.forget_from(ino, page)
        if operation.kind == "cut":
            operation.sent = True
            return wire.CUT, (ino, grant, page), operation
        return self.ask_name(session, operation, grant)

    def was_full(self, session):
        """Whether the server refused a lock as too many less than `retry` ago. Rule "Giving back".
        """
        return session.full is not None and self.now - session.full < self.settings.retry

    def run(self, association, ino, page):
        """Rule "Runs": the page and those after it that are not known as mapped either and have a
        pending change, as many as may be asked.
        """
        if not self.limits.cooperate:
            return 1
        changed = {operation.page for operation in self.active(association) if operation.ino == ino and operation.is_change()}
        count = 1
        while count < association.session.run and page + count in changed and association.store.mapped_at(ino, page + count) is None:
            count += 1
        return count

    @staticmethod
    def ask_name(session, operation, grant):
        """A name's request; a remove has the lock's grant number, or 0. Chapter "The client"."""
        operation.sent = True
        fields = operation.ask[2]
        if fields[0] == wire.REMOVE:
            fields = (*fields[:3], grant)
        return wire.NAME, fields, operation
