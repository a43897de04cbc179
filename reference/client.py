"""The client. Chapter "The client"."""

from . import wire
from .client_inputs import Inputs
from .client_parts import Association
from .client_passes import Passes
from .clocks import FLUSH, lease_end
from .modes import NONE
from .settings import Limits
from .wire import Message


class Client(Inputs, Passes):
    """A client node: its machine and whether it runs. Chapter "The client"."""

    def __init__(self, number, settings, servers, limits=Limits()):
        self.number, self.settings, self.limits = number, settings, limits
        self.running = True
        self.begin([1] * servers)

    def begin(self, lives):
        """A client with these lives and nothing else. Chapter "The client"."""
        self.associations = [Association(server, life, self.limits) for server, life in enumerate(lives, 1)]
        self.operations = []
        self.next_command = 1

    def crash(self):
        """A crash keeps only the lives. Section "Crash and start". Chapter "The client"."""
        self.running = False
        self.begin([association.life for association in self.associations])

    def start(self):
        """A start raises each life by 1. Section "Crash and start". Chapter "The client"."""
        self.running = True
        self.begin([association.life + 1 for association in self.associations])

    def association(self, server):
        """The association with a configured server, or None. Chapter "The client"."""
        return self.associations[server - 1] if 1 <= server <= len(self.associations) else None

    def step(self, now, taken):
        """A step: losses, the rule for the input, and five passes at each server. Its outputs.
        Chapter "The client".
        """
        self.now, self.outputs = now, []
        self.losses()
        kind = taken[0]
        if kind == "ask":
            self.asked(*taken[1:])
        elif kind == "message":
            self.receive(taken[1])
        elif kind == "end":
            self.ended(*taken[1:])
        for association in self.associations:
            self.passes(association, kind == "tick")
        return self.outputs

    # What rules say

    def operations_of(self, association):
        """The pending operations of a server, in order. Chapter "The client"."""
        return [operation for operation in self.operations if operation.server == association.server]

    def active(self, association):
        """The pending operations of a server that no leave precedes, in order. Rule "Leaving"."""
        operations = self.operations_of(association)
        leaves = [place for place, operation in enumerate(operations) if operation.kind == "leave"]
        return operations[: leaves[0]] if leaves else operations

    def is_leaving(self, association):
        """Whether the first pending operation of a server is a leave. Rule "Leaving"."""
        operations = self.operations_of(association)
        return bool(operations) and operations[0].kind == "leave"

    def owe(self, association, ino):
        """Rule "Used once": of a lock that is installed now, the first active operation that it
        covers is owed a use. Chapter "The client".
        """
        session = association.session
        session.owed.pop(ino, None)
        if self.limits.cooperate:
            for operation in self.active(association):
                if operation.ino == ino and not operation.sent and NONE < operation.needs() <= session.mode(ino):
                    session.owed[ino] = operation
                    return

    def owed(self, association, ino):
        """The operation that is owed a use of the file's lock, until it was sent or answered; or
        None. Rule "Used once".
        """
        operation = association.session.owed.get(ino)
        return None if operation is None or operation.sent or operation not in self.operations else operation

    def is_busy(self, association, ino):
        """A file is busy while a cut or a remove of it was sent and not answered. Chapter "The
        client".
        """
        return any(operation.sent and operation.ino == ino and operation.is_cut() for operation in self.operations_of(association))

    def is_open(self, association, operation):
        """A file is open to an operation if it is not busy, and is not demanded or owes this
        operation a use. Chapter "The client".
        """
        ino = operation.ino
        if self.is_busy(association, ino):
            return False
        return ino not in association.session.demands or self.owed(association, ino) is operation

    def answer(self, operation, answer):
        """Every answer ends its operation. Chapter "The client"."""
        self.operations.remove(operation)
        self.say(operation.number, answer)

    def say(self, number, answer):
        """An answer goes out. Chapter "The client"."""
        self.outputs.append(("answer", number, answer))

    def note(self, *note):
        """A note goes out. Chapter "The client"."""
        self.outputs.append(note)

    def send_from(self, association, kind, epoch, number, stamp, body):
        """A message to the server, of the life there. Chapter "The client"."""
        receiver = wire.SERVER_BASE + association.server
        self.outputs.append(("send", Message(kind, self.number, receiver, association.life, epoch, number, stamp, body)))

    # What the world looks at

    def lease_end_at(self, server):
        """The lease end at a server, or None without a lease. Chapter "The client"."""
        session = self.associations[server - 1].session
        return None if session is None else lease_end(self.settings, session.date)

    def is_in_flush(self, server):
        """Whether the client's lease at a server is in flush. Chapter "The client"."""
        session = self.associations[server - 1].session
        return session is not None and self.phase_of(session) == FLUSH
