"""A node over frames. Chapter "A node over a stream"."""

from . import wire
from .client import Client
from .server import Server
from .settings import Settings
from .wire import FrameReader, Message, Refusal

SETTINGS = Settings(10000, 5000, 7000, 8500, 1000, 500, 101, 100, 1)
SERVERS, DISKS, BLOCKS = 4, 4, 4096
FRAMES = 1048576


class Node:
    """One fresh node: takes messages, gives the messages that it writes. Chapter "A node over a
    stream".
    """

    def __init__(self, role, number):
        if role == "server":
            self.machine = Server(number, SETTINGS, SERVERS, DISKS, BLOCKS)
            self.number = self.machine.node
        else:
            self.machine = Client(number, SETTINGS, SERVERS)
            self.number = number
        self.role = role

    def take(self, now, message):
        """One message: a step and what it writes, or nothing if it is ignored. Chapter "A node over
        a stream".
        """
        if message.receiver != self.number:
            return []
        if self.role == "server":
            if message.kind == wire.TICK:
                outputs = self.machine.step(now, None)
            elif message.kind in wire.FROM_CLIENT:
                outputs = self.machine.step(now, message)
            else:
                return []
        else:
            taken = self.taken(message)
            if taken is None:
                return []
            outputs = self.machine.step(now, taken)
        return [written for written in map(self.written, outputs) if written is not None]

    @staticmethod
    def taken(message):
        """A client's input: a tick, an ask, the end of a command, a server's message; else None.
        Chapter "A node over a stream".
        """
        if message.kind == wire.TICK:
            return ("tick",)
        if message.kind == wire.APP:
            return ("ask", *message.body)
        if message.kind == wire.DONE:
            return ("end", *message.body)
        return ("message", message) if message.kind in wire.FROM_SERVER else None

    def written(self, output):
        """The message of an output; notes are not written. Chapter "A node over a stream"."""
        if output[0] == "send":
            return output[1]
        if output[0] == "submit":
            return Message(wire.SUBMIT, self.number, 0, 0, 0, 0, 0, output[1:])
        if output[0] == "answer":
            return Message(wire.APPDONE, self.number, 0, 0, 0, 0, 0, output[1:])
        return None


def serve(node, pieces, clock, write):
    """The run over a stream: frames in, frames out. How it stops: None, or the text of status 1.
    Chapter "A node over a stream".
    """
    reader, frames = FrameReader(), 0
    for piece in pieces:
        reader.feed(piece)
        while True:
            if frames == FRAMES and reader.held:
                return "tank: too many frames"
            try:
                message = reader.next()
            except Refusal as refusal:
                return " ".join(["tank: frame at", str(reader.offset), refusal.name, *map(str, refusal.values)])
            if message is None:
                break
            frames += 1
            for answer in node.take(clock.read(), message):
                write(wire.frame(answer))
    if reader.held:
        return f"tank: frame cut at {reader.offset}"
    return None
