"""What `tools/tankd` runs: a node to which a message is given at a reading of its clock, and which
says what it sends.

An *engine* has `step(now, data)`: the node takes the message that these bytes spell, and the
messages that it sends, asks its disk and answers come back, each as bytes. `readings` is the least
and the greatest reading at which that can have been. Messages are without the length of a frame.
`begin` starts the node, for the first time or again. `moment` is the moment of the step: by it the
file that outlives a crash names the last step whose change it has, and `was_made` says whether the
change of a step outlived the daemon.

    Program     the program's word `node`, as a process: the proved node. It reads the machine's clock by itself, begins fresh, and can't be started again
    Library     libtank, the proved nodes in this process: any settings; a client's lives and a server's journal outlive a crash
    Reference   the second implementation, reference/, in this process, with any settings. What outlives a crash is kept in a file
"""
import ctypes
import fcntl
import functools
import importlib.util
import json
import os
import pathlib
import pickle
import signal
import socket
import struct
import subprocess
import sys
import time
from typing import NamedTuple

import comparing  # noqa: F401  (it makes reference/ known)
from reference import wire
from reference.client import Client
from reference.node import BLOCKS, DISKS, SERVERS, SETTINGS, Node
from reference.server import Server
from reference.settings import Settings

# The C library, loaded before any process forks: what is imported between a fork and a program may
# wait for ever for another thread.
LIBC = ctypes.CDLL(None) if sys.platform == "linux" else None
CLIENTS = 16
TIOCOUTQ = 0x5411  # of Linux: how many bytes the other end has not read yet
PATIENCE = 5
JOURNAL = 1 << 20  # bytes of a server's journal
LATE = 2  # seconds after which a server with the fault `late-kept` keeps its changes
NODE_WORDS = tuple(map(str, (*SETTINGS, CLIENTS, SERVERS, DISKS, BLOCKS)))


def node_number(name):
    """A node's number in messages."""
    return int(name[1:]) + (wire.SERVER_BASE if name[0] == "s" else 0)


def milliseconds(at):
    """The reading of the machine's monotonic clock in milliseconds."""
    return at // 1_000_000


class Lease(NamedTuple):
    """A client's lease at a server: the life and the lease's end, whether it is in its flush phase,
    and whether pages of the server are dirty.
    """

    server: int
    life: int
    end: int
    in_flush: bool
    is_dirty: bool


class Ended(Exception):
    """The node's process ended."""


def end_with_parent():
    """Has the kernel end this process when the one that started it ends, even if that one was
    killed.
    """
    if LIBC is not None:
        LIBC.prctl(1, signal.SIGKILL)


class Program:
    """A process of the program. A step is done when the process has read the whole frame, waits to
    read on, and has written nothing more.
    """

    def __init__(self, program, name, folder):
        self.path = pathlib.Path(folder) / f"{name}.node"
        self.path.unlink(missing_ok=True)
        words = [program, "node", "server" if name[0] == "s" else "client", name[1:], str(self.path)]
        self.process = subprocess.Popen(words, stdin=subprocess.DEVNULL, start_new_session=True, preexec_fn=end_with_parent)
        self.stat = os.open(f"/proc/{self.process.pid}/stat", os.O_RDONLY)
        self.stream, self.held, self.readings, self.moment = self.connected(), bytearray(), (0, 0), 0

    def connected(self):
        """A stream to the process, as soon as it listens."""
        until = time.monotonic() + PATIENCE
        while time.monotonic() < until and self.process.poll() is None:
            stream = socket.socket(socket.AF_UNIX)
            try:
                stream.connect(str(self.path))
                return stream
            except OSError:
                stream.close()
                time.sleep(0.01)
        raise Ended(f"the process does not listen (status {self.process.poll()})")

    def was_kept(self):
        return True

    def begin(self, now, is_again):
        if is_again:
            raise SystemExit("tankd: this node ran before, and a node of the program begins fresh; take another folder")

    def was_made(self, moment):
        return False

    def leases(self):
        """The program does not tell what its leases are."""
        return []

    def step(self, now, data):
        """One step. The process reads its clock itself, so `now` is not used."""
        self.moment = time.monotonic_ns()
        self.stream.sendall(struct.pack(">I", len(data)) + data)
        while not self.is_waiting() or self.drain():
            time.sleep(0.00002)
        self.readings = milliseconds(self.moment), milliseconds(time.monotonic_ns())
        return list(self.frames())

    def is_waiting(self):
        """Whether the process has read everything, and sleeps."""
        unread = struct.unpack("i", fcntl.ioctl(self.stream, TIOCOUTQ, b"\0\0\0\0"))[0]
        if unread:
            self.drain()
            return False
        state = os.pread(self.stat, 1024, 0).rpartition(b") ")[2][:1]
        if state in (b"Z", b"X"):
            raise Ended(f"the process ended with status {self.process.wait(PATIENCE)}")
        return state == b"S"

    def drain(self):
        """Takes what the process wrote; whether it had written."""
        try:
            piece = self.stream.recv(1 << 16, socket.MSG_DONTWAIT)
        except BlockingIOError:
            return False
        if not piece:
            raise Ended(f"the process ended with status {self.process.wait(PATIENCE)}")
        self.held += piece
        return True

    def frames(self):
        """The whole frames that were written."""
        while len(self.held) >= 4:
            size = struct.unpack_from(">I", self.held)[0]
            yield bytes(self.held[4:4 + size])
            del self.held[:4 + size]

    def close(self):
        self.stream.close()
        try:
            self.process.wait(PATIENCE)
        except subprocess.TimeoutExpired:
            self.process.kill()
            self.process.wait()


def write_whole(path, data):
    """Writes a file in place of the one that is there, and waits until the disk has it."""
    new = path.with_name(path.name + ".new")
    with open(new, "wb") as file:
        file.write(data)
        file.flush()
        os.fsync(file.fileno())
    os.replace(new, path)


class Reference:
    """A node of reference/, and the file that keeps what outlives a crash of it: a client's lives,
    or a server's epoch, names and extents.
    """

    def __init__(self, name, words, folder):
        numbers = list(map(int, words))
        settings, (_, servers, disks, blocks) = Settings(*numbers[:9]), numbers[9:]
        number = int(name[1:])
        self.node = Node("server" if name[0] == "s" else "client", number)
        self.is_server = name[0] == "s"
        self.node.machine = Server(number, settings, servers, disks, blocks) if self.is_server else Client(number, settings, servers)
        self.path, self.readings, self.moment = pathlib.Path(folder) / f"{name}.kept", (0, 0), 0
        self.is_late, self.is_torn, self.written, self.kept = False, False, time.monotonic(), None

    def stable(self):
        """What outlives a crash, as bytes."""
        machine = self.node.machine
        if self.is_server:
            return pickle.dumps((machine.epoch, machine.names, machine.extents))
        return pickle.dumps([association.life for association in machine.associations])

    def was_kept(self):
        """Whether an earlier daemon came as far as to keep something."""
        return self.path.exists()

    def begin(self, now, is_again):
        """Starts the node, again from what was kept."""
        machine = self.node.machine
        if is_again:
            kept = pickle.loads(pickle.loads(self.path.read_bytes())[1])
            if self.is_server:
                machine.epoch, machine.names, machine.extents = kept
                machine.crash()
                machine.start(now)
            else:
                machine.begin(kept)
                machine.start()
        self.keep()

    def keep(self):
        """Writes what outlives a crash."""
        self.kept = self.stable()
        write_whole(self.path, pickle.dumps((self.moment, self.kept)))
        self.written = time.monotonic()

    def was_made(self, moment):
        return pickle.loads(self.path.read_bytes())[0] == moment

    def is_changed(self, kind):
        """Whether a step on a message of this kind changed what outlives a crash."""
        return (not self.is_server or kind in (wire.ALLOCATE, wire.CUT, wire.NAME)) and self.stable() != self.kept

    def leases(self):
        """A client's leases at the moment of its last step."""
        machine = self.node.machine
        found = [] if self.is_server else [it for it in machine.associations if it.session is not None]
        return [Lease(it.server, it.life, machine.lease_end_at(it.server), machine.is_in_flush(it.server), bool(it.store.dirty)) for it in found]

    def step(self, now, data):
        """One step; what outlives a crash is kept before what the step gave is returned."""
        self.readings = now, now
        message = wire.decode(data)
        outputs = [wire.encode(given) for given in self.node.take(now, message)]
        if self.is_late and time.monotonic() < self.written + LATE:
            return outputs
        if self.is_late or self.is_changed(message.kind):
            self.keep()
        return outputs

    def close(self):
        pass


class Library:
    """A node of libtank. A client keeps its lives in a file; a server has its journal in one, and
    in another the place where it ended after the last step.
    """

    def __init__(self, name, words, folder):
        numbers = list(map(int, words))
        self.tank = tank_module()
        self.name, self.id, self.is_server, self.counts = name, int(name[1:]), name[0] == "s", numbers[9:]
        self.settings = self.tank.Settings(*numbers[:9])
        self.kept, self.journal = pathlib.Path(folder) / f"{name}.kept", pathlib.Path(folder) / f"{name}.journal"
        self.readings, self.moment, self.node, self.is_late, self.late, self.written = (0, 0), 0, None, False, [], time.monotonic()
        self.is_torn, self.is_longer = False, False

    def was_kept(self):
        """Whether an earlier daemon came as far as to keep something."""
        if not self.is_server:
            return self.kept.exists()
        return self.journal.exists() and self.journal.read_bytes()[:1] == b"\1"

    def begin(self, now, is_again):
        """Opens the node: fresh, or from its lives or its journal."""
        _, servers, disks, blocks = self.counts
        if self.is_server:
            self.file = os.open(self.journal, os.O_RDWR | os.O_CREAT, 0o644)
            os.ftruncate(self.file, JOURNAL)
            shape = self.tank.Shape(self.id, servers, disks, blocks)
            self.node = self.tank.Server(self.settings, shape, now, os.pread(self.file, JOURNAL, 0), self.write)
            self.kept.write_text(str(self.journal_end()))
        else:
            lives = json.loads(self.kept.read_text())[1] if is_again else [0] * servers
            self.node = self.tank.Client(self.settings, self.id, lives, self.keep)

    def keep(self, lives):
        write_whole(self.kept, json.dumps([self.moment, lives]).encode())

    def write(self, place, data):
        """Writes bytes of the journal, and waits until the disk has them."""
        self.is_longer = True
        if self.is_late:
            self.late.append((place, data))
            return
        if self.is_torn:
            os.pwrite(self.file, os.urandom(len(data)), place)
            time.sleep(0.002)
        os.pwrite(self.file, data, place)
        os.fdatasync(self.file)

    def journal_end(self):
        """The place of the journal's last gate, as the file has it."""
        data, place = os.pread(self.file, JOURNAL, 0), 0
        while data[place] == 1:
            place += 5 + int.from_bytes(data[place + 1:place + 5], "big")
        return place

    def was_made(self, moment):
        """Whether the journal became longer since the last whole step, or the lives are those of
        this moment.
        """
        if not self.is_server:
            return json.loads(self.kept.read_text())[0] == moment
        self.file = os.open(self.journal, os.O_RDWR)
        return self.journal_end() != int(self.kept.read_text() or 0 if self.kept.exists() else 0)

    def leases(self):
        """A client's leases at the moment of its last step."""
        found = [] if self.is_server else [(server, self.node.at(server, self.readings[0])) for server in range(1, self.counts[1] + 1)]
        return [Lease(server, it.life, it.lease_end, self.tank.PHASES[it.phase] == "flush", bool(it.dirty)) for server, it in found if it.lease_end]

    def step(self, now, data):
        self.readings = now, now
        if self.late and time.monotonic() > self.written + LATE:
            for place, piece in self.late:
                os.pwrite(self.file, piece, place)
            self.late, self.written, self.is_longer = [], time.monotonic(), True
        frames = self.node.step(now, struct.pack(">I", len(data)) + data)
        return [frame[4:] for frame in frames]

    def whole(self):
        """The line of the step is written: notes where the journal ends, if that has
        changed.
        """
        if self.is_longer:
            self.is_longer = False
            self.kept.write_text(str(self.journal_end()))

    def close(self):
        self.node.close()


@functools.lru_cache(maxsize=None)
def tank_module():
    """The layer over libtank, examples/tank.py, with the library that TANK_LIBRARY names, or else
    the one that tools/shared_library links.
    """
    if "TANK_LIBRARY" not in os.environ:
        linked = subprocess.run([comparing.ROOT / "tools/shared_library"], stdout=subprocess.PIPE, text=True)
        if linked.returncode:
            raise SystemExit("tankd: there is no libtank")
        os.environ["TANK_LIBRARY"] = linked.stdout.strip()
    spec = importlib.util.spec_from_file_location("tank", comparing.ROOT / "examples/tank.py")
    module = importlib.util.module_from_spec(spec)
    spec.loader.exec_module(module)
    return module


def engine_of(kind, name, words, folder, program):
    """The engine of this kind for a node of a run."""
    if kind == "node":
        if tuple(words) != NODE_WORDS:
            raise SystemExit(f"tankd: the program's nodes have the settings {' '.join(NODE_WORDS)} and no others")
        return Program(program, name, folder)
    return (Library if kind == "library" else Reference)(name, words, folder)
