"""Streams of frames that a node gets, with what it writes and why it stops:
crates/st_node_tests/src/rows.rt and schedules/frames/server.rows, written by tools/rows/write.

The node of reference/ serves each stream; no output is typed by hand. The second file has the
streams of a server in which no clock reading counts: `.ci/frames` gives them to the program.
"""
import random
import struct

import client_streams
from row_records import (
    Ack, Acquire, Allocate, App, Block, Create, CutAsk, Demand, Done, Extents, File, Granted, Hello, KeepAlive, Map, Message, Nack, NameAsk, PatchAsk,
    Queued, ReadAsk, Reassert, Released, RemoveEntry, SyncAsk, Tag, Tick, Welcome, WriteAsk, frame,
)
from row_words import runs
from reference.client import Client
from reference.clocks import ListedClock
from reference.node import Node, serve

SERVER = 32769
GRANTS = 1 << 32


def fresh(kind):
    """A fresh node of a kind: `two` is client 3 of two servers, with a lease of 100 ticks."""
    if kind != "two":
        return Node(kind, 1)
    node = Node("client", client_streams.SELF)
    node.machine = Client(client_streams.SELF, client_streams.CONFIG, client_streams.SERVERS)
    return node


def served(kind, data, readings):
    """What a node writes that gets these bytes, and why it stops."""
    out = bytearray()
    fault = serve(fresh(kind), [data], ListedClock(readings), out.extend)
    return bytes(out), fault.removeprefix("tank: ") if fault else "ok"


def sent(body, epoch=1, number=0, life=1, client=1, to=SERVER, stamp=0):
    return frame(Message(client, to, life, epoch, number, stamp, body))


def told_client(body, number=0, epoch=1, life=1, stamp=0, server=SERVER, to=1):
    """What a server sends to a client."""
    return frame(Message(server, to, life, epoch, number, stamp, body))


def local(body, to=1):
    """What a client hears from its own surroundings."""
    return frame(Message(0, to, 0, 0, 0, 0, body))


HELLO = sent(Hello(), epoch=0)
TICK = frame(Message(0, SERVER, 0, 0, 0, 0, Tick()))


def hostile():
    yield "a keep-alive without a session", [0], sent(KeepAlive(), number=1)
    yield "a keep-alive of another epoch", [0], HELLO + sent(KeepAlive(), epoch=2, number=1)
    yield "a keep-alive out of order", [0], HELLO + sent(KeepAlive(), number=2)
    yield "a keep-alive three times", [0], HELLO + 3 * sent(KeepAlive(), number=1)
    yield "a reassertion in the first epoch", [0], sent(Reassert(()), number=1)
    yield "a sender that is no client", [0], HELLO[:6] + struct.pack(">H", 17) + HELLO[8:]
    yield "a length above the most", [0], struct.pack(">I", 65537)
    yield "a length of nothing", [0], struct.pack(">I", 0)
    yield "a release of another grant", [0], (
        HELLO + sent(Acquire(2, 2), number=1) + sent(Released(2, GRANTS + 2, 0), number=2) + sent(Map(2, GRANTS + 1, 0), number=3))


def other():
    yield "a greeting", [0], HELLO
    yield "a greeting whose length is one more", [0], HELLO[:3] + b"\x27" + HELLO[4:] + b"\x00"
    yield "a version that is none", [0], b"\x00\x00\x00\x01\x09"
    yield "a frame for another server", [0], sent(Hello(), epoch=0, to=32770)
    yield "a frame that no server takes", [0], frame(Message(SERVER, 1, 1, 1, 0, 0, Welcome()))
    yield "nothing", [0], b""
    yield "a bad frame behind a good one", [0], HELLO + b"\x00\x00\x00\x01\x04" + HELLO
    yield "a kind that is none", [0], HELLO + b"\x00\x00\x00\x02\x01\xff"
    yield "one reading for each frame", [0, 7, 1200, 1300, 2500], (
        HELLO + sent(Acquire(2, 2), number=1) + sent(Hello(), epoch=0, client=2) + sent(Acquire(2, 1), number=1, client=2) + TICK)
    yield "a reading for a frame that is passed over", [0, 1, 2, 3, 104, 105], (
        HELLO + sent(Acquire(2, 2), number=1) + sent(Hello(), epoch=0, client=2) + sent(Acquire(2, 1), number=1, client=2)
        + sent(Hello(), epoch=0, to=32770) + 110 * TICK)


def client():
    file = File(1, 2)
    read, write = App(1, ReadAsk(file, 0)), App(1, WriteAsk(file, 0, bytes(4096)))
    welcome, x = told_client(Welcome()), GRANTS + 1
    block = (0, Block(1, 0), 1)
    yield "a session begins", [5, 9], local(read) + told_client(Welcome(), stamp=5)
    yield "a client and a frame for another", [0], local(read, to=2) + local(read)
    yield "a client and a frame that it does not take", [0], HELLO + local(read)
    yield "a client's bad frame", [0], local(read) + b"\x00\x00\x00\x01\x04"
    yield "a write, a sync, and the end of its command", [0], (
        local(write) + welcome + told_client(Granted(2, x, 2), 1) + told_client(Extents(2, (block,)), 2) + local(App(2, SyncAsk(file))) + local(Done(1, ())))
    yield "a command that failed", [0], (
        local(write) + welcome + told_client(Granted(2, x, 2), 1) + told_client(Extents(2, (block,)), 2) + local(App(2, SyncAsk(file))) + local(Done(1, None)))
    yield "a read of a block", [0], (
        local(read) + welcome + told_client(Granted(2, x, 1), 1) + told_client(Extents(2, (block,)), 2) + local(Done(1, (Tag(file, 0, 1), b"\7" * 4096))))
    yield "a lease that is over", [0, 0, 0, 0, 9000, 20000], (
        local(write) + welcome + told_client(Granted(2, x, 2), 1) + told_client(Extents(2, (block,)), 2) + local(Tick()) + local(Tick())
        + local(App(2, SyncAsk(file))))
    yield "names, a server that is none, and more operations than there may be", [0], (
        local(App(1, NameAsk(1, Create(1, b"notes")))) + local(App(2, ReadAsk(File(5, 2), 0)))
        + b"".join(local(App(3 + i, ReadAsk(file, i))) for i in range(17)))


def client_stream(seed):
    draw, op = random.Random(1000 + seed), 0
    frames, now, readings = [], 0, []
    file = File(1, 2)
    for _ in range(40):
        ino, g, number = draw.choice([2, 2, 3]), GRANTS + draw.randint(1, 3), draw.randint(0, 5)
        kind = draw.randint(0, 12)
        if kind <= 4:
            op += 1
            f = File(draw.choice([1, 1, 1, 2]), ino)
            frames.append(local(App(op, draw.choice([
                WriteAsk(f, draw.randint(0, 2), bytes([draw.randint(0, 255)]) * 4096), ReadAsk(f, draw.randint(0, 2)), SyncAsk(f), CutAsk(f, 1),
                PatchAsk(f, draw.randint(0, 2), 4, b"abc"), NameAsk(1, RemoveEntry(1, b"f2", 2))]))))
        elif kind <= 5:
            frames.append(local(Tick()))
        elif kind <= 7:
            frames.append(local(Done(draw.randint(1, 4), draw.choice([(), None, (Tag(file, 0, 1), b"\2" * 4096)]))))
        elif kind <= 8:
            frames.append(told_client(Welcome(), stamp=draw.choice([0, now]), server=draw.choice([SERVER, SERVER, SERVER + 1])))
        else:
            body = draw.choice([Granted(ino, g, draw.randint(1, 2)), Granted(ino, g, 2), Queued(ino, 1), Ack(), Nack(draw.randint(1, 10), 1, 2),
                                Extents(ino, tuple((p, Block(1, p), 1 + p) for p in range(draw.randint(0, 3)))), Demand(ino, g, draw.randint(0, 1))])
            frames.append(told_client(body, 0 if isinstance(body, Demand) else max(1, number)))
        readings.append(now)
        now += draw.choice([0, 0, 0, 1, 20, 600])
    return f"drawn frames of a client {seed}", readings, b"".join(frames)


def random_stream(seed):
    draw = random.Random(seed)
    frames = []
    for _ in range(24):
        client, number = draw.randint(1, 3), draw.randint(1, 4)
        body = draw.choice([Hello(), KeepAlive(), Acquire(draw.randint(1, 3), draw.randint(1, 2)), Allocate(2, GRANTS + draw.randint(1, 3), draw.randint(0, 3), 2),
                            Map(2, GRANTS + 1, 0), Tick()])
        if isinstance(body, Tick):
            frames.append(TICK)
        elif isinstance(body, Hello):
            frames.append(sent(body, epoch=0, client=client))
        else:
            frames.append(sent(body, number=number, client=client))
    data = bytearray(b"".join(frames))
    if seed % 2:
        data[draw.randrange(len(data))] ^= 1 << draw.randrange(8)
    return f"drawn frames {seed}", sorted(draw.randint(0, 4000) for _ in range(24)), bytes(data)


def row(kind, name, readings, data):
    out, why = served(kind, data, readings)
    return f"{name} | {kind} | {' '.join(map(str, readings))} | {runs(data) or '-'} | {runs(out) or '-'} | {why}"


def frames_row(name, data):
    """A row for the program: its words, the bytes that come and that are written, its status, and
    the text of its complaint.
    """
    out, why = served("server", data, [0])
    return f"{name} | server 1 | {runs(data) or '-'} | {runs(out) or '-'} | {0 if why == 'ok' else 1} | {'' if why == 'ok' else 'tank: ' + why}"


FRAMES = """\
# Written by tools/rows/node_rows.py: what a server gets, what it writes, its status, and the text of its complaint. Bytes stand in runs, `HH` or `HH*COUNT`.
# Of a row whose name begins with `each front`, each front of the bytes that is neither empty nor whole is given."""


def files():
    """The files of streams, and their texts."""
    servers = [*hostile(), *other(), *(random_stream(s) for s in range(4))]
    rows = [row("server", *r) for r in servers]
    rows += [row("client", *r) for r in [*client(), *(client_stream(s) for s in range(6))]]
    rows += [row("two", name, run.readings, run.frames) for name, run in client_streams.streams()]
    assert not any('"' in text or "\\" in text for text in rows)
    lines = ["//! Written by tools/rows/node_rows.py. A row is its name, the kind of node, the readings of the clock, the bytes that come, the bytes that",
             "//! are written, and why the node stops; bytes are written in runs, `HH` or `HH*COUNT`.", "",
             "/// Streams of frames.", 'pub const ROWS: &str = "' + "\\n\\\n".join(rows) + '";', ""]
    timeless = [frames_row(name, data) for name, _, data in servers if served("server", data, [0]) == served("server", data, [9000])]
    timeless.append(frames_row("each front of a greeting", HELLO).replace(f"| {runs(served('server', HELLO, [0])[0])} | 0 | ", "| - | 1 | tank: frame cut at 0"))
    return {"crates/st_node_tests/src/rows.rt": "\n".join(lines), "schedules/frames/server.rows": "\n".join([FRAMES, *timeless, ""])}
