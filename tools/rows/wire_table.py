"""The tables of the wire tests: wire_table.rt and third_table.rt of crates/st_codec_tests/src,
written by tools/rows/write.

Each line is the bytes of a message in runs, `HH` or `HH*COUNT`, as reference/ spells it; the second
table has bytes that spell no message, and after ` = ` the refusal's name with its number. A word
such as `up` stands for a header that many messages have. Full lists are left out, since the tests
build them.
"""
import itertools
import random
import struct

from row_records import (
    ANSWER_WORDS, Ack, Acquire, Allocate, Answer, App, AppDone, Block, Create, Cut, CutAsk, Demand, DemandSeen, Done, Extents, File, Granted, Hello,
    KeepAlive, ListDir, Lookup, MAX_PAGE, Map, Message, Mkdir, Nack, Name, NameAsk, NameRow, Named, PAGE_BYTES, PatchAsk, Queued, ReadAsk, ReadBlock,
    Reassert, Reasserted, Released, Remove, RemoveEntry, Rename, Submit, SyncAsk, Tag, Tick, U16, U32, U64, Welcome, WriteAsk, WriteBlock, encode, plain, wire,
)

PAGE = bytes([0x5A]) * PAGE_BYTES
NAME = b"a name"


HEADERS = {
    "up": (3, 32_770, 2, 5, 7, 9), "down": (32_770, 3, 2, 5, 7, 9), "plain": (32_770, 3, 2, 5, 0, 9),
    "quiet": (32_770, 3, 2, 5, 0, 0), "in": (0, 3, 0, 0, 0, 0), "out": (3, 0, 0, 0, 0, 0),
}
HEADERS = {struct.pack(">HHQQQQ", *fields): word for word, fields in HEADERS.items()}


def runs(data):
    if data[2:38] in HEADERS:
        return f"{runs(data[:2])} {HEADERS[data[2:38]]} {runs(data[38:])}".strip()
    out = []
    for byte, group in itertools.groupby(data):
        count = len(list(group))
        out.append(f"{byte:02x}" if count == 1 else f"{byte:02x}*{count}")
    return " ".join(out)


def verdict(data, form=1):
    try:
        message = wire.decode(data, form)
    except wire.Refusal as refusal:
        return " ".join(map(str, [refusal.name, *refusal.values]))
    assert wire.encode(message, form) == data
    return "ok"


def control(body, number=7, epoch=5, stamp=9, to_client=False):
    ends = (32_770, 3) if to_client else (3, 32_770)
    return Message(*ends, 2, epoch, number, stamp, body)


def local(body, sender, receiver):
    return Message(sender, receiver, 0, 0, 0, 0, body)


def names(count, length=6):
    return tuple(NameRow(i + 1, 1 + i % 2, b"n" * length) for i in range(count))


def messages_between_nodes():
    at = Block(3, 4_095)
    yield control(Hello(), 0, 0)
    yield control(KeepAlive())
    for mode in (1, 2):
        yield control(Acquire(1, mode))
    for to in (0, 1):
        yield control(Released(U32, U64, to))
    yield control(Map(6, 8, MAX_PAGE))
    yield control(Allocate(6, 8, 1_048_512, 64))
    yield control(Cut(6, 8, 0))
    for op in (Lookup(1, NAME), Create(1, b"x"), Mkdir(1, b"y" * 255), Remove(9, NAME, 8),
               Rename(1, NAME, 2, b"other"), ListDir(1, b""), ListDir(1, NAME)):
        yield control(Name(op))
    yield control(Reassert(()))
    yield control(Reassert(((1, 5, 2), (3, 6, 1))))
    yield control(DemandSeen(4, 8), 0, stamp=0)
    yield control(Welcome(), 0, to_client=True)
    yield control(Ack(), to_client=True)
    for why in range(1, 11):
        yield control(Nack(why, why, U64), 0, stamp=0, to_client=True)
    yield control(Granted(4, 8, 2), 0, to_client=True)
    yield control(Queued(4, 1), to_client=True)
    yield control(Demand(4, 8, 1), 0, stamp=0, to_client=True)
    yield control(Extents(4, ()), to_client=True)
    yield control(Extents(4, ((0, at, 1), (MAX_PAGE, Block(8, 0), U64))), to_client=True)
    yield control(Named(0, 12), to_client=True)
    for rows in (0, 2):
        yield control(Named(1, names(rows)), to_client=True)
    for code in (1, 8):
        yield control(Named(2, code), to_client=True)
    yield control(Reasserted(), to_client=True)


def messages_of_one_machine():
    f = File(2, 77)
    at = Block(3, 4_095)
    tag = Tag(f, MAX_PAGE, U64)
    zero = Tag(File(0, 0), 0, 0)
    yield local(Tick(), 0, 16)
    yield local(Tick(), 0, 32_772)
    for ask in (WriteAsk(f, 5, PAGE), ReadAsk(f, 5), SyncAsk(f), CutAsk(f, 5),
                PatchAsk(f, 5, 4_094, b"\x02\x02"), PatchAsk(f, 5, 0, PAGE),
                *(NameAsk(2, op) for op in (
                    Lookup(1, NAME), Create(1, NAME), Mkdir(1, NAME), RemoveEntry(1, NAME, 0),
                    Rename(1, NAME, 2, NAME), ListDir(1, b"")))):
        yield local(App(11, ask), 0, 3)
    plain = {"read": (PAGE,), "named": (12,), "listed": (names(2),), "refused": (255,), "nospace": (1, U64),
             "uncertain": (1, 0), "diskfault": (9,), "lost": (((0, 1), (5, 0)),)}
    for word in ANSWER_WORDS:
        yield local(AppDone(11, Answer(word, plain.get(word, ()))), 3, 0)
    yield local(AppDone(0, Answer("listed", ((),))), 3, 0)
    yield local(Submit(9, ReadBlock(at)), 3, 0)
    yield local(Submit(9, WriteBlock(at, tag, PAGE)), 3, 0)
    for result in (None, (), (tag, PAGE), (zero, PAGE)):
        yield local(Done(9, result), 0, 3)


def messages():
    yield from messages_between_nodes()
    yield from messages_of_one_machine()


def in_version_3(message):
    """Its bytes in version 3: all but the version are those of version 1 or 2."""
    data = wire.encode(plain(message), 3)
    assert data == b"\x03" + encode(message)[1:]
    return data


def messages_of_version_3():
    """The bytes of messages that only version 3 has."""
    yield in_version_3(Message(64, 32_776, 2, 5, 7, 9, KeepAlive()))
    yield in_version_3(Message(32_776, 64, 2, 5, 7, 9, Ack()))
    for node in (64, 32_776):
        yield in_version_3(local(Tick(), 0, node))
    yield in_version_3(local(Submit(9, ReadBlock(Block(U16, U32))), 64, 0))
    yield in_version_3(control(Extents(4, ((0, Block(16, 2**28 - 1), 1), (MAX_PAGE, Block(9, 4_096), U64))), to_client=True))
    for server in (1, 65_535):
        yield wire.encode(wire.Message(wire.APP, 0, 3, 0, 0, 0, 0, (11, ("leave", server))), 3)
    yield wire.encode(wire.Message(wire.APPDONE, 3, 0, 0, 0, 0, 0, (11, ("left",))), 3)
    for ino in (1, U32):
        yield wire.encode(wire.Message(wire.APPDONE, 3, 0, 0, 0, 0, 0, (11, ("unsynced", ino))), 3)


def full_lists():
    """The full lists that the tests build, in the tests' order."""
    yield control(Reassert(tuple((i + 1, 8, 2) for i in range(1_024))))
    yield control(Extents(4, tuple((i, Block(3, 9), 8) for i in range(64))), to_client=True)
    yield control(Named(1, tuple(NameRow(i + 1, 1, b"n" * 64) for i in range(256))), to_client=True)
    yield local(AppDone(0, Answer("lost", (tuple((i, 8) for i in range(1_024)),))), 3, 0)


def changed(rng, data):
    data = bytearray(data)
    for _ in range(rng.choice((0, 1, 1, 1, 2, 3))):
        what = rng.randrange(6)
        place = rng.randrange(min(len(data), 90)) if data else 0
        if what <= 2 and data:
            data[place] = rng.choice((0, 1, 2, 3, 6, 7, 9, 16, 17, 64, 65, 66, 128, 255, rng.randrange(256)))
        elif what == 3:
            del data[rng.randrange(len(data) + 1):]
        elif what == 4:
            data += bytes(rng.randrange(1, 4))
        elif len(data) > 60:
            place = rng.randrange(38, len(data))
            data[place] = rng.randrange(256)
    return bytes(data)


def faults():
    """A few changed messages, one for each refusal that is chosen."""
    hand = ("02", "03", "01 ff", "01*2 00 03 80 02 00*7 02 00*23 09 00", "01 03 up 00*3 01 03")
    yield from zip(hand, ("Short", "Version", "Kind", "Long", "Value 42"))
    yield from found_faults([encode(m) for m in messages()], 1)


def faults_of_version_3():
    """The same of version 3. By hand: the other versions; nodes, a disk and a block after the last
    ones; a reassertion of 4,097 rows; asks and answers of no number, and with one out of range.
    """
    yield from (("03", "Short"), ("01*2 up", "Version"), ("02 41 in 00*3 0b 06", "Version"), ("03 ff", "Kind"), ("03 02 up 00", "Long"))
    for text in ("03 02 00 41 80 02 00*7 02 00*7 05 00*7 07 00*7 09", "03 02 00 03 80 09 00*7 02 00*7 05 00*7 07 00*7 09", "03 09 up 10 01",
                 "03 26 down 00*3 04 00 01 00*4 00 11 00*12", "03 26 down 00*3 04 00 01 00*4 00 10 10 00*11", "03 41 in 00*3 0b 08", "03 41 in 00*3 0b 07 00*2",
                 "03 42 out 00*3 0b 08", "03 42 out 00*3 0b 1b 00*4", "03 42 out 00*3 0b 1c"):
        yield text, verdict(read_runs(text), 3)
    pool = [in_version_3(m) for m in messages()] + list(messages_of_version_3())
    yield from found_faults(pool, 3)


def read_runs(text):
    """The bytes of a line."""
    words = {word: data for data, word in HEADERS.items()}
    out = b""
    for word in text.split():
        byte, _, count = word.partition("*")
        out += words[word] if word in words else bytes((int(byte, 16),)) * int(count or 1)
    return out


def found_faults(pool, form):
    """Changed messages, one for each refusal that is chosen."""
    rng = random.Random(11)
    small = [data for data in pool if len(data) < 120]
    found = {}
    for _ in range(4_000):
        data = changed(rng, rng.choice(small if rng.random() < 0.9 else pool))
        if data and len(runs(data)) <= 90 and verdict(data, form) != "ok":
            found.setdefault(verdict(data, form), runs(data))
    places = (2, 4, 6, 14, 22, 30, 38, 42, 43, 46, 49, 50)
    for want in sorted(found, key=lambda v: (v.split()[0], int((v + " 0").split()[1]))):
        if not want.startswith("Value") or int(want.split()[1]) in places:
            yield found[want], want


def table(constants):
    """The text of a table."""
    joint = "\\n\\\n"
    items = "".join(f'\n/// {says}\npub const {name}: &str = "{joint.join(lines)}";\n' for name, says, lines in constants)
    return f"""//! Written by tools/rows/wire_table.py: bytes in runs, `HH` or `HH*COUNT`, a word for a header that
//! many have, and the answers of an independent reading.
{items}"""


def files():
    """The files of the tables, and their texts."""
    refused = [f"{text} = {want}" for text, want in faults()]
    refused_3 = [f"{text} = {want}" for text, want in faults_of_version_3()]
    return {
        "crates/st_codec_tests/src/wire_table.rt": table((
            ("MESSAGES", "A message of every kind, name op, ask and answer.", [runs(encode(message)) for message in messages()]),
            ("FAULTS", "Bytes that spell no message, and the refusal.", refused))),
        "crates/st_codec_tests/src/third_table.rt": table((
            ("MESSAGES", "Messages that only version 3 has.", [runs(data) for data in messages_of_version_3()]),
            ("FAULTS", "Bytes that spell no message of version 3, and the refusal.", refused_3))),
    }
