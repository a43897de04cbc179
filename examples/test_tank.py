"""Tries tank.py: a client and a server that greet each other, the journal, refusals, and that the
names here are those of include/tank.h.
"""
import pathlib
import re

import tank
from tank import ANSWERS, ASKS, ENDS, EVENTS, RESULTS, Ask, Client, Done, Refused, Server, Settings, Shape, Tag, frames_of

SETTINGS = Settings(10000, 5000, 7000, 8500, 1000, 500, 101, 100, 1)
SHAPE = Shape(1, 1, 1, 64)
READ = bytes([0, 0, 0, 1, 2, 0, 1, 0, 0, 0, 2, 0, 0, 0, 0])  # ask 1: read page 0 of file 2 at server 1


def told(node, kind, body=b""):
    """A frame from a node's surroundings."""
    message = bytes([1, kind]) + bytes(2) + node.to_bytes(2, "big") + bytes(32) + body
    return len(message).to_bytes(4, "big") + message


def refused(call, name, at=0):
    try:
        call()
    except Refused as refusal:
        assert (refusal.name, refusal.at) == (name, at), refusal
    else:
        assert False, name


class Journal:
    """A journal in memory that records each write, which is one sync too."""

    def __init__(self, size=4096):
        self.bytes, self.writes = bytearray(size), []

    def keep(self, place, data):
        self.writes.append((place, data))
        self.bytes[place:place + len(data)] = data


def test_names():
    header = (pathlib.Path(__file__).resolve().parent.parent / "include/tank.h").read_text()
    results = re.search(r"#define TANK_RESULTS\(X\).*?\n\n", header, re.S)[0]
    assert RESULTS == {int(number): name for number, name in re.findall(r"X\((\d+), (\w+),", results)}


def numbers_of(header, macro, prefix):
    """The numbers of a list of the header, by the names without their prefix."""
    items = re.search(rf"#define {macro}\(X\).*?\n\n", header, re.S)[0]
    return {name.lower(): int(number) for number, name in re.findall(rf"X\((\d+), {prefix}(\w+),", items)}


def test_numbers():
    header = (pathlib.Path(__file__).resolve().parent.parent / "include/tank.h").read_text()
    assert ASKS == numbers_of(header, "TANK_ASKS", "TANK_ASK_")
    assert ANSWERS == numbers_of(header, "TANK_ANSWERS", "TANK_ANSWER_")
    assert EVENTS == numbers_of(header, "TANK_EVENTS", "TANK_EVENT_")
    assert tank.version() == int(re.search(r"#define TANK_VERSION (\d+)", header)[1])


def asked(kind, data=b"", new_name=b"", **fields):
    return tank.ask(Ask(client=3, op=258, ask=ASKS[kind], server=2, ino=7, **fields), data, new_name)


def test_asks_have_the_bytes_of_the_wire():
    op, file, page = b"\0\0\1\2", b"\0\2\0\0\0\7", bytes(range(256)) * 16
    assert tank.tick(32769) == told(32769, 64)
    assert asked("write", page, page=9) == told(3, 65, op + b"\1" + file + b"\0\0\0\t" + page)
    assert asked("read", page=9) == told(3, 65, op + b"\2" + file + b"\0\0\0\t")
    assert asked("sync") == told(3, 65, op + b"\3" + file)
    assert asked("cut", page=9) == told(3, 65, op + b"\4" + file + b"\0\0\0\t")
    patch = told(3, 65, op + b"\6" + file + b"\0\0\0\t\0\5\0\2hi")
    assert asked("patch", b"hi", page=9, at=5) == patch[:4] + b"\2" + patch[5:]
    names = op + b"\5\0\2"
    for number, kind in enumerate(("lookup", "create", "mkdir"), 1):
        assert asked(kind, b"a") == told(3, 65, names + bytes([number]) + b"\0\0\0\7\1a")
    assert asked("remove", b"a", other=8) == told(3, 65, names + b"\4\0\0\0\7\1a\0\0\0\b")
    assert asked("rename", b"a", b"bc", other=8) == told(3, 65, names + b"\5\0\0\0\7\1a\0\0\0\b\2bc")
    assert asked("list") == told(3, 65, names + b"\6\0\0\0\7\0")


def test_what_has_no_frame():
    refused(lambda: tank.tick(0), "TANK_RANGE")
    refused(lambda: tank.ask(Ask(client=1, ask=5)), "TANK_UNKNOWN")
    refused(lambda: asked("write", b"short"), "TANK_RANGE")
    refused(lambda: asked("patch", bytes(4000), at=97), "TANK_RANGE")
    refused(lambda: asked("create"), "TANK_RANGE")
    refused(lambda: tank.ask(Ask(client=1, op=1 << 32, ask=3, server=1, ino=1)), "TANK_RANGE")
    refused(lambda: tank.done(Done(client=1, result=3)), "TANK_UNKNOWN")
    refused(lambda: tank.answer(told(1, 64)), "TANK_OTHER_KIND")
    refused(lambda: tank.command(told(1, 64)[:-1]), "TANK_CUT")


def answered(body):
    message = bytes([1, 66, 0, 3]) + bytes(34) + b"\0\0\1\2" + body
    return len(message).to_bytes(4, "big") + message


def test_answers_are_shown():
    page = bytes(range(256)) * 16
    shown, data = tank.answer(answered(b"\1" + page))
    assert (shown.client, shown.op, shown.answer, shown.page, data) == (3, 258, ANSWERS["read"], 4096, page)
    for kind, number in ANSWERS.items():
        if kind in ("written", "hard", "cut", "quiesced", "no_file", "ops_full", "dirty_full", "not_holder", "too_many_locks"):
            shown, data = tank.answer(answered(bytes([number])))
            assert (shown.answer, shown.first, shown.second, shown.rows, data) == (number, 0, 0, 0, b"")
    pair = (5).to_bytes(8, "big") + (6).to_bytes(8, "big")
    for body, first, second in ((b"\4\0\0\0\7", 7, 0), (b"\6\x08", 8, 0), (b"\x13" + pair, 5, 6), (b"\x14" + pair[:8], 5, 0), (b"\x16" + pair, 5, 6)):
        shown, _ = tank.answer(answered(body))
        assert (shown.answer, shown.first, shown.second) == (body[0], first, second)
    listed = answered(b"\5\0\2\0\0\0\7\1\1a\0\0\0\b\2\2bc")
    assert tank.answer(listed)[0].rows == 2
    assert [(it.ino, it.directory, bytes(it.name[:it.length])) for it in tank.entries(listed)] == [(7, 0, b"a"), (8, 1, b"bc")]
    lost = answered(b"\x17\0\1\0\0\0\t" + pair[:8])
    assert [(it.page, it.command) for it in tank.lost_pages(lost)] == [(9, 5)]
    refused(lambda: tank.entries(lost), "TANK_OTHER_KIND")


def test_disk_commands_are_shown_and_ended():
    page, tag = bytes(range(256)) * 16, b"\0\2\0\0\0\7\0\0\0\t" + (11).to_bytes(8, "big")
    body = (5).to_bytes(8, "big") + b"\0\1\0\0\0\4\1" + tag + page
    message = bytes([1, 67, 0, 3]) + bytes(34) + body
    shown, data = tank.command(len(message).to_bytes(4, "big") + message)
    assert (shown.number, shown.client, shown.disk, shown.block, shown.command, data) == (5, 3, 1, 4, 1, page)
    assert (shown.tag.server, shown.tag.ino, shown.tag.page, shown.tag.birth) == (2, 7, 9, 11)
    assert tank.done(Done(client=3, number=5, result=ENDS["failed"])) == told(3, 68, body[:8] + b"\0")
    assert tank.done(Done(client=3, number=5, result=ENDS["written"])) == told(3, 68, body[:8] + b"\1")
    assert tank.done(Done(client=3, number=5, result=ENDS["read"], tag=shown.tag), page) == told(3, 68, body[:8] + b"\2" + tag + page)
    assert tank.done(Done(client=3, number=5, result=ENDS["read"], tag=Tag()), page) == told(3, 68, body[:8] + b"\2" + bytes(18) + page)


def test_a_lease_is_begun():
    journal = Journal()
    kept = []
    with Server(SETTINGS, SHAPE, 0, journal.bytes, journal.keep) as server, Client(SETTINGS, 1, [0], kept.append) as client:
        assert server.epoch == 1 and kept == [[1]] and journal.writes == [(1, bytes([0, 0, 0, 1, 1, 0])), (0, b"\1")]
        (hello,) = client.step(5, told(1, 65, READ))
        assert hello[5] == 1 and client.at(1, 5).phase == 0
        (welcome,) = server.step(7, hello)
        assert welcome[5] == 32
        client.step(9, welcome)
        found = client.at(1, 9)
        assert (found.life, found.lease_end, found.phase, found.dirty) == (1, 10005, 1, 0)
        assert client.step(10, told(2, 64)) == []  # for another node


def counted(counts):
    """The numbers of a structure that aren't 0."""
    return {name: getattr(counts, name) for name, _ in counts._fields_ if getattr(counts, name)}


def test_nodes_are_counted():
    journal = Journal()
    with Server(SETTINGS, SHAPE, 0, journal.bytes, journal.keep) as server, Client(SETTINGS, 1, [0]) as client:
        assert counted(server.counts()) == {"names": 8, "free": 64, "journal": 6, "journal_size": 4096}
        assert counted(client.counts(1)) == {} and not client.owes(1, 2)
        (hello,) = client.step(5, told(1, 65, READ))
        assert counted(client.counts(1)) == {"pending": 1} and counted(client.counts(2)) == {}
        assert not client.owes(1, 2)  # it has no session
        (welcome,) = server.step(7, hello)
        (acquire,) = client.step(9, welcome)
        assert acquire[5] == 3 and client.owes(1, 2)  # the ask waits for the lock
        (granted,) = server.step(10, acquire)
        assert counted(server.counts()) == {"sessions": 1, "locks": 1, "names": 8, "free": 64, "journal": 6, "journal_size": 4096}
        (ask_for_map,) = client.step(11, granted)
        assert counted(client.counts(1)) == {"locks": 1, "pending": 1}
        assert ask_for_map[5] == 5 and client.owes(1, 2)  # the ask waits for what it needs with the lock
        (extents,) = server.step(12, ask_for_map)
        (answer,) = client.step(13, extents)
        assert tank.answer(answer)[0].answer == ANSWERS["read"] and not client.owes(1, 2)
    refused(lambda: client.counts(1), "TANK_ABSENT")
    refused(lambda: client.owes(1, 2), "TANK_ABSENT")
    refused(server.counts, "TANK_ABSENT")


def events(node):
    """The events of a node's last step, each with its name and its fields that aren't 0."""
    names = {number: name for name, number in EVENTS.items()}
    return [(names[it.event], {name: value for name, value in counted(it).items() if name != "event"}) for it in node.events()]


def test_events_are_told():
    journal = Journal()
    with Server(SETTINGS, SHAPE, 0, journal.bytes, journal.keep) as server, Client(SETTINGS, 1, [0]) as client:
        assert events(server) == [] and events(client) == []
        (hello,) = client.step(10, told(1, 65, READ[:4] + b"\1" + READ[5:] + bytes(4096)))
        assert events(client) == []
        (welcome,) = server.step(10, hello)
        assert events(server) == [("welcomed", {"client": 1, "life": 1})]
        (acquire,) = client.step(10, welcome)
        assert events(client) == [("leased", {"server": 1, "moment": 10010})]
        (granted,) = server.step(10, acquire)
        assert events(server) == [("granted", {"client": 1, "ino": 2, "grant": (1 << 32) + 1, "mode": 2})]
        (allocate,) = client.step(10, granted)
        (extents,) = server.step(10, allocate)
        client.step(10, extents)
        assert ("written", {"server": 1, "ino": 2}) in events(client)
        client.step(20000, tank.tick(1))
        assert events(client) == [("lost", {"server": 1, "life": 1})]
        client.step(20000, tank.tick(2))  # for another node
        assert events(client) == []
    refused(client.events, "TANK_ABSENT")
    refused(server.events, "TANK_ABSENT")


def test_a_server_is_due():
    journal = Journal()
    with Server(SETTINGS, SHAPE, 0, journal.bytes, journal.keep) as server, Client(SETTINGS, 1, [0]) as one, Client(SETTINGS, 2, [0]) as two:
        assert server.due() is None
        for client, number in ((one, 1), (two, 2)):
            (hello,) = client.step(10, told(number, 65, READ[:4] + b"\1" + READ[5:] + bytes(4096)))  # each wants to write
            (welcome,) = server.step(10, hello)
            (acquire,) = client.step(10, welcome)
            frames = server.step(10, acquire)
        assert [frame[5] for frame in frames] == [36, 37]  # the second one waits, and the first one's lock is demanded
        assert server.due() == 10 + 500  # the demand is sent again
        assert server.step(509, tank.tick(32769)) == [] and server.due() == 510
        (demand,) = server.step(510, tank.tick(32769))
        assert demand[5] == 37 and server.due() == 1010
        server.step(1010, tank.tick(32769))  # the first one is suspected
        assert events(server) == [("suspected", {"client": 1, "moment": 1010})]
        assert server.counts().suspects == 1 and server.due() == 1010 + 10101
        server.step(11111, tank.tick(32769))  # its lock is stolen, and granted to the second one
        assert events(server) == [("stolen", {"client": 1, "life": 1}), ("granted", {"client": 2, "ino": 2, "grant": (1 << 32) + 2, "mode": 2})]
        assert server.counts().suspects == 0 and server.due() is None
    refused(server.due, "TANK_ABSENT")


def test_a_client_is_due():
    journal = Journal()
    with Server(SETTINGS, SHAPE, 0, journal.bytes, journal.keep) as server, Client(SETTINGS, 1, [0]) as client:
        assert client.due(0) is None
        (hello,) = client.step(10, told(1, 65, READ[:4] + b"\1" + READ[5:] + bytes(4096)))  # it wants to write
        assert client.due(10) == 10 + 500 and client.due(600) == 600  # the greeting is sent again
        frame = hello
        for _ in range(3):  # a session, a lock and a block
            (reply,) = server.step(10, frame)
            (frame,) = client.step(10, reply)
        assert client.due(10) == 10 + 5000  # the lease is renewed
        assert client.step(5009, tank.tick(1)) == [] and client.due(5009) == 5010
        (keep_alive,) = client.step(5010, tank.tick(1))
        assert keep_alive[5] == 2 and client.due(5010) == 5510  # it is sent again
        (reply,) = server.step(5020, keep_alive)
        assert client.step(5020, reply) == [] and client.due(5020) == 5010 + 5000
        client.step(20000, tank.tick(1))  # the lease is lost
        assert client.due(20000) is None
    refused(lambda: client.due(0), "TANK_ABSENT")


def test_a_server_goes_on():
    journal = Journal()
    Server(SETTINGS, SHAPE, 0, journal.bytes, journal.keep).close()
    server = Server(SETTINGS, SHAPE, 100, bytes(journal.bytes), journal.keep)
    assert server.epoch == 2
    with Client(SETTINGS, 1, [0]) as client:
        (hello,) = client.step(0, told(1, 65, READ))
        (answer,) = server.step(101, hello)
        assert (answer[5], answer[42]) == (32, 1) or answer[5] in (32, 34)
    server.close()
    # a record whose gate was never opened does not count
    torn = bytearray(journal.bytes)
    torn[7:13] = bytes([0, 0, 0, 1, 1, 0])
    torn[6 + 6] = 0
    again = Server(SETTINGS, SHAPE, 200, bytes(torn), lambda place, data: None)
    assert again.epoch == 3
    again.close()
    journal.bytes[1:5] = b"\xff\xff\xff\xff"
    refused(lambda: Server(SETTINGS, SHAPE, 0, journal.bytes, journal.keep), "TANK_JOURNAL_DAMAGED")


def test_lives_go_on():
    with Client(SETTINGS, 3, [7, 9]) as client:
        assert client.lives() == [8, 10]
    refused(lambda: Client(SETTINGS, 3, [7, 0]), "TANK_LIVES")
    refused(lambda: Client(SETTINGS, 3, [1] * 5), "TANK_SERVERS")
    refused(lambda: Client(SETTINGS, 17, [0]), "TANK_NUMBER")
    refused(lambda: Client(Settings(1, 2, 3, 4, 1, 1, 1, 1, 0), 1, [0]), "TANK_SETTINGS_ORDER")


def test_refusals():
    client = Client(SETTINGS, 1, [0])
    tick = told(1, 64)
    refused(lambda: client.step(1, tick[:-1]), "TANK_CUT")
    refused(lambda: client.step(1, tick + b"x"), "TANK_EXTRA")
    refused(lambda: client.step(1, b"\0\1\0\1" + bytes(9)), "TANK_TOO_LONG", 65537)
    refused(lambda: client.step(1, tick[:4] + b"\3" + tick[5:]), "TANK_NO_VERSION")
    refused(lambda: client.step(1, tick[:8] + b"\0\0" + tick[10:]), "TANK_VALUE", 4)
    refused(lambda: client.step(1 << 63, tick), "TANK_TIME")
    client.step(5, tick)
    refused(lambda: client.step(4, tick), "TANK_TIME")
    ask = told(1, 65, READ)
    assert client._step_call(client._ref, 600, ask, len(ask), client._step_ref) == 0
    refused(lambda: client.step(601, tick), "TANK_UNTAKEN")
    assert len(frames_of(client.take())) == 1
    client.close()
    refused(lambda: client.step(700, tick), "TANK_ABSENT")
    client.close()


for name, test in list(globals().items()):
    if name.startswith("test_"):
        test()
        print(f"{name}: ok")
