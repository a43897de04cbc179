"""Messages, asks, answers and outputs as records with names, and nodes of reference/ that take and
give them. The scripts that write rows use it.

reference/ has a message as a tuple of numbers; a script reads better as
`Granted(2, 4294967297, X)`. `plain` and `record` go from one to the other.
"""
import pathlib
import sys
from dataclasses import dataclass, make_dataclass

sys.dont_write_bytecode = True
sys.path.insert(0, str(pathlib.Path(__file__).resolve().parents[2]))
from reference import wire  # noqa: E402
from reference.client import Client  # noqa: E402
from reference.client_parts import UNMAPPED, Dirty, Lock, Session  # noqa: E402

NONE, S, X = 0, 1, 2
SERVER_BASE = wire.SERVER_BASE
PAGE_BYTES, MAX_PAGE = wire.WHOLE_PAGE, wire.LAST_PAGE
U16, U32, U64 = 2**16 - 1, 2**32 - 1, 2**64 - 1
ZEROS = bytes(PAGE_BYTES)


def kind(name, fields=""):
    """A class of records with these fields."""
    return make_dataclass(name, fields.split(), frozen=True)


File, Block, Tag = kind("File", "server ino"), kind("Block", "disk block"), kind("Tag", "file page birth")
FRESH_TAG = Tag(File(0, 0), 0, 0)
NameRow = kind("NameRow", "ino kind name")

# name ops; a remove of the wire has a grant number, and that of an ask the inode that is meant
Lookup, Create, Mkdir = kind("Lookup", "directory name"), kind("Create", "directory name"), kind("Mkdir", "directory name")
Remove, RemoveEntry = kind("Remove", "directory name grant"), kind("RemoveEntry", "directory name ino")
Rename, ListDir = kind("Rename", "directory name directory2 name2"), kind("ListDir", "directory after")
OPS = {wire.LOOKUP: Lookup, wire.CREATE: Create, wire.MKDIR: Mkdir, wire.REMOVE: Remove, wire.RENAME: Rename, wire.LIST: ListDir}
OP_NUMBERS = {**{op: number for number, op in OPS.items()}, RemoveEntry: wire.REMOVE}

# asks and answers
WriteAsk, ReadAsk, SyncAsk, CutAsk = (
    kind("WriteAsk", "file page data"), kind("ReadAsk", "file page"), kind("SyncAsk", "file"), kind("CutAsk", "file page"))
NameAsk, PatchAsk = kind("NameAsk", "server op"), kind("PatchAsk", "file page at data")
ASKS = {"write": WriteAsk, "read": ReadAsk, "sync": SyncAsk, "cut": CutAsk, "patch": PatchAsk}
ASK_WORDS = {ask: word for word, ask in ASKS.items()}
Answer = kind("Answer", "word values")
ANSWER_WORDS = tuple(wire.ANSWER_TAGS.values())

# bodies of messages
Hello, KeepAlive, Acquire = kind("Hello"), kind("KeepAlive"), kind("Acquire", "ino mode")
Released, Map, Allocate = kind("Released", "ino grant to"), kind("Map", "ino grant page"), kind("Allocate", "ino grant page count")
Cut, Name, Reassert, DemandSeen = kind("Cut", "ino grant page"), kind("Name", "op"), kind("Reassert", "rows"), kind("DemandSeen", "ino grant")
Welcome, Ack, Nack = kind("Welcome"), kind("Ack"), kind("Nack", "why a b")
Granted, Queued, Demand = kind("Granted", "ino grant mode"), kind("Queued", "ino mode"), kind("Demand", "ino grant to")
Extents, Named, Reasserted = kind("Extents", "ino rows"), kind("Named", "form value"), kind("Reasserted")
Tick, App, AppDone = kind("Tick"), kind("App", "op ask"), kind("AppDone", "op answer")
Submit, Done = kind("Submit", "command what"), kind("Done", "command result")
ReadBlock, WriteBlock = kind("ReadBlock", "at"), kind("WriteBlock", "at tag data")
BODIES = dict(zip(
    wire.KIND_NAMES,
    (Hello, KeepAlive, Acquire, Released, Map, Allocate, Cut, Name, Reassert, DemandSeen, Welcome, Ack, Nack, Granted, Queued, Demand, Extents, Named,
     Reasserted, Tick, App, AppDone, Submit, Done)))
KINDS = {body: number for number, body in BODIES.items()}


@dataclass(frozen=True)
class Message:
    """A message: its header, and its body as a record."""

    sender: int
    receiver: int
    life: int
    epoch: int
    number: int
    stamp: int
    body: object


# what a client gives
Send, SubmitCommand, AnswerApp = kind("Send", "message"), kind("SubmitCommand", "command what"), kind("AnswerApp", "op answer")
LeasedNote, LostNote = kind("LeasedNote", "server end"), kind("LostNote", "server life")
Accepted, Patched = kind("Accepted", "file page data"), kind("Patched", "file page at data")


def fields(of):
    """The fields of a record, in order."""
    return tuple(getattr(of, name) for name in of.__dataclass_fields__)


def uniform_page(byte):
    """A page of one byte."""
    return bytes((byte,)) * PAGE_BYTES


# From the reference's tuples to records.

def op_record(op, of_ask=False):
    """A name op."""
    number, *rest = op
    return RemoveEntry(*rest) if of_ask and number == wire.REMOVE else OPS[number](*rest)


def ask_record(ask):
    """An ask."""
    word, first, *rest = ask
    return NameAsk(first, op_record(rest[0], True)) if word == "name" else ASKS[word](File(*first), *rest)


def entry_records(entries):
    """The entries of a listing."""
    return tuple(NameRow(*entry) for entry in entries)


def answer_record(answer):
    """An answer."""
    word, *values = answer
    return Answer(word, (entry_records(values[0]),) if word == "listed" else tuple(values))


def tagged_record(tagged):
    """What a block has: its tag and its bytes."""
    server, ino, page, birth, data = tagged
    return Tag(File(server, ino), page, birth), data


def submit_record(disk, block, write):
    """What a command does: it reads or writes a block."""
    return ReadBlock(Block(disk, block)) if write is None else WriteBlock(Block(disk, block), *tagged_record(write))


def body_record(number, body):
    """The body of a message of this kind."""
    if number == wire.NAME:
        return Name(op_record(body))
    if number == wire.EXTENTS:
        return Extents(body[0], tuple((page, Block(disk, block), birth) for page, disk, block, birth in body[1]))
    if number == wire.NAMED:
        return Named(body[0], entry_records(body[1]) if body[0] == 1 else body[1])
    if number == wire.APP:
        return App(body[0], ask_record(body[1]))
    if number == wire.APPDONE:
        return AppDone(body[0], answer_record(body[1]))
    if number == wire.SUBMIT:
        return Submit(body[0], submit_record(*body[1:]))
    if number == wire.DONE:
        return Done(body[0], {"failed": None, "written": ()}.get(body[1]) if body[2] is None else tagged_record(body[2]))
    return BODIES[number](*body)


def record(message):
    """A message of the reference as a record."""
    return Message(*message[1:7], body_record(message.kind, message.body))


# From records to the reference's tuples.

def plain_op(op):
    """A name op."""
    return (OP_NUMBERS[type(op)], *fields(op))


def plain_ask(ask):
    """An ask."""
    if isinstance(ask, NameAsk):
        return "name", ask.server, plain_op(ask.op)
    return (ASK_WORDS[type(ask)], fields(ask.file), *fields(ask)[1:])


def plain_entries(rows):
    """The entries of a listing."""
    return tuple(fields(row) for row in rows)


def plain_answer(answer):
    """An answer."""
    return (answer.word, *((plain_entries(answer.values[0]),) if answer.word == "listed" else answer.values))


def plain_tagged(tag, data):
    """A tag and the bytes of a block."""
    return (*fields(tag.file), tag.page, tag.birth, data)


def plain_end(result):
    """How a command ended: `None` is a failure, `()` a write that was done, else it is what a read
    found.
    """
    if result is None:
        return "failed", None
    return ("read", plain_tagged(*result)) if result else ("written", None)


def plain_body(body):
    """A body, by its kind."""
    match body:
        case Name(op):
            return plain_op(op)
        case Extents(ino, rows):
            return ino, tuple((page, *fields(block), birth) for page, block, birth in rows)
        case Named(1, rows):
            return 1, plain_entries(rows)
        case App(op, ask):
            return op, plain_ask(ask)
        case AppDone(op, answer):
            return op, plain_answer(answer)
        case Submit(command, ReadBlock(at)):
            return (command, *fields(at), None)
        case Submit(command, WriteBlock(at, tag, data)):
            return (command, *fields(at), plain_tagged(tag, data))
        case Done(command, result):
            return (command, *plain_end(result))
    return fields(body)


def plain(message):
    """A record of a message as the reference has it."""
    return wire.Message(KINDS[type(message.body)], *fields(message)[:6], plain_body(message.body))


def encode(message):
    """The bytes of a message."""
    return wire.encode(plain(message))


def frame(message):
    """The frame of a message."""
    return wire.frame(plain(message))


# A client.

def output_record(out):
    """What a client gives, as a record."""
    match out:
        case "send", message:
            return Send(record(message))
        case "submit", command, disk, block, write:
            return SubmitCommand(command, submit_record(disk, block, write))
        case "answer", op, answer:
            return AnswerApp(op, answer_record(answer))
        case "dated", server, end:
            return LeasedNote(server, end)
        case "lost", server, life:
            return LostNote(server, life)
        case "write", file, page, data:
            return Accepted(File(*file), page, data)
        case "patch", file, page, at, data:
            return Patched(File(*file), page, at, data)


class PlayedClient:
    """A client of the reference that is given records."""

    def __init__(self, number, settings, servers):
        self.node = Client(number, settings, servers)

    def session(self, server):
        """Its session with a server, or None."""
        return self.node.associations[server - 1].session

    def store(self, server):
        """Its pages of a server's files."""
        return self.node.associations[server - 1].store

    def step(self, now, thing):
        """A step: a tick, an ask, the end of a command, or a server's message. What it gives."""
        match thing:
            case Tick():
                taken = ("tick",)
            case App(op, ask):
                taken = ("ask", op, plain_ask(ask))
            case Done(command, result):
                taken = ("end", command, *plain_end(result))
            case _:
                taken = ("message", plain(thing))
        return [output_record(out) for out in self.node.step(now, taken)]

    def restart(self):
        """It stops and starts again."""
        self.node.crash()
        self.node.start()
