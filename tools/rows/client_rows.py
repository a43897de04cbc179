"""The worked rows of the client machine: crates/st_rows/src/client_*.rt, written by
tools/rows/write.

Each row is a script for one client. The client of reference/ plays it, and the script and what the
client said are written as the contract of a function. No number of a row's answer is typed by hand.
"""
import re

from row_records import (
    Accepted, Client, Acquire, Allocate, AnswerApp, App, Block, Create, Cut, CutAsk, Demand, DemandSeen, Done, Extents, File, Granted, LeasedNote, ListDir,
    Lookup, LostNote, Map, Message, Mkdir, Nack, Name, NameAsk, Named, PatchAsk, Patched, PlayedClient, Queued, ReadAsk, ReadBlock, Reassert,
    Released, Remove, RemoveEntry, Rename, Send, Session, SubmitCommand, SyncAsk, Tick, Welcome, WriteAsk, WriteBlock, X, uniform_page,
)
from reference.settings import Settings

CONFIG = Settings(1000, 500, 700, 850, 100, 50, 101, 100, 0)
G1 = 2 ** 32 + 1
PAGES = {uniform_page(b): f"(filled {b})" for b in range(256)}
WHY = ["", "Suspect", "NoSession", "OtherEpoch", "Grace", "GraceOver", "Conflict", "NotHolder", "NoFile", "NoSpace", "TooManyLocks"]
MODES = ["modes.None", "modes.S", "modes.X"]


def bytes_text(data):
    """A page is named by how it was made, and other bytes are listed."""
    return PAGES[data] if data in PAGES else "(" + " ∷ ".join([str(b) for b in data] + ["[]"]) + ")"


def overlaid(old, at, data):
    """A page with a range replaced, whose name tells how."""
    new = old[:at] + data + old[at + len(data):]
    PAGES[new] = f"(overlay {at} {bytes_text(data)} {bytes_text(old)})"
    return new


def name_patches():
    """Lets the reference's clients name each page that they patch."""
    plain = Client.note

    def note(client, word, *told):
        if word == "patch":
            (server, ino), page, at, data = told
            store = client.associations[server - 1].store
            overlaid(store.dirty[ino, page].bytes if (ino, page) in store.dirty else store.clean[ino, page], at, data)
        plain(client, word, *told)

    Client.note = note


name_patches()


def name_text(name):
    return f'(codes "{name.decode()}")'


def list_text(items):
    return "(" + " ∷ ".join([*items, "[]"]) + ")" if items else "[]"


def file_text(f):
    return f"(on {f.server} {f.ino})"


def name_op(op, prefix):
    match op:
        case Lookup(d, n):
            return f"({prefix}.Lookup {d} {name_text(n)})"
        case Create(d, n):
            return f"({prefix}.Create {d} {name_text(n)})"
        case Mkdir(d, n):
            return f"({prefix}.Mkdir {d} {name_text(n)})"
        case Remove(d, n, number):
            return f"({prefix}.Remove {d} {name_text(n)} (g {number}))"
        case RemoveEntry(d, n, ino):
            return f"({prefix}.Remove {d} {name_text(n)} {ino})"
        case Rename(d, n, d2, n2):
            return f"({prefix}.Rename {d} {name_text(n)} {d2} {name_text(n2)})"
        case ListDir(d, after):
            return f"({prefix}.List {d} {name_text(after)})"


def ask_text(ask):
    match ask:
        case WriteAsk(f, p, data):
            return f"(asks.Write {file_text(f)} (page {p}) {bytes_text(data)})"
        case ReadAsk(f, p):
            return f"(asks.Read {file_text(f)} (page {p}))"
        case SyncAsk(f):
            return f"(asks.Sync {file_text(f)})"
        case CutAsk(f, p):
            return f"(asks.Cut {file_text(f)} (page {p}))"
        case NameAsk(s, op):
            return f"(asks.Name (server {s}) {name_op(op, 'names')})"
        case PatchAsk(f, p, at, data):
            return f"(asks.Patch {file_text(f)} (page {p}) {at} {bytes_text(data)})"


def body_text(body):
    match body:
        case Acquire(ino, mode):
            return f"(bodies.Acquire {ino} {MODES[mode]})"
        case Released(ino, number, to):
            return f"(bodies.Released {ino} (g {number}) {MODES[to]})"
        case Map(ino, number, p):
            return f"(bodies.Map {ino} (g {number}) (page {p}))"
        case Allocate(ino, number, p, count):
            return f"(bodies.Allocate {ino} (g {number}) (page {p}) {count})"
        case Cut(ino, number, p):
            return f"(bodies.Cut {ino} (g {number}) (page {p}))"
        case Name(op):
            return f"(bodies.Name {name_op(op, 'ops')})"
        case Reassert(rows):
            return "(bodies.Reassert " + list_text([f"({i}, g {n}, {MODES[m]})" for i, n, m in rows]) + ")"
        case DemandSeen(ino, number):
            return f"(bodies.DemandSeen {ino} (g {number}))"
        case Nack(why, a, b):
            return f"(bodies.Nack why.{WHY[why]} {a} {b})"
        case Granted(ino, number, mode):
            return f"(bodies.Granted {ino} (g {number}) {MODES[mode]})"
        case Queued(ino, mode):
            return f"(bodies.Queued {ino} {MODES[mode]})"
        case Demand(ino, number, to):
            return f"(bodies.Demand {ino} (g {number}) {MODES[to]})"
        case Extents(ino, rows):
            return f"(bodies.Extents {ino} " + list_text([f"extent {p} {b.disk} {b.block} {birth}" for p, b, birth in rows]) + ")"
        case Named(0, ino):
            return f"(bodies.Named (replies.Ino {ino}))"
        case Named(1, rows):
            return "(bodies.Named (replies.Listed " + list_text([row_text(r) for r in rows]) + "))"
        case Named(2, code):
            return f"(bodies.Named (replies.Refused {code}))"
        case _:
            return f"bodies.{type(body).__name__}"


def row_text(row):
    return f"entry {row.ino} {'true' if row.kind == 2 else 'false'} {name_text(row.name)}"


def tag_text(tag):
    return f"tag_of {tag.file.server} {tag.file.ino} {tag.page} {tag.birth}"


def input_text(thing):
    match thing:
        case Tick():
            return "Tick"
        case App(op, ask):
            return f"(App {op} {ask_text(ask)})"
        case Done(command, None):
            return f"(Done {command} None)"
        case Done(command, ()):
            return f"(Done {command} (Some None))"
        case Done(command, (tag, data)):
            return f"(Done {command} (Some (Some ({tag_text(tag)}, {bytes_text(data)}))))"
        case Message(sender, 1, life, epoch, number, stamp, body):
            return f"(told {sender - 32768} {life} {epoch} {number} {stamp} {body_text(body)})"
        case Message(sender, receiver, life, epoch, number, stamp, body):
            return f"(between {sender} {receiver} {life} {epoch} {number} {stamp} {body_text(body)})"


def answer_text(answer):
    match answer.word, answer.values:
        case "written" | "hard" | "cut" | "quiesced", _:
            return f"answers.{answer.word.capitalize()}"
        case "opsfull", _:
            return "answers.OpsFull"
        case "nofile", _:
            return "answers.NoFile"
        case "dirtyfull", _:
            return "answers.DirtyFull"
        case "notholder", _:
            return "answers.NotHolder"
        case "toomanylocks", _:
            return "answers.TooManyLocks"
        case "read", (data,):
            return f"(answers.Read {bytes_text(data)})"
        case "named", (ino,):
            return f"(answers.Named {ino})"
        case "listed", (rows,):
            return "(answers.Listed " + list_text([row_text(r) for r in rows]) + ")"
        case "refused", (code,):
            return f"(answers.Refused {code})"
        case "nospace", (free, asked):
            return f"(answers.NoSpace {free} {asked})"
        case "diskfault", (command,):
            return f"(answers.DiskFault {command})"
        case "uncertain", (old, new):
            return f"(answers.Uncertain {old} {new})"
        case "lost", (rows,):
            return "(answers.Lost " + list_text([f"lost_row {p} {c}" for p, c in rows]) + ")"


def output_text(out):
    match out:
        case Send(m):
            return f"says {m.receiver - 32768} {m.life} {m.epoch} {m.number} {m.stamp} {body_text(m.body)}"
        case SubmitCommand(command, ReadBlock(at)):
            return f"reads {command} {at.disk} {at.block}"
        case SubmitCommand(command, WriteBlock(at, tag, data)):
            t = f"{tag.file.server} {tag.file.ino} {tag.page} {tag.birth}"
            return f"writes {command} {at.disk} {at.block} {t} {bytes_text(data)}"
        case AnswerApp(op, answer):
            return f"answer {op} {answer_text(answer)}"
        case LeasedNote(s, end):
            return f"noted (notes.Leased (server {s}) (stamp {end}))"
        case LostNote(s, life):
            return f"noted (notes.Lost (server {s}) (life {life}))"
        case Accepted(f, p, data):
            return f"noted (notes.Accepted {file_text(f)} (page {p}) {bytes_text(data)})"
        case Patched(f, p, at, data):
            return f"noted (notes.Patched {file_text(f)} (page {p}) {at} {bytes_text(data)})"


class Row:
    """A script for the first client of a world, and what the client says."""

    def __init__(self, name, doc, servers=1):
        self.title, self.doc, self.servers = name, doc, servers
        self.node = PlayedClient(1, CONFIG, servers)
        self.start, self.opens = f"(client_of {servers})", "ClientScript::client_script_open"
        self.deeds, self.outs, self.op = [], [], 0

    def begin_with(self, text, locks, extents=None, clean=None, dirty=None):
        """A row that begins in a state of specs/ClientTables, with a session that has sent two
        requests.
        """
        self.start, self.opens = f"({text})", "ClientTables::client_tables_open"
        association = self.node.node.associations[0]
        session = association.session = Session(1, 0)
        session.next_number, session.locks, session.seen = 3, locks, {ino: lock.grant for ino, lock in locks.items()}
        store = association.store
        for (ino, page), extent in (extents or {}).items():
            store.know(ino, page, extent)
        for (ino, page), data in (clean or {}).items():
            store.make_clean(ino, page, data)
        for (ino, page), data in (dirty or {}).items():
            store.make_dirty(ino, page, data)
        return self

    def give(self, now, thing):
        self.deeds.append(f"(Given {now} {input_text(thing)})")
        out = self.node.step(now, thing)
        self.outs += [output_text(o) for o in out]
        return out

    def tick(self, now):
        return self.give(now, Tick())

    def app(self, now, ask):
        self.op += 1
        return self.give(now, App(self.op, ask))

    def write(self, now, ino, p, byte, s=1):
        return self.app(now, WriteAsk(File(s, ino), p, uniform_page(byte)))

    def read(self, now, ino, p, s=1):
        return self.app(now, ReadAsk(File(s, ino), p))

    def sync(self, now, ino, s=1):
        return self.app(now, SyncAsk(File(s, ino)))

    def cut(self, now, ino, p, s=1):
        return self.app(now, CutAsk(File(s, ino), p))

    def name(self, now, op, s=1):
        return self.app(now, NameAsk(s, op))

    def patch(self, now, ino, p, at, data, s=1):
        return self.app(now, PatchAsk(File(s, ino), p, at, data))

    def hear(self, now, number, stamp, body, epoch=1, life=1, s=1, to=1):
        return self.give(now, Message(32768 + s, to, life, epoch, number, stamp, body))

    def done(self, now, command, result):
        return self.give(now, Done(command, result))

    def restart(self):
        self.deeds.append("Restarted")
        self.node.restart()

    def leased(self, ino=2, byte=77):
        """The client greets, gets an exclusive lock and a block, and writes a page."""
        self.write(0, ino, 0, byte)
        self.hear(0, 0, 0, Welcome())
        self.hear(0, 1, 0, Granted(ino, G1, X))
        self.hear(0, 2, 0, Extents(ino, ((0, Block(1, 0), 1),)))
        return self

    def hard(self):
        """And the page is hardened."""
        self.leased()
        self.sync(0, 2)
        self.done(0, 1, ())
        return self

    def text(self):
        deeds = "".join(f"        {'∷ ' if i else ''}{d}\n" for i, d in enumerate(self.deeds))
        outs = "".join(f"        {'∷' if i else '≡'} {o}\n" for i, o in enumerate(self.outs))
        end = "        ∷ [] }\n" if self.outs else "        ≡ [] }\n"
        return (f"\n/// {self.doc}\n#[tactic(auto, unfolding(crate::specs::{self.opens}))]\n"
                f"pub fn {self.title}()\n    ensures {{ said (\n{deeds}        ∷ []) {self.start}\n{outs}{end}{{}}\n")


USES = [
    ("◌≡◌, ◌∷◌, []", None),
    ("st_base.specs.Page.{filled}", "filled "),
    ("st_base.specs.declared.mode.Mode.TheVariants as modes", "modes."),
    ("st_base.specs.declared.names.NameAsk.TheVariants as names", "names."),
    ("st_messages.specs.declared.answer.AppAnswer.TheVariants as answers", "answers."),
    ("st_messages.specs.declared.ask.Ask.TheVariants as asks", "asks."),
    ("st_messages.specs.declared.message.Body.TheVariants as bodies", "bodies."),
    ("st_messages.specs.declared.message.NameOp.TheVariants as ops", "ops."),
    ("st_messages.specs.declared.message.NameReply.TheVariants as replies", "replies."),
    ("st_messages.specs.declared.message.Why.TheVariants as why", "why."),
    ("st_messages.specs.declared.output.Note.TheVariants as notes", "notes."),
    ("st_rules.specs.FlatLog.{overlay}", "overlay "),
]
WORDS = {
    "st_rules.specs.declared.client.ClientInput.TheVariants": ["App", "Done", "Tick"],
    "st_rows.specs.ClientScript": ["Given", "Restarted", "client_of", "said"],
    "st_rows.specs.ClientTables": ["clean_client", "dirty_client", "locked_client"],
    "st_rows.specs.ClientWords": ["answer", "between", "lost_row", "noted", "on", "reads", "says", "server", "tag_of", "told", "writes"],
    "st_rows.specs.Words": ["entry", "extent", "g", "life", "page", "stamp"],
}


def file_text_of(rows):
    """The functions of rows, after the names that they use."""
    body = "".join(r.text() for r in rows)
    code = "\n".join(line for line in body.splitlines() if not line.startswith("///"))
    used = lambda w: re.search(rf"(?<![\w.]){w}(?![\w.])", code)
    prelude = ["◌≡◌", "◌∷◌", "[]"] + [w for w in ("None", "Some", "codes", "false", "true") if used(w)]
    head = f"ghost use Rattle.std.specs.Prelude.{{{', '.join(prelude)}}};\n"
    for path, mark in USES[1:]:
        if mark in code:
            head += f"ghost use Rattle.{path};\n"
    for path, words in WORDS.items():
        there = [w for w in words if used(w)]
        if there:
            head += f"ghost use Rattle.{path}.{{{', '.join(there)}}};\n"
    return "// Written by tools/rows/client_rows.py.\n" + head + body


def files():
    """Each file that has worked rows of the client, and its text."""
    from client_scripts import FILES
    return {f"crates/st_rows/src/{name}.rt": file_text_of(rows) for name, rows in FILES(Row).items()}
