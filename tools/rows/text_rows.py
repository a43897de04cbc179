"""Worked rows of the report's text: crates/st_rows_world/src/world_texts.rt, written by
tools/rows/write.

Every kind of observation, body, answer and refusal has a row with the text that reference/ gives
it, and two runs have their whole report. They are written as contracts of functions. A page is
written here as a few bytes, since a text has the runs of whatever bytes there are.
"""
from row_records import (
    Ack, Acquire, Allocate, Block, Create, Cut, Demand, DemandSeen, Extents, Granted, Hello, KeepAlive, ListDir, Lookup, Map, Message, Mkdir, Nack,
    Name, NameRow, Named, Queued, Reassert, Reasserted, Released, Remove, Rename, Welcome, plain, plain_entries,
)
from reference import report
from world_rows import ROOT, USES, Row, event_text, file_text_of, refusal_text, seen_text

G = 2 ** 32 + 7
FILE = (2, 31)
ROWS = (NameRow(11, 1, b"a"), NameRow(2, 2, b"b.c"))
PAGE = bytes([7, 7, 7, 0, 255])


def up(body):
    return "sent", 12, plain(Message(1, 32769, 2, 3, 4, 567, body))


def down(body):
    return "sent", 1, plain(Message(32770, 16, 2, 3, 4, 567, body))


def answered(word, *values):
    return "answer", 2, 19, (word, *values)


REQUESTS = {
    "hello": up(Hello()),
    "keep_alive": up(KeepAlive()),
    "acquire": up(Acquire(2, 1)),
    "released": up(Released(2, G, 0)),
    "map": up(Map(2, G, 9)),
    "allocate": up(Allocate(2, G, 9, 64)),
    "cut": up(Cut(2, G, 9)),
    "reassert": up(Reassert(((2, G, 1), (31, G + 1, 2)))),
    "no_locks": up(Reassert(())),
    "demand_seen": up(DemandSeen(2, G)),
    "lookup": up(Name(Lookup(1, b"f2"))),
    "create": up(Name(Create(1, b"f2"))),
    "mkdir": up(Name(Mkdir(1, b"f2"))),
    "remove": up(Name(Remove(1, b"f2", G))),
    "rename": up(Name(Rename(1, b"f2", 10, b"g"))),
    "list_all": up(Name(ListDir(1, b""))),
    "list_above": up(Name(ListDir(1, b"f2"))),
}
REPLIES = {
    "welcome": down(Welcome()),
    "ack": down(Ack()),
    **{f"nack_{why}": down(Nack(why, 5, 6)) for why in range(1, 11)},
    "granted": down(Granted(2, G, 2)),
    "queued": down(Queued(2, 1)),
    "demand": down(Demand(2, G, 0)),
    "demand_shared": down(Demand(2, G, 1)),
    "extents": down(Extents(2, ((9, Block(1, 4095), 3), (10, Block(8, 0), 4)))),
    "unmapped": down(Extents(2, ())),
    "ino": down(Named(0, 12)),
    "listed": down(Named(1, ROWS)),
    "refused": down(Named(2, 8)),
    "reasserted": down(Reasserted()),
}
ANSWERS = {
    "written": answered("written"),
    "read": answered("read", PAGE),
    "hard": answered("hard"),
    "cut": answered("cut"),
    "named": answered("named", 12),
    "listed": answered("listed", plain_entries(ROWS)),
    "none_listed": answered("listed", ()),
    "refused": answered("refused", 6),
    "quiesced": answered("quiesced"),
    "no_file": answered("nofile"),
    "no_space": answered("nospace", 0, 3),
    "disk_fault": answered("diskfault", 5),
    "ops_full": answered("opsfull"),
    "uncertain": answered("uncertain", 1, 2),
    "lost": answered("lost", ((0, 3), (7, 0))),
    "dirty_full": answered("dirtyfull"),
    "not_holder": answered("notholder"),
    "too_many_locks": answered("toomanylocks"),
}
OTHERS = {
    "read_out": ("submit", 3, 2, 1, 2, 40, None),
    "write_out": ("submit", 3, 2, 1, 2, 40, (*FILE, 9, 5, PAGE)),
    "wrote": ("write", 4, 1, FILE, 9, PAGE),
    "patched": ("patch", 5, 1, FILE, 9, 4000, bytes([1, 1])),
    "cut": ("cut", 6, FILE, 9),
    "hard": ("hard", 7),
    "crash": ("dropped", 8, None),
    "failed": ("dropped", 9, 10),
    "leased": ("dated", 1, 2, 2000),
    "lost": ("lost", 1, 2, 3),
    "suspected": ("suspected", 2, 1, 1100),
    "stolen": ("stolen", 2, 1, 3),
}
REFUSALS = {
    "no_node": ("NoNode", "c9"),
    "not_running": ("NotRunning", "s1"),
    "running": ("Running", "c2"),
    "no_message": ("NoMessage", 8),
    "lost_message": ("LostMessage", 8),
    "link_cut": ("LinkCut", "c1", "s2"),
    "no_command": ("NoCommand", 8),
    "disk_state": ("DiskState", 8),
    "clock_rate": ("ClockRate", 102, 100),
    "late_disk": ("LateDisk", 1001, 1000),
    "flush_missed": ("FlushMissed", "c1", "s2"),
    "net_full": ("NetFull", 536870912),
    "clock_drift": ("ClockDrift", "s1", "c2", 600),
}


def codes(text):
    return 'codes "' + text.replace("\n", "\\n") + '"'


def function(name, doc, clauses):
    return (f"\n/// {doc}\n#[tactic(auto, unfolding(crate::specs::CheckWords::texts_open))]\npub fn {name}()\n"
            + "".join(f"    ensures {{ {c} }}\n" if n is None else f"    ensures {n} {{ {c} }}\n" for n, c in clauses) + "{}\n")


def observations(items):
    return [(n, f"text.observation ({seen_text(o)}) ≡ {codes(' ' + report.observation_text(o))}") for n, o in items.items()]


def whole(name):
    """The report of a run, as it is beside its schedule."""
    row = Row(name)
    events = "".join(f"        {'∷ ' if i else ''}{event_text(e)}\n" for i, e in enumerate(row.events))
    lines = (ROOT / f"{name}.report").read_text().splitlines()
    text = " ++ (".join(codes(line + "\n") for line in lines) + ")" * (len(lines) - 1)
    return [(None, f"text.report (run (\n{events}        ∷ []) {row.fresh()})\n        ≡ {text}")]


def files():
    """The file of rows of the report's text."""
    uses = sorted([*USES, ("st_rules.specs.Report as text", "text.")])
    return {"crates/st_rows_world/src/world_texts.rt": file_text_of("".join([
        function("requests", "What clients send.", observations(REQUESTS)),
        function("replies", "What servers send.", observations(REPLIES)),
        function("answers_to_applications", "What applications are answered.", observations(ANSWERS)),
        function("commands_entries_and_notes", "Disk commands, the log, and notes.", observations(OTHERS)),
        function("refusals_of_events", "Refusals, with their values.",
                 [(n, f"text.refusal ({refusal_text(r)}) ≡ {codes(' '.join(['', *map(str, r)]))}") for n, r in REFUSALS.items()]),
        function("a_refused_run", "A report that ends with a refusal.", whole("schedules/rules/cut-twice")),
        function("a_whole_run", "A report that ends with the counts.", whole("schedules/names")),
    ]), "text_rows.py", uses)}
