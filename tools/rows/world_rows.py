"""The worked rows of the world: crates/st_rows_world/src/world_*.rt, and world_safety of
crates/st_rows_promises with its proofs, written by tools/rows/write.

Each row is a schedule of the repository with its report beside it. Its events, what is observed at
each, and the counts or the refusal are written as the contract of a function. No number of a row is
typed by hand: the world of reference/ runs it, and what is written has the row's report as its
text. The reports of schedules/rules are those of an independent reading of the protocol.
"""
import pathlib
import re

from client_rows import answer_text, ask_text, body_text, bytes_text, list_text
from row_records import SERVER_BASE, answer_record, ask_record, body_record
from reference import report
from reference.disks import ZEROS
from reference.flat_log import GONE, HARD
from reference.schedule import ScheduleReader
from reference.world import World

ROOT = pathlib.Path(__file__).resolve().parents[2]
# for each row its schedule, the function and what its doc says; one file of functions a group
FILES = {
    "world_reads": [
        ("schedules/own-write", "own_write", "A client reads what it wrote."),
        ("schedules/no-message", "no_message", "A request is answered again with its kept reply, and a message that was not sent is refused."),
        ("schedules/seventeen-reads", "operations_full", "The seventeenth operation of a client is refused."),
        ("schedules/patch", "patch", "A patch of a written page; its effect makes both entries hard, also after a crash."),
        ("schedules/rows/patch-of-a-new-page", "patch_of_a_new_page", "A patch of a page that is first read from its disk."),
        ("schedules/cut", "cut", "A file is cut, and its page reads as zeros."),
    ],
    "world_names": [
        ("schedules/names", "names", "A name that is there is refused."),
        ("schedules/rows/rename-cycle", "cycle", "A directory doesn't come under itself."),
        ("schedules/reused-block", "reused_block", "A block that a removed file gave back has a new birth."),
    ],
    "world_leases": [
        ("schedules/dating", "dating", "A lease is dated from the greeting's sending."),
        ("schedules/keep-alive", "keep_alive", "A keep-alive is sent from renewal on, and dates the lease."),
        ("schedules/rows/equality", "equality", "A lease is over from its end on."),
        ("schedules/late-reply", "late_reply", "A reply at the lease end comes too late."),
    ],
    "world_clocks": [
        ("schedules/clock-rate", "rate_boundary", "An advance at the bound, and one beyond it."),
        ("schedules/clock-drift", "drift_of_clients", "Clocks that drift apart over three advances."),
        ("schedules/rows/drift-from-rest", "drift_from_rest", "Clocks that stand still while another runs."),
    ],
    "world_theft": [
        ("schedules/theft", "theft", "A crashed client's lock is stolen when its timer ends."),
        ("schedules/theft-under-drift", "theft_with_a_grain", "With a grain the timer is longer."),
    ],
    "world_cuts": [
        ("schedules/one-sided-cut", "one_sided_cut", "A client that is cut off one way flushes its pages before its lock is stolen."),
        ("schedules/link-cut", "link_cut", "A reply of a cut direction is not delivered."),
        ("schedules/rows/healed", "healed", "A healed direction delivers."),
        ("schedules/rows/link-cut-from-a-client", "request_cut", "A request of a cut direction is not delivered."),
        ("schedules/rules/cut-twice", "cut_twice", "A direction that was cut twice is healed once; a cut concerns only its own direction."),
        ("schedules/lost-message", "lost_message", "A message that was lost is not delivered."),
        ("schedules/rows/no-node", "no_node", "A node that is not there."),
    ],
    "world_locks": [
        ("schedules/demand-before-grant", "demand_before_grant", "A demand that comes before its grant."),
        ("schedules/repeated-release", "repeated_release", "A release that comes again changes nothing."),
    ],
    "world_disks": [
        ("schedules/rows/late-disk", "late_disk", "An effect before the lease end of a crashed client."),
        ("schedules/late-disk-refused", "late_disk_refused", "An effect at the lease end is refused."),
        ("schedules/flush-missed", "flush_missed", "An advance to the lease end of a client that has not flushed is refused."),
        ("schedules/rows/flush-missed-at-the-end", "flush_outstanding", "So is one while the flush is outstanding."),
        ("schedules/rows/sync", "sync", "A sync is answered when its page is hard."),
        ("schedules/rows/late-read", "late_read", "A request that is sent again renews the lease by its new stamp; the effect of a read at the lease end is refused."),
    ],
    "world_failures": [
        ("schedules/failed-flush", "failed_flush", "A write whose flush failed is dropped, and the next sync is told so."),
        ("schedules/ambiguous-failure", "ambiguous_failure", "A command that was reported failed and had its effect."),
    ],
    "world_restarts": [
        ("schedules/restart", "restart_while_a_timer_runs", "A server that starts again while a timer runs accepts the client's locks."),
        ("schedules/rows/second-reassertion", "second_reassertion", "A reassertion that comes again is answered again."),
    ],
    "world_reassertion": [
        ("schedules/repeated-reassertion", "repeated_reassertion", "A reassertion that comes again when grace is over brings no lock back."),
    ],
    "world_refusals": [
        ("schedules/rules/no-client", "no_client", "A client that is not there is asked nothing."),
        ("schedules/rules/not-running", "not_running", "A message is not delivered to a server that doesn't run."),
        ("schedules/rules/stopped-client", "stopped_client", "A client that doesn't run takes no step, and its clock goes on."),
        ("schedules/rules/stopped-twice", "stopped_twice", "A server that doesn't run can't stop."),
        ("schedules/rules/running", "running", "A client that starts again is in its next life; a server that runs can't start."),
        ("schedules/rules/lost-twice", "lost_twice", "A message is lost once."),
        ("schedules/rules/no-command", "no_command", "A command that was not submitted has no effect."),
        ("schedules/rules/no-command-to-report", "no_command_to_report", "Nor has it a report."),
    ],
    "world_commands": [
        ("schedules/rules/effect-twice", "effect_twice", "A command has its effect once."),
        ("schedules/rules/effect-of-a-reported-command", "effect_of_a_reported_command", "A command that was reported has no effect."),
        ("schedules/rules/success-without-effect", "success_without_effect", "A command without an effect is not reported as done."),
        ("schedules/rules/failed-read", "failed_read", "A failed read is reported; a report for a client that was started again tells nobody; and there is one report."),
    ],
    "world_lives": [
        ("schedules/rules/later-life-waits", "later_life_waits", "A client that is greeted while its locks of an earlier life are there waits until they are stolen."),
        ("schedules/rules/later-life-replaces", "later_life_replaces", "Without locks its new life is welcome at once; an older greeting, request and welcome are ignored."),
        ("schedules/rules/uncertain-at-a-loss", "uncertain_at_a_loss", "A name that was asked is uncertain at a loss, though the server gave it."),
        ("schedules/rules/two-servers", "two_servers", "A client with leases at two servers, each with its own disk, loses them in rising order."),
        ("schedules/rules/condemned", "condemned", "A client that is refused as a suspect serves nothing new, flushes, and loses its lease."),
    ],
    "world_epochs": [
        ("schedules/rules/new-epoch", "new_epoch", "A name that was asked in an epoch that is over is uncertain; without locks an empty reassertion is accepted."),
        ("schedules/rules/grace", "grace", "In grace no greeting is welcome; the first grant after it has a number of the new epoch."),
        ("schedules/rules/late-reassertion", "late_reassertion", "A reassertion that comes when grace is over is refused, and finds its client's lease lost."),
    ],
    "world_asks": [
        ("schedules/rules/no-file", "no_file", "A server that is not there and an inode that isn't a file have no files."),
        ("schedules/rules/not-the-holder", "not_the_holder", "A remove is refused if the entry is not the file that the asker means."),
        ("schedules/rules/directories", "directories", "Directories are made, filled, listed and removed; one with entries is not removed."),
        ("schedules/rules/lowered-demand", "lowered_demand", "A demand is repeated on a tick and lowered when its waiter wants more; the lock is given up in two steps."),
    ],
}
# the rows over which every promise is computed
FIELDS = [
    "alone", "reads", "causes", "stays", "hard", "thefts", "dates", "waits", "conflicts",
    "told", "logged", "once", "locked", "order", "emptied", "history", "losses", "held", "faults", "numbers", "cuts", "given", "rising",
    "acknowledged", "named", "renamed", "changed", "refused",
]
SAFE = [
    ("schedules/theft", "theft_is_safe", "Every promise is kept in the row of the theft."),
    ("schedules/one-sided-cut", "one_sided_cut_is_safe", "Every promise is kept in the row of the one-sided cut."),
    ("schedules/failed-flush", "failed_flush_is_safe", "Every promise is kept in the row of the failed flush."),
    ("schedules/restart", "restart_is_safe", "Every promise is kept in the row of the restart while a timer runs."),
]


def fate_text(entry):
    if entry.fate != GONE:
        return f"fates.{entry.fate.capitalize()}"
    return "(fates.Gone causes.Crash)" if entry.cause is None else f"(fates.Gone (causes.Failed {entry.cause}))"


def entry_text(e):
    """An entry of the log, in the words of crates/st_rows_promises/proofs/WorldLogs.antt."""
    file = f"{e.file[0]} {e.file[1]} {e.page}"
    match e.kind:
        case "write":
            return f"(written {e.client} {e.life} {file} {bytes_text(e.bytes)} {fate_text(e)})"
        case "patch":
            return f"(patched {e.client} {e.life} {file} {e.at} {bytes_text(e.bytes)} {fate_text(e)})"
        case "cut":
            return f"(was_cut {file})"


def log_text(entries):
    return list_text([entry_text(e) for e in entries])


def hard_bytes(entries, file, page):
    """What the hard entries of the log make of a page of zeros."""
    data = ZEROS
    for e in entries:
        if e.file != file or e.fate != HARD:
            continue
        if e.kind == "cut":
            data = ZEROS if page >= e.page else data
        elif e.page == page:
            data = data[: e.at] + e.bytes + data[e.at + len(e.bytes) :]
    return bytes_text(data)


def held_texts(world):
    """What the disks hold of each page that a server maps, by its birth, and of each that an entry
    names.
    """
    pages = []
    for number, server in enumerate(world.servers, 1):
        births = [(extent[2], ino, page) for ino, of in server.extents.pages.items() for page, extent in of.items()]
        pages += [((number, ino), page) for _, ino, page in sorted(births)]
    pages += [(e.file, e.page) for e in world.log.entries]
    return [hard_bytes(world.log.entries, file, page) for file, page in pages]


def node(n):
    return f"(client_node {n})" if n < SERVER_BASE else f"(server_node {n - SERVER_BASE})"


def event_text(e):
    match e:
        case "app", client, ask:
            return f"(ask {client} {ask_text(ask_record(ask))})"
        case "adv", steps:
            return f"(events.Advance {list_text([str(s) for s in steps])})"
        case "report", k, ok:
            return f"(events.Report {k} {'true' if ok else 'false'})"
        case ("cut" | "heal") as word, a, b:
            return f"(events.{word.capitalize()} {node(a)} {node(b)})"
        case ("tick" | "crash" | "start") as word, n:
            return f"(events.{word.capitalize()} {node(n)})"
        case word, k:
            return f"(events.{word.capitalize()} {k})"


def seen_text(o):
    match o:
        case "sent", k, m:
            return f"sent {k} {m.sender} {m.receiver} {m.life} {m.epoch} {m.number} {m.stamp} {body_text(body_record(m.kind, m.body))}"
        case "submit", k, c, number, disk, block, None:
            return f"read_out {k} {c} {number} {disk} {block}"
        case "submit", k, c, number, disk, block, (server, ino, page, birth, data):
            return f"write_out {k} {c} {number} {disk} {block} {server} {ino} {page} {birth} {bytes_text(data)}"
        case "answer", c, op, answer:
            return f"answered {c} {op} {answer_text(answer_record(answer))}"
        case "write", i, c, f, p, data:
            return f"wrote {i} {c} {f[0]} {f[1]} {p} {bytes_text(data)}"
        case "patch", i, c, f, p, at, data:
            return f"patched {i} {c} {f[0]} {f[1]} {p} {at} {bytes_text(data)}"
        case "cut", i, f, p:
            return f"cut {i} {f[0]} {f[1]} {p}"
        case "hard", i:
            return f"seen.Hardened {i}"
        case "dropped", i, None:
            return f"dropped {i}"
        case "dropped", i, k:
            return f"failed {i} {k}"
        case "dated", c, s, end:
            return f"leased {c} {s} {end}"
        case "lost", c, s, life:
            return f"lost {c} {s} {life}"
        case "suspected", s, c, start:
            return f"suspected {s} {c} {start}"
        case "stolen", s, c, life:
            return f"stolen {s} {c} {life}"


def refusal_text(refusal):
    """A refusal, by its name and its values."""
    name, *values = refusal
    out = []
    for v in map(str, values):
        kind, number = v[0], v[1:]
        if name == "FlushMissed":
            out.append(f"(c {number})" if kind == "c" else f"(server {number})")
        elif name == "LateDisk":
            out.append(f"(stamp {v})")
        elif kind in "cs":
            out.append(f"({'client' if kind == 'c' else 'server'}_node {number})")
        else:
            out.append(v)
    return " ".join([f"refusals.{name}", *out])


class Row:
    """A schedule, step by step: its events, what is observed at each, the counts, and the refusal
    that ends it.
    """

    def __init__(self, name):
        path = ROOT / f"{name}.schedule"
        self.told, self.logs, self.held, self.events, self.refused = [], [], [], [], None
        reader, lines = ScheduleReader(), ["tank report 1"]
        for number, line in enumerate(path.read_bytes().splitlines(), 1):
            event = reader.line(line)
            if number == 1:
                self.head, self.world = event, World(event)
                continue
            if event == ("end",):
                continue
            self.events.append(event)
            self.refused = self.world.refusal(event)
            if self.refused:
                lines.append(report.refusal_text(number, self.refused[0], self.refused[1:]))
                break
            seen = self.world.step(event)
            self.told.append(seen)
            self.logs.append(log_text(self.world.log.entries))
            self.held.append(held_texts(self.world))
            lines += [f"{len(self.told)} {report.observation_text(o)}" for o in seen]
        if self.refused is None:
            lines.append(report.summary_text(self.world.summary()))
        assert "".join(line + "\n" for line in lines) == path.with_suffix(".report").read_text(), path

    def fresh(self):
        head = self.head
        counts = f"{head.clients} {head.servers} {head.disks} {head.blocks}"
        return f"(world_of {counts})" if head.form == 1 else f"(grainy_world {head.settings.grain} {counts})"

    def counts(self):
        return "(counts " + " ".join(map(str, self.world.summary())) + ")"

    def safe_text(self, name, doc):
        """The contract that says that every promise is kept over the row."""
        events = "".join(f"        {'∷ ' if i else ''}{event_text(e)}\n" for i, e in enumerate(self.events))
        return (f"\n/// {doc}\n#[tactic(auto, unfolding(crate::specs::SafeWords::safe_words_open))]\n"
                f"pub fn {name}()\n    ensures {{ IsKeptRun {self.fresh()} (\n{events}        ∷ []) }}\n{{}}\n")

    def safe_answer(self, name):
        """Its proof: each promise computes, step by step."""
        def owed(o):
            return "refl" if o[0] == "answer" and o[3][0] == "read" else "tt"

        def nested(items):
            return "".join(f"({i}, " for i in items) + "tt" + ")" * len(items)

        def each(step):
            return nested([step(os) for os in self.told])

        def at_each(fact):
            return each(lambda os: nested([fact(o) for o in os]))

        def logged(o):
            return "refl" if o[0] == "answer" and o[3][0] in ("written", "cut") else "tt"

        def lost(o):
            told = o[0] == "answer" and o[3][0] == "lost"
            return f"through ({list_text([f'lost_row {page} {command}' for page, command in o[3][1]])}) refl refl" if told else "tt"

        plain = each(lambda os: "refl")
        fields = {f: plain for f in FIELDS}
        fields["reads"], fields["hard"], fields["logged"] = at_each(owed), at_each(lambda o: "refl"), at_each(logged)
        fields["told"] = nested([f"record {{ entries = through ({log}) refl refl; numbers = refl }}" for log in self.logs])
        fields["history"] = each(lambda os: "record { timers = refl; started = refl; graces = refl; begun = refl; dates = refl; grants = refl }")
        fields["losses"] = at_each(lost)
        fields["held"] = nested([nested([f"through {data} refl refl" for data in held]) for held in self.held])
        fields["numbers"] = each(lambda os: "record { messages = refl; commands = refl; told = refl; counts = refl }")
        lines = "".join(f"      {f} = {v};\n" for f, v in fields.items())
        there = [w for w in ("was_cut", "written", "patched") if f"({w} " in lines]
        uses = ["use Rattle.std.proofs.Common.{[], ◌∷◌, refl}"] if there else ["use Rattle.std.proofs.Common.{[], refl}"]
        uses += ["use Rattle.st_base.specs.Page.{filled}"] if "filled " in lines else []
        uses += [f"use Rattle.st_rules.specs.declared.log.{x}.TheVariants as {x.lower()}s" for x in ("Cause", "Fate") if f"{x.lower()}s." in lines.replace("causes =", "")]
        uses += ["use Rattle.st_rows.specs.ClientWords.{lost_row}"] if "lost_row " in lines else []
        uses += ["use Rattle.st_rows_promises.specs.SafeWords.{safe_words_open}",
                 f"use Rattle.st_rows_promises.proofs.WorldLogs.{{{', '.join(sorted(there + ['through']))}}}"]
        return ("\n".join(uses) + "\n"
                f"use Rattle.st_rows_promises.proofs.world_safety.{name}.Goals as goal\n\npub returns : goal.returns\n"
                f"unfolding safe_words_open\nreturns c =\n    record {{\n{lines}    }}\n")

    def text(self, name, doc):
        events = "".join(f"        {'∷ ' if i else ''}{event_text(e)}\n" for i, e in enumerate(self.events))
        seen = ""
        for i, os in enumerate(self.told):
            seen += f"        {'∷ ' if i else ''}({' ∷ '.join([*map(seen_text, os), '[]'])})\n" if os else f"        {'∷ ' if i else ''}[]\n"
        seen = f"(\n{seen}        ∷ [])" if self.told else "[]"
        refused = f"(Some ({refusal_text(self.refused)}))" if self.refused else "None"
        return (f"\n/// {doc}\n#[tactic(auto, unfolding(crate::specs::WorldWords::world_words_open))]\n"
                f"pub fn {name}()\n    ensures {{ told (run (\n{events}        ∷ []) {self.fresh()})\n"
                f"        ≡ tells {seen} {self.counts()} {refused} }}\n{{}}\n")


USES = [
    ("st_base.specs.Page.{filled}", "filled "),
    ("st_base.specs.declared.mode.Mode.TheVariants as modes", "modes."),
    ("st_base.specs.declared.names.NameAsk.TheVariants as names", "names."),
    ("st_messages.specs.declared.answer.AppAnswer.TheVariants as answers", "answers."),
    ("st_messages.specs.declared.ask.Ask.TheVariants as asks", "asks."),
    ("st_messages.specs.declared.event.Event.TheVariants as events", "events."),
    ("st_messages.specs.declared.message.Body.TheVariants as bodies", "bodies."),
    ("st_messages.specs.declared.message.NameOp.TheVariants as ops", "ops."),
    ("st_messages.specs.declared.message.NameReply.TheVariants as replies", "replies."),
    ("st_messages.specs.declared.message.Why.TheVariants as why", "why."),
    ("st_rows_promises.specs.SafeWords.{IsKeptRun}", "IsKeptRun "),
    ("st_rules.specs.FlatLog.{overlay}", "overlay "),
    ("st_rules.specs.Run.{run}", "run "),
    ("st_rules.specs.declared.observation.Observation.TheVariants as seen", "seen."),
    ("st_rules.specs.declared.observation.WorldRefusal.TheVariants as refusals", "refusals."),
]
WORDS = {
    "st_rows.specs.ClientWords": ["lost_row", "on", "server", "tag_of"],
    "st_rows.specs.Words": ["c", "entry", "extent", "g", "page", "stamp"],
    "st_rows_world.specs.WorldWords": [
        "answered", "ask", "client_node", "counts", "cut", "dropped", "failed", "grainy_world", "leased", "lost", "patched",
        "read_out", "sent", "server_node", "stolen", "suspected", "tells", "told", "world_of", "write_out", "wrote",
    ],
}


def file_text_of(body, tool="world_rows.py", uses=USES):
    """Functions after the names that they use, in a file that says which tool wrote it."""
    code = re.sub(r"///.*|pub fn \w+", "", body)

    def used(word):
        return re.search(rf"(?<![\w.]){word}(?![\w.])", code)

    prelude = [w for w in ("◌≡◌",) if "≡" in code] + ["◌∷◌", "[]"] + [w for w in ("None", "Some", "codes", "false", "true") if used(w)]
    prelude += ["◌++◌"] if "++" in code else []
    head = f"ghost use Rattle.std.specs.Prelude.{{{', '.join(prelude)}}};\n"
    for path, mark in uses:
        if mark in code:
            head += f"ghost use Rattle.{path};\n"
    for path, words in WORDS.items():
        there = [w for w in words if used(w)]
        if there:
            head += f"ghost use Rattle.{path}.{{{', '.join(there)}}};\n"
    return f"// Written by tools/rows/{tool}.\n" + head + body


def files():
    """Each file that has worked rows of the world, and its text."""
    texts = {name: "".join(Row(path).text(title, doc) for path, title, doc in rows) for name, rows in FILES.items()}
    texts["world_safety"] = "".join(Row(path).safe_text(title, doc) for path, title, doc in SAFE)
    answers = {f"crates/st_rows_promises/proofs/world_safety/{title}/Answers.antt": "-- Written by tools/rows/world_rows.py.\n" + Row(path).safe_answer(title)
               for path, title, _ in SAFE}
    crate_of = {"world_safety": "st_rows_promises"}
    return {**{f"crates/{crate_of.get(name, 'st_rows_world')}/src/{name}.rt": file_text_of(text) for name, text in texts.items()}, **answers}
