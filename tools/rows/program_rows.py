"""The rows of the program: crates/tank_rows/stdin, written by tools/rows/write.

A row is a call of the program's top call over memory: its words, what comes on its input and its
link, its status, and what it must write to its output, its link and its error output. The rows are
the schedules and scripts of the repository, with the reports and texts next to them; each line and
event of schedules/refusals/; the streams of schedules/frames/; and right and bad arguments. If no
file has an answer, reference/ gives it.

A row begins with a line: the status; how many bytes the words, the input, the frames, the output,
the sent frames and the complaint have; and a name. Those bytes follow. Each word has a newline
after it.
"""
import io
import pathlib

import row_records  # noqa: F401  (it makes reference/ known)
from reference.__main__ import USAGE
from reference.generator import generate, work_text
from reference.report import replay
from reference.sources import Sink, pieces_of

ROOT = pathlib.Path(__file__).resolve().parents[2]
SCHEDULES = ["schedules", "schedules/rows", "schedules/hostile", "schedules/volume", "docs/pictures", "schedules/rules"]
SCRIPTS = ["journal", "move", "snap", "shared"]
SEEDS = [0, 1, 9, 1998, 2**64 - 1]
NODES = ["server 4", "client 1", "client 9", "client 10", "client 16"]
BAD = ["generate 01 9", "generate 1 09", "generate 100001 9", "generate 1 18446744073709551616", "generate -1 9", "generate 1", "generate 1 9 9", "work 01 9",
         "work 100001 9", "work 1 18446744073709551616", "work 1", "work 1 9 9", "generate", "work", "generates 1 9", "", "replay x", "journal x", "Journal",
         "node", "node server 1", "node server 1 n m", "node server 1 -n", "node server 0 n", "node server 5 n", "node server 01 n", "node server x n",
         "node client 0 n", "node client 17 n", "node client 20 n", "node client 100 n", "node client 1a n", "node disk 1 n", "nodes client 1 n",
         f"node server 1 {'x' * 101}"]


def row(name, words, status, given="", output="", frames="", sent="", complaint=""):
    """A row's text, of Latin-1 characters that stand for its bytes."""
    parts = ["".join(word + "\n" for word in words), given, frames, output, sent, complaint]
    counts = " ".join(str(len(part)) for part in parts)
    return f"{status} {counts} {ascii(name)[1:-1]}\n" + "".join(parts)


def text_of(path):
    return path.read_bytes().decode("latin-1")


def reported(given):
    """The report of a schedule by the reference, and the status."""
    out = io.BytesIO()
    sink = Sink(out)
    status = 0 if replay(pieces_of(io.BytesIO(given.encode("latin-1"))), sink.write) else 1
    sink.flush()
    return status, out.getvalue().decode("latin-1")


def schedules():
    """Each schedule that has a report beside it."""
    for folder in SCHEDULES:
        for path in sorted((ROOT / folder).glob("*.schedule")):
            report = text_of(path.with_suffix(".report"))
            status = 0 if report.splitlines()[-1:] and report.splitlines()[-1].startswith("end events ") else 1
            yield row(f"{folder}/{path.stem}", ["replay"], status, text_of(path), report)


def scripts():
    """Each script that has a text beside it."""
    for command in SCRIPTS:
        for path in sorted((ROOT / "scripts" / command).glob("*.script")):
            text = text_of(path.with_suffix(".text"))
            status = 1 if text.splitlines()[-1].startswith("line ") else 0
            yield row(f"scripts/{command}/{path.stem}", [command], status, text_of(path), text)


def refusals():
    """Each refused line of schedules/refusals/, after the accepted ones; and only those."""
    for path in sorted((ROOT / "schedules/refusals").glob("*.rows")):
        before = []
        for line in text_of(path).split("\n")[1:-1]:
            if not line.startswith("! "):
                before.append(line)
                continue
            event, _, refusal = line.removeprefix("! ").rpartition(" > ")
            given = "".join(each + "\n" for each in [*before, event])
            status, report = reported(given)
            assert status == 1 and report.endswith(f"line {len(before) + 1} {refusal}\n"), (path, line)
            yield row(f"{path.stem}: {event}", ["replay"], status, given, report)
        if before:
            given = "".join(each + "\n" for each in [before[0], *(each for each in before[1:] if each != "end"), "end"])
            status, report = reported(given)
            assert status == 0, path
            yield row(f"{path.stem}: the accepted lines", ["replay"], status, given, report)


def bytes_of(runs):
    """The bytes of runs, as Latin-1 characters."""
    words = [run.partition("*") for run in runs.split() if run != "-"]
    return "".join(chr(int(byte, 16)) * int(count or 1) for byte, _, count in words)


def frames():
    """Each stream of schedules/frames/, and a node that gets no bytes."""
    for path in sorted((ROOT / "schedules/frames").glob("*.rows")):
        for line in path.read_text().splitlines():
            if line.startswith("#"):
                continue
            name, words, came, sent, status, text = [part.strip() for part in line.split("|")]
            came, complaint = bytes_of(came), text + "\n" if text else ""
            fronts = range(1, len(came)) if name.startswith("each front") else [len(came)]
            for front in fronts:
                yield row(f"{name} ({front} bytes)", ["node", *words.split(), "n"], status, frames=came[:front], sent=bytes_of(sent), complaint=complaint)
    for words in NODES:
        yield row(f"node {words}", ["node", *words.split(), "n"], 0)
    yield row("a name of 100 bytes", ["node", "server", "1", "x" * 100], 0)


def generated(length, seed):
    """A generated schedule."""
    out = io.BytesIO()
    sink = Sink(out)
    generate(length, seed, sink.write)
    sink.flush()
    return out.getvalue().decode("latin-1")


def words():
    """Generated schedules and the lines of `work`, and bad arguments."""
    for length in (0, 300):
        for seed in SEEDS:
            yield row(f"generate {length} {seed}", ["generate", str(length), str(seed)], 0, output=generated(length, seed))
            yield row(f"work {length} {seed}", ["work", str(length), str(seed)], 0, output=work_text(length, seed) + "\n")
    for bad in [*(bad.split() for bad in BAD), [""], ["node", "server", "1", ""]]:
        yield row(f"the words {bad}", bad, 2, "tank 1\n", complaint=USAGE + "\n")


def files():
    """The table, and what the crate prints if each row goes as it says."""
    rows = [*schedules(), *scripts(), *refusals(), *frames(), *words()]
    return {"crates/tank_rows/stdin": "".join(rows), "crates/tank_rows/stdout": f"rows: {len(rows)} passed, 0 bytes left over\n"}
