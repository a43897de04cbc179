"""The text of traces: what a node of a real run got and said, line by line, as docs/RUNS.md,
"Traces", has it.

`Trace` writes one, for `tools/tankd`; `read` reads one, for `tools/record`. Messages are written
there as the bytes of their frames without the length, in hexadecimal digits; a run of sixteen or
more equal bytes is `(XX*COUNT)`.
"""
import os
import re
import struct
from typing import NamedTuple, Optional

RUN = re.compile(rb"(.)\1{15,}", re.DOTALL)
RUN_TEXT = re.compile(r"([0-9a-f]{2})\*([0-9]+)\)(.*)")
LOW, MADE, UNMADE = "..", "?", "-"
TAG = struct.Struct(">HIIQ")  # of a block in the file of the disks: server, inode, page, birth; the page's bytes follow
PAGE, SLOT = 4096, 8192


class Wrong(Exception):
    """A line that is none of a trace, with its place."""


class Head(NamedTuple):
    """The first line of each start of a node: its name, and the settings and counts of the run, as
    in a head of the second form.
    """

    node: str
    words: tuple


class Start(NamedTuple):
    """The node was started again; the moment, and the reading of its clock."""

    at: int
    reading: int


class Step(NamedTuple):
    """The node took a message. `outputs` is None if it stopped before they left it. The reading
    lies between the two.
    """

    at: int
    low: int
    high: int
    taken: bytes
    outputs: Optional[tuple]


class Effect(NamedTuple):
    """The node's disk command of this number had its effect, at this moment at the latest."""

    at: int
    command: int


class End(NamedTuple):
    """The node was ended in order."""

    at: int


def message_text(data):
    """A message's bytes as they are in a trace."""
    parts, place = [], 0
    for run in RUN.finditer(data):
        parts += [data[place:run.start()].hex(), f"({run.group(1).hex()}*{run.end() - run.start()})"]
        place = run.end()
    return "".join(parts) + data[place:].hex()


def message_bytes(text):
    """The bytes of a message's text."""
    first, *runs = text.split("(")
    try:
        parts = [bytes.fromhex(first)]
        for run in runs:
            byte, count, more = RUN_TEXT.fullmatch(run).groups()
            parts += [bytes.fromhex(byte) * int(count), bytes.fromhex(more)]
    except (AttributeError, ValueError):
        raise Wrong(f"no message {text[:40]}") from None
    return b"".join(parts)


class Trace:
    """A trace that is written. A step's line is begun before the step, and ended before what the
    step gave leaves the node.
    """

    def __init__(self, path, node, words):
        self.file = os.open(path, os.O_WRONLY | os.O_CREAT | os.O_APPEND, 0o644)
        self.write(f"trace 1 {node} {' '.join(words)}\n")

    def write(self, text):
        """Gives the text to the system, so that it outlives this process."""
        data = text.encode("ascii")
        while data:
            data = data[os.write(self.file, data):]

    def begin(self, at, reading, taken):
        self.write(f"step {at} {reading} {message_text(taken)}")

    def finish(self, outputs):
        self.write(" >" + "".join(" " + message_text(data) for data in outputs) + "\n")

    def step(self, at, low, high, taken, outputs):
        """A whole step, of a node whose clock is read between two readings."""
        self.begin(at, low if low == high else f"{low}{LOW}{high}", taken)
        self.finish(outputs)

    def begin_start(self, at, reading):
        """Begins the line of a start, which is ended when the file that outlives a crash has the
        start.
        """
        self.write(f"start {at} {reading}")

    def finish_start(self):
        self.write("\n")

    def effect(self, at, command):
        self.write(f"effect {at} {command}\n")

    def end(self, at):
        self.write(f"end {at}\n")

    def sync(self):
        os.fsync(self.file)


def mend(path, was_made):
    """Ends the line of a step or a start in which the node stopped; `was_made` says whether the
    change of this moment outlived the stop.
    """
    with open(path, "r+b") as file:
        last = file.read().rsplit(b"\n", 1)[-1].decode("ascii", "replace")
        if last:
            words = last.split(" ")
            is_made = len(words) > 2 and words[1].isdigit() and was_made(int(words[1]))
            file.write(f" {MADE if is_made else UNMADE}\n".encode())


def reading_of(word):
    """The least and the greatest reading that a word tells."""
    low, _, high = word.partition(LOW)
    return int(low), int(high or low)


def step_of(words):
    """The step of a line's words."""
    if words[-1] != MADE and words[4] != ">":
        raise Wrong("a step without its outputs")
    outputs = None if words[-1] == MADE else tuple(map(message_bytes, words[5:]))
    return Step(int(words[1]), *reading_of(words[2]), message_bytes(words[3]), outputs)


def line_of(words):
    """What a line's words tell; None if that is nothing."""
    if words[-1] == UNMADE:
        return None
    if words[:2] == ["trace", "1"] and len(words) > 3:
        return Head(words[2], tuple(words[3:]))
    if words[0] == "step":
        return step_of(words)
    if words[0] == "start" and words[3:] in ([], [MADE]):
        return Start(int(words[1]), int(words[2]))
    if words[0] == "effect" and len(words) == 3:
        return Effect(int(words[1]), int(words[2]))
    if words[0] == "end" and len(words) == 2:
        return End(int(words[1]))
    raise Wrong("no line of a trace")


def read(path):
    """The lines of a trace, each with its number; one that is cut at the trace's end was not made.
    """
    with open(path, encoding="ascii", errors="replace") as file:
        for number, line in enumerate(file, 1):
            if not line.endswith("\n"):
                return
            try:
                told = line_of(line[:-1].split(" "))
            except (Wrong, ValueError, IndexError) as fault:
                raise Wrong(f"{path}: line {number}: {fault}") from None
            if told is not None:
                yield number, told


def block_place(disk, block, blocks):
    """Where a block begins in the file of the disks, each of which has that many blocks."""
    return ((disk - 1) * blocks + block) * SLOT


def block_parts(data):
    """The tag and the page of a block's bytes; what the file does not have is zeros."""
    data = data.ljust(TAG.size + PAGE, b"\0")
    return (*TAG.unpack_from(data), data[TAG.size:TAG.size + PAGE])


def block_of(path, disk, block, blocks):
    """What the file of the disks has of a block."""
    with open(path, "rb") as file:
        file.seek(block_place(disk, block, blocks))
        return block_parts(file.read(TAG.size + PAGE))
