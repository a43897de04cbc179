"""The program. Chapter "The program"."""

import sys

from .clocks import ListedClock
from .generator import generate, work_text
from .node import Node, serve
from .report import replay
from .scripts import COMMANDS, run_script
from .sources import Failed, Sink, pieces_of

USAGE = "usage: tank replay | generate N SEED | work N SEED | node server|client ID NAME | journal | move | snap | shared"


def decimal(word, low, high):
    """A number's word without a leading zero and in its range, or None."""
    if not word or not word.isascii() or not word.isdigit() or (len(word) > 1 and word[0] == "0") or len(word) > 20:
        return None
    return int(word) if low <= int(word) <= high else None


def length_and_seed(words):
    """N and SEED, or None."""
    if len(words) != 2:
        return None
    length, seed = decimal(words[0], 0, 100000), decimal(words[1], 0, 2**64 - 1)
    return None if length is None or seed is None else (length, seed)


def main(words, source, output, errors):
    """The status of a call. The table of "The program"."""
    sink = Sink(output)
    try:
        if words == ["replay"]:
            status = 0 if replay(pieces_of(source), sink.write) else 1
            sink.flush()
            return status
        if len(words) == 1 and words[0] in COMMANDS:
            status = 0 if run_script(words[0], pieces_of(source), sink.write) else 1
            sink.flush()
            return status
        if words[:1] in (["generate"], ["work"]):
            numbers = length_and_seed(words[1:])
            if numbers is not None:
                if words[0] == "generate":
                    generate(*numbers, sink.write)
                else:
                    sink.write(work_text(*numbers) + "\n")
                sink.flush()
                return 0
        if words[:1] == ["node"] and len(words) in (4, 5) and words[1] in ("server", "client"):
            number = decimal(words[2], 1, 4 if words[1] == "server" else 16)
            if number is not None:
                return run_node(words[1], number, words[3], words[4:], source, output, errors)
    except Failed as fault:
        errors.write(f"tank: {fault.args[0]} failed\n")
        return 3 if fault.args[0] == "read" else 4
    errors.write(USAGE + "\n")
    return 2


def run_node(role, number, readings, files, source, output, errors):
    """A node over frames of a file or the standard input, with the clock's readings handed in:
    `1,5,900`.
    """
    clock = ListedClock(int(reading) for reading in readings.split(","))
    stream = open(files[0], "rb") if files else source
    stop = serve(Node(role, number), pieces_of(stream), clock, output.write)
    output.flush()
    if stop is not None:
        errors.write(stop + "\n")
        return 1
    return 0


if __name__ == "__main__":
    sys.exit(main(sys.argv[1:], sys.stdin.buffer, sys.stdout.buffer, sys.stderr))
