"""What the tools that compare the program with reference/ share: their words, the program,
progress, and files of what differs.
"""
import argparse
import os
import pathlib
import sys
import tempfile
import time

import stepped_run

ROOT = pathlib.Path(__file__).resolve().parents[2]
sys.path.insert(0, str(ROOT))
KEPT = pathlib.Path(tempfile.gettempdir()) / "tank-differences"


def parser(tool, text):
    """A parser of words whose help is the tool's text, with the word --program that each of them
    has.
    """
    words = argparse.ArgumentParser(prog=f"tools/{tool}", description=text, formatter_class=argparse.RawDescriptionHelpFormatter)
    words.add_argument("--program", help="the program that is compared; without it, the one that ./tank runs")
    return words


def program_of(words):
    """The path of the program that is compared."""
    path = pathlib.Path(words.program or stepped_run.program_path()).resolve()
    if not os.access(path, os.X_OK) or path.is_dir():
        print(f"compare: there is no program {path}", file=sys.stderr)
        raise SystemExit(2)
    return str(path)


def kept(name, **texts):
    """Keeps the texts of a case that differs, each under its ending, and says where."""
    KEPT.mkdir(exist_ok=True)
    for ending, data in texts.items():
        (KEPT / f"{name}.{ending}").write_bytes(data)
    return KEPT / name


class Progress:
    """A line on standard error for each five seconds of a run."""

    def __init__(self, tool):
        self.tool, self.begun, self.told = tool, time.monotonic(), time.monotonic() + 5

    def tell(self, what):
        """Tells how far it is, if it is time to."""
        if time.monotonic() >= self.told:
            self.told += 5
            print(f"{self.tool}: {time.monotonic() - self.begun:.0f} s, {what}", file=sys.stderr, flush=True)
