"""Plays a schedule of any form: `python3 -m reference.third < SCHEDULE`. Chapter "The third form".
"""

import sys

from .report import replay
from .sources import Sink, pieces_of

FORMS = (1, 2, 3)


def main(source, output):
    """The report is written; 0 if the run went through its end, otherwise 1."""
    sink = Sink(output)
    status = 0 if replay(pieces_of(source), sink.write, FORMS) else 1
    sink.flush()
    return status


if __name__ == "__main__":
    sys.exit(main(sys.stdin.buffer, sys.stdout.buffer))
