"""Work that several processors share until the time is over: each part counts what it did, and
tells what it found.
"""
import argparse
import collections
import multiprocessing
import os
import time

import comparing
import running

ACCEPTED = "st_laws_volume:Witness.Accepted"

done = None  # what all parts did so far


def share(counter):
    global done
    done = counter


class Part:
    """One processor's part. A subclass has `turn(number)`, which is called until the time is over
    or enough was found.
    """

    def __init__(self, words, place):
        self.words, self.place = words, place
        self.counts, self.found = collections.Counter(), []

    def did(self, number):
        """Adds what was done to the progress that is told."""
        if done is not None:
            with done.get_lock():
                done.value += number

    def run(self):
        end, number = time.monotonic() + self.words.seconds, 0
        while time.monotonic() < end and len(self.found) < self.words.until:
            number += 1
            self.turn(number)
        return self.counts, self.found


def run_part(given):
    kind, words, place = given
    return kind(words, place).run()


def run_parts(kind, words, tool, what):
    """What all parts counted, and what they found."""
    counter, progress = multiprocessing.Value("L", 0), comparing.Progress(tool)
    counts, found = collections.Counter(), []
    with multiprocessing.Pool(words.processors, share, (counter,)) as pool:
        waited = pool.map_async(run_part, [(kind, words, place) for place in range(words.processors)], chunksize=1)
        while not waited.ready():
            waited.wait(0.2)
            progress.tell(f"{counter.value} {what}")
        for counted, told in waited.get():
            counts.update(counted)
            found += told
    return counts, found


def parser(tool, text):
    """A parser of words whose help is the tool's text."""
    return argparse.ArgumentParser(prog=f"tools/definitions/{tool}", description=text, formatter_class=argparse.RawDescriptionHelpFormatter)


def add_words(parser, lengths):
    """The words that the tools with parts share."""
    parser.add_argument("seconds", type=float, nargs="?", metavar="SECONDS")
    parser.add_argument("seed", nargs="?", metavar="SEED", help="any word")
    parser.add_argument("--processors", type=int, default=1, metavar="N", help="how many processes work at the same time (1)")
    parser.add_argument("--lengths", type=lambda text: tuple(map(int, text.split(","))), default=lengths, metavar="N,..",
                        help=f"how many events a run may have: one of these is drawn ({','.join(map(str, lengths))})")
    parser.add_argument("--until", type=int, default=20, metavar="N", help="a processor ends if it found this many (20)")
    parser.add_argument("--crates", default=str(comparing.ROOT / "crates"), metavar="FOLDER", help="the definitions are of this folder")
    add_promises(parser)


def add_promises(parser):
    """The words that say which promises are judged."""
    parser.add_argument("--more", action="append", default=[], metavar="MODULE.NAME", help="also a promise of st_promises/specs, or of a CRATE:MODULE")
    parser.add_argument("--only", action="store_true", help="only the promises that --more names")
    parser.add_argument("--volume", action="store_true", help="only that the volume accepts each step; for plants, those of volume_plants.py")


def parsed(parser):
    """The words that were given, with what --volume stands for."""
    words = parser.parse_args()
    if words.volume:
        words.only, words.more = True, [*words.more, ACCEPTED]
        if "plants" in words:
            words.plants = "volume_plants"
    if words.only:
        os.environ[running.ONLY_MORE] = "1"
    return words
