"""Table tests: given schedules against their reports, the book's example, generated sums, and the
codec. Run: python3 -m unittest reference.test_table
"""

import glob
import hashlib
import os
import unittest

from . import wire
from .clocks import Drift, steal_wait
from .generator import generate, work_text
from .report import report_of
from .settings import Settings, settings_refusal
from .third import FORMS

ROOT = os.path.join(os.path.dirname(os.path.abspath(__file__)), "..")
FOLDERS = ("schedules", os.path.join("docs", "pictures"), os.path.join("tools", "rows"))


def indented_blocks(text):
    """The blocks of a text whose lines begin with four spaces."""
    return [block + "\n" for block in text.split("\n\n") if block.startswith("    ")]


class Tables(unittest.TestCase):
    def test_given_schedules(self):
        paths = [path for folder in FOLDERS for path in glob.glob(os.path.join(ROOT, folder, "**", "*.schedule"), recursive=True)]
        self.assertGreater(len(paths), 100)
        for path in paths:
            report = path[: -len("schedule")] + "report"
            forms = FORMS if os.path.basename(os.path.dirname(path)) == "third" else (1, 2)
            with self.subTest(path), open(path, "rb") as schedule, open(report, "rb") as expected:
                self.assertEqual(report_of(schedule.read(), forms).encode("latin-1"), expected.read())

    def test_example_of_the_book(self):
        with open(os.path.join(ROOT, "docs", "PROTOCOL.md"), encoding="utf-8") as book:
            example = book.read().split("### An example\n")[1].split("\n## ")[0]
        schedule, report = ("".join(line[4:] for line in block.splitlines(True)) for block in indented_blocks(example))
        self.assertEqual(report_of(schedule.encode()), report)

    def test_generated_sums(self):
        with open(os.path.join(ROOT, "schedules", "generated.sums")) as sums:
            for line in sums:
                if line.startswith("#"):
                    continue
                seed, digest, work = line.rstrip("\n").split(" ", 2)
                parts = []
                generate(2000, int(seed), parts.append)
                self.assertEqual(hashlib.sha256("".join(parts).encode()).hexdigest(), digest)
                self.assertEqual(work_text(2000, int(seed)), work)

    def test_third_form_is_asked_for(self):
        head = b"tank 3 1000 500 700 850 100 50 101 100 5 1 1 1 64 4096 1024 64 256 16\nend\n"
        self.assertEqual(report_of(head), "line 1 Syntax 6\n")
        self.assertEqual(report_of(head, FORMS).split("\n")[0], "tank report 1")

    def test_third_form_has_its_ranges(self):
        words = "tank 3 1000 500 700 850 100 50 101 100 5 64 8 16 268435456 16777216 4096 65536 1048576 4096".split()
        for place in range(11, 20):
            for change, is_good in ((0, True), (1, False)):
                changed = [*words]
                changed[place] = str(int(words[place]) + change)
                said = report_of((" ".join(changed) + "\nend\n").encode(), FORMS)
                self.assertEqual(said.startswith("tank report 1"), is_good, changed)

    def test_versions(self):
        keep = wire.Message(wire.KEEPALIVE, 1, wire.SERVER_BASE + 1, 1, 1, 1, 1, ())
        for form, good in ((1, True), (3, False)):
            reader = wire.FrameReader(form)
            reader.feed(wire.frame(keep) + wire.frame(keep._replace(number=2), form))
            self.assertEqual(reader.next(), keep if good else keep._replace(number=2))
        with self.assertRaises(wire.Refusal):
            wire.decode(wire.encode(keep, 3))
        far = keep._replace(sender=64, receiver=wire.SERVER_BASE + 8)
        self.assertEqual(wire.decode(wire.encode(far, 3), 3), far)
        with self.assertRaises(wire.Refusal):
            wire.decode(wire.encode(far))

    def test_settings(self):
        good = [1000, 500, 700, 850, 100, 50, 101, 100, 0]
        self.assertEqual(steal_wait(Settings(*good)), 1010)
        for place, value, refusal in (
            (0, 850, "Order"), (1, 0, "Order"), (7, 0, "Rate"), (6, 99, "Rate"), (6, 1048577, "Rate"), (5, 0, "Demand"), (5, 101, "Demand"),
            (4, 1001, "Demand"), (8, 1001, "Grain"), (8, 1000, None), (0, 2**40 + 1, "TooLong"), (0, 2**40, None),
        ):
            changed = list(good)
            changed[place] = value
            self.assertEqual(settings_refusal(Settings(*changed)), refusal)

    def test_drift_names_the_first_pair(self):
        settings = Settings(1000, 500, 700, 850, 100, 50, 101, 100, 2)
        drift = Drift(2)
        self.assertIsNone(drift.check(settings, (2, 0)))
        drift.step(settings, (2, 0))
        self.assertEqual(drift.check(settings, (1, 0)), (0, 1, 300))
        self.assertEqual(drift.check(settings, (0, 3)), (1, 0, 300))

    def test_codec(self):
        message = wire.Message(wire.ACQUIRE, 1, 32769, 1, 1, 1, 7, (2, 1))
        data = wire.encode(message)
        self.assertEqual(wire.decode(data), message)
        self.assertEqual(len(data), wire.size_of(message))
        for changed, refusal in (
            (data[:-1], ("Short",)), (data + b"x", ("Long",)), (b"\3" + data[1:], ("Version",)), (b"\2" + data[1:], ("Kind",)),
            (data[:1] + b"\13" + data[2:], ("Kind",)), (data[:2] + b"\0\0" + data[4:], ("Value", 2)), (data[:-1] + b"\3", ("Value", 42)),
        ):
            with self.assertRaises(wire.Refusal) as caught:
                wire.decode(changed)
            self.assertEqual((caught.exception.name, *caught.exception.values), refusal)


if __name__ == "__main__":
    unittest.main()
