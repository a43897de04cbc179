"""Tests the scripts of scripts/ with the reference: each has the text beside it."""

import pathlib
import unittest

from .scripts import COMMANDS, text_of

FOLDER = pathlib.Path(__file__).resolve().parent.parent / "scripts"


class Scripts(unittest.TestCase):
    def test_each_script_has_its_text(self):
        for command in COMMANDS:
            for script in sorted((FOLDER / command).glob("*.script")):
                with self.subTest(script=str(script)):
                    self.assertEqual(text_of(command, script.read_bytes()), script.with_suffix(".text").read_bytes())


if __name__ == "__main__":
    unittest.main()
