"""The scripts of the commands `journal`, `move`, `snap` and `shared`. Chapter "Scripts"."""

from .images import SnapScript
from .journal import JournalScript
from .moves import MoveScript
from .report import lines_of
from .schedule import LINE, LineRefused, Words
from .shared import SharedScript

EVENTS = 10000
COMMANDS = {"journal": JournalScript, "move": MoveScript, "snap": SnapScript, "shared": SharedScript}

class ScriptWords(Words):
    """The words of a script's line: all of them belong to one form."""

    def text(self, most):
        """A text of at most that many bytes from 33 to 126."""
        word, column = self.take()
        if not 1 <= len(word) <= most or not all(33 <= byte <= 126 for byte in word):
            raise LineRefused("Syntax", column)
        return word

    def done(self):
        """No word is left."""
        if self.more():
            raise LineRefused("Syntax", self.end)


class ScriptRun:
    """The run of a script, line by line. Chapter "Scripts"."""

    def __init__(self, command, write):
        self.kind, self.write = COMMANDS[command], write
        self.script = JournalScript() if command == "journal" else None
        self.lines = self.events = 0
        self.ended = False

    def line(self, line):
        """One line. A line that is none of the forms is LineRefused. Chapter "Scripts"."""
        if len(line) > LINE or self.ended:
            raise LineRefused("Malformed")
        words = ScriptWords(line)
        if self.script is None:
            self.script = self.kind(words)
            words.done()
        elif line == b"end":
            self.ended = True
        else:
            event = self.script.read(words)
            words.done()
            if self.events == EVENTS:
                raise LineRefused("Malformed")
            self.events += 1
            for answer in self.script.play(event):
                self.write(f"{self.events} {answer}\n")
        self.lines += 1


def run_script(command, pieces, write):
    """The text of a script. Whether it was whole. Chapter "Scripts"."""
    run = ScriptRun(command, write)
    try:
        for line in lines_of(pieces):
            run.line(line)
        if not run.ended:
            raise LineRefused("Malformed")
    except LineRefused:
        write(f"line {run.lines + 1} Malformed\n")
        return False
    write(run.script.last(run.events) + "\n")
    return True


def text_of(command, script):
    """The text of a script, as bytes."""
    parts = []
    run_script(command, [script], parts.append)
    return "".join(parts).encode("latin-1")
