"""A file that clients write without caches, and its script. Chapters "Shared writing without
caches", "Scripts".
"""

from .disks import Disks
from .schedule import runs_text

FILE = 1, 2


class SharedFile:
    """The clients that are in, the lock row, the disk and its commands. Chapter "Shared writing
    without caches".
    """

    def __init__(self, blocks):
        self.blocks, self.disks = blocks, Disks()
        self.stopped = {}  # the clients that are in: whether each is stopped
        self.row = None  # the client that has the lock row
        self.commands = []  # each one's client, whether it stopped since, and whether it expired since

    def running(self, c):
        """Rule "Running"."""
        if c not in self.stopped:
            return "notin"
        return f"stopped {c}" if self.stopped[c] else None

    def enter(self, c):
        """Rule "Enter"."""
        if self.stopped.get(c):
            return f"stopped {c}"
        if self.row is not None:
            return f"held {self.row}"
        self.stopped[c] = False
        return "ok"

    def leave(self, c):
        """Rule "Leave"."""
        refusal = self.running(c)
        if refusal is not None:
            return refusal
        for number, command in enumerate(self.commands, 1):
            if command[0] == c and not self.disks.commands[number - 1].reported:
                return f"busy {number}"
        del self.stopped[c]
        return "ok"

    def lock(self, c):
        """Rule "Lock"."""
        if self.stopped:
            return f"shared {min(self.stopped)}"
        if self.row not in (None, c):
            return f"held {self.row}"
        self.row = c
        return "ok"

    def unlock(self, c):
        """Rule "Unlock"."""
        if self.row != c:
            return "nolock"
        self.row = None
        return "ok"

    def crash(self, c):
        """Rule "Crash"."""
        refusal = self.running(c)
        if refusal is not None:
            return refusal
        self.stopped[c] = True
        self.mark(c, 1)
        return "ok"

    def expire(self, c):
        """Rule "Expire"."""
        if not self.stopped.get(c):
            return f"notstopped {c}"
        del self.stopped[c]
        self.mark(c, 2)
        return "ok"

    def mark(self, c, place):
        """The commands of a client are of one that stopped or expired since."""
        for command in self.commands:
            if command[0] == c:
                command[place] = True

    def submit(self, c, page, data):
        """Rule "Submit"."""
        refusal = self.running(c)
        if refusal is not None:
            return refusal
        if page >= self.blocks:
            return f"nopage {page}"
        self.commands.append([c, False, False])
        return f"command {self.disks.submit(1, page, data and (*FILE, page, 1, data))}"

    def effect(self, number):
        """Rule "Effect": a refusal, or None."""
        refusal = self.disks.effect_refusal(number)
        if refusal is not None:
            return f"{refusal.lower()} {number}"
        if self.commands[number - 1][2]:
            return f"late {number}"
        self.disks.effect(number)
        return None

    def report(self, number, success):
        """Rule "Report"."""
        refusal = self.disks.report_refusal(number, success)
        if refusal is not None:
            return f"{refusal.lower()} {number}"
        self.disks.report(number)
        command = self.disks.commands[number - 1]
        if self.commands[number - 1][1]:
            return "silent"
        if not success:
            return "failed"
        return "hard" if command.write is not None else f"read {runs_text(command.sample[4])}"


class SharedScript:
    """The command `shared`. Chapter "Scripts"."""

    def __init__(self, words):
        """The first line."""
        words.choice("shared")
        self.clients = words.number(1, 16)
        self.file = SharedFile(words.number(1, 4096))

    @staticmethod
    def read(words):
        """An event of a line. Chapter "Scripts", "shared"."""
        verb = words.choice("enter", "leave", "lock", "unlock", "crash", "expire", "write", "read", "effect", "report")
        number = words.number(1, 2**32 - 1 if verb in ("effect", "report") else 16)
        if verb == "write":
            return "submit", number, words.page(), bytes((words.number(0, 255),)) * 4096
        if verb == "read":
            return "submit", number, words.page(), None
        return (verb, number, words.choice("ok", "fail") == "ok") if verb == "report" else (verb, number)

    def play(self, event):
        """The answers of an event. Chapter "Scripts", "shared"."""
        if event[0] not in ("effect", "report") and event[1] > self.clients:
            return [f"noclient {event[1]}"]
        answer = getattr(self.file, event[0])(*event[1:])
        return [] if answer is None else [answer]

    def last(self, events):
        """The last line."""
        return f"end events {events} commands {len(self.file.commands)}"
