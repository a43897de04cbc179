"""A run of the program that is made event by event: each event is chosen with knowledge of what was
observed before it.

`Stepped` gives lines to `tank replay` and reads what is observed. The program writes what it
observed before it reads on, but does not say when an event's observations are complete. So the run
has one client more than the schedule, the *bell*: asked to read a file of a server that is not
configured, it answers at once, sends nothing, and changes nothing of any other node. Its answer
ends what is read. The schedule that is kept has no bell; its report differs only by the
bell's lines. If the head has all sixteen clients, one that no event mentions is the bell.
"""
import fcntl
import pathlib
import subprocess

import run_state

ROOT = pathlib.Path(__file__).resolve().parents[2]
MOST_CLIENTS = 15  # with more there is no room for a bell beside them
MOST_WAITING = 32  # events that are given without a `sync`: what is observed of this many has room in the pipe
ROOM = 1 << 20
F_SETPIPE_SZ = 1031  # of Linux


def program_path():
    """The path of the program that ./tank runs."""
    found = subprocess.run([ROOT / "tools/program"], stdout=subprocess.PIPE, text=True)
    if found.returncode != 0:
        raise SystemExit(found.returncode)
    return found.stdout.strip()


def report_of(program, lines):
    """The report's lines of a schedule."""
    ran = subprocess.run([program, "replay"], input="".join(line + "\n" for line in lines).encode("latin-1"), stdout=subprocess.PIPE)
    return ran.stdout.decode("latin-1").splitlines()


def head_line(head, clients):
    """The head's line with another number of clients."""
    values = [value for name, value in head.settings.items() if name not in ("CLIENTS", "SERVERS", "DISKS", "BLOCKS")]
    return " ".join(map(str, ["tank", head.form, *values, clients, head.servers, head.disks, head.blocks, *head.limits]))


class Refused(Exception):
    """The program refused an event of this run: the number of events that happened before it."""


class Stepped:
    """A run that goes on while events are given. `state` is what was reported up to the last
    `sync`.
    """

    def __init__(self, program, head, bell=None):
        self.head, self.state, self.lines, self.given, self.waiting = head, run_state.Told(head), [], 0, []
        self.bell, self.is_added = bell or f"c{head.clients + 1}", bell is None
        self.child = subprocess.Popen([program, "replay"], stdin=subprocess.PIPE, stdout=subprocess.PIPE)
        fcntl.fcntl(self.child.stdout, F_SETPIPE_SZ, ROOM)
        self.child.stdin.write((head_line(head, head.clients + self.is_added) + "\n").encode())
        self.child.stdin.flush()
        self.child.stdout.readline()

    def give(self, words):
        """Gives an event; it is observed at the next `sync`."""
        sent = list(words)
        if sent[0] == "adv" and len(sent) > 2 and self.is_added:
            sent.insert(1 + self.head.clients, sent[1])
        self.lines.append(" ".join(words))
        self.waiting.append(words)
        self.child.stdin.write((" ".join(sent) + "\n").encode("latin-1"))

    def sync(self):
        """Reads what is observed of all events that were given. Returns it by event, each as a list
        of words.
        """
        if not self.waiting:
            return []
        self.child.stdin.write(f"app {self.bell} read 65535:1 0\n".encode())
        try:
            self.child.stdin.flush()
        except BrokenPipeError:
            pass  # the program refused an event and ended: its last lines say so
        first, seen = self.given + 1, [[] for _ in self.waiting]
        self.given += len(self.waiting) + 1
        for line in self.child.stdout:
            words = line.decode("latin-1").rstrip("\n").split(" ")
            if words[0] in ("line", "end"):
                happened = int(words[1]) - 2 - (first - 1) if words[0] == "line" else 0
                raise Refused(len(self.lines) - len(self.waiting) + happened, words[2])
            if int(words[0]) == self.given:
                break
            seen[int(words[0]) - first].append(words[1:])
        else:
            raise SystemExit("the program ended without a last line")
        for words, observed in zip(self.waiting, seen):
            self.state.see(words, observed)
        self.waiting = []
        return seen

    def close(self):
        """Ends the program."""
        for stream in (self.child.stdin, self.child.stdout):
            try:
                stream.close()
            except BrokenPipeError:
                pass
        self.child.kill()
        self.child.wait()


def why_not(state, words):
    """Why the events' rules refuse this event now, as far as the run's texts tell; nothing if it
    is admissible. Of advances no premise is tried.
    """
    verb, number = words[0], int(words[1]) if words[0] in ("deliver", "lose", "effect", "report") else 0
    if verb in ("tick", "app", "crash"):
        return words[1] not in state.clocks or words[1] in state.down
    if verb == "start":
        return words[1] not in state.down
    if verb in ("cut", "heal"):
        return words[1] not in state.clocks or words[2] not in state.clocks
    if verb in ("deliver", "lose"):
        if not 1 <= number <= len(state.messages) or number in state.lost:
            return True
        it = state.messages[number - 1]
        return verb == "deliver" and ((it.sender, it.receiver) in state.cuts or it.receiver in state.down)
    if verb in ("effect", "report"):
        if not 1 <= number <= len(state.commands) or number in state.reports:
            return True
        if verb == "report":
            return words[2] == "ok" and number not in state.effects
        end = state.end_of(state.commands[number - 1])
        return number in state.effects or end is None or state.clocks[state.commands[number - 1].client] >= end
    return False
