"""A run of the third form that is made event by event, as `Stepped` makes one of the first two:
reference/ plays it, and what must hold is checked after each event.
"""
import comparing  # noqa: F401  (it makes reference/ known)
import run_state
import stepped_run
import third_form
from reference.report import observation_text, report_of as reference_report
from reference.schedule import read_event, read_head
from reference.world import World


def report_of(lines):
    """The report's lines of a schedule."""
    return reference_report("".join(line + "\n" for line in lines).encode("latin-1"), third_form.FORMS).splitlines()


class Played:
    """A run that goes on while events are given. `state` is what was reported up to the last
    `sync`; `counts` is what happened.
    """

    def __init__(self, head):
        self.head, self.state, self.lines, self.waiting = head, run_state.Told(head), [], []
        self.read = read_head(stepped_run.head_line(head, head.clients).encode(), third_form.FORMS)
        self.world = World(self.read)
        self.counts = third_form.Watch(self.world).counts

    def give(self, words):
        """Gives an event; it is observed at the next `sync`."""
        self.lines.append(" ".join(words))
        self.waiting.append(words)

    def sync(self):
        """What is observed of all events that were given, by event, each as a list of words."""
        seen, waiting, self.waiting = [], self.waiting, []
        for at, words in enumerate(waiting):
            event = read_event(" ".join(words).encode("latin-1"), self.read)
            refusal = self.world.refusal(event)
            if refusal is not None:
                raise stepped_run.Refused(len(self.lines) - len(waiting) + at, refusal[0])
            seen.append([observation_text(one).split(" ") for one in self.world.step(event)])
            self.state.see(words, seen[-1])
        return seen

    def close(self):
        """Nothing is open."""
