"""Generated schedules. Chapter "Generated schedules"."""

from . import wire
from .schedule import event_line, read_head
from .report import summary_text
from .world import World

HEAD = "tank 1 1000 500 700 850 100 50 101 100 3 2 2 64"
TRIES = 16


class Draws:
    """Numbers drawn from a seed. Paragraph "Draws"."""

    def __init__(self, seed):
        self.state = seed

    def below(self, bound):
        """The next state, and the number below a bound that is drawn from it. Chapter "Generated
        schedules".
        """
        self.state = (self.state * 6364136223846793005 + 1442695040888963407) % 2**64
        return (self.state >> 33) % bound


class Generator:
    """Events drawn in the world that the events before lead to. Paragraphs "Candidates" and
    "Choice".
    """

    def __init__(self, seed):
        self.draws = Draws(seed)
        self.world = World(read_head(HEAD.encode()))

    def node(self):
        """A node is a number below 5. Chapter "Generated schedules"."""
        place = self.draws.below(5)
        return place + 1 if place < 3 else wire.SERVER_BASE + place - 2

    def client(self):
        """A client is c1 to c3. Chapter "Generated schedules"."""
        return 1 + self.draws.below(3)

    def file(self):
        """A file is server 1 or 2 and inode 2 to 9. Chapter "Generated schedules"."""
        server = 1 + self.draws.below(2)
        return server, 2 + self.draws.below(8)

    def recent(self, count, span):
        """One of the last of this many, or None if there are none and no further draw. Chapter
        "Generated schedules".
        """
        return count - self.draws.below(min(count, span)) if count else None

    def message(self):
        """One of the last 12 messages. Chapter "Generated schedules"."""
        return self.recent(len(self.world.messages), 12)

    def command(self):
        """One of the last 6 commands. Chapter "Generated schedules"."""
        return self.recent(len(self.world.origins), 6)

    def numbered(self, verb, number, *more):
        """An event on a number, or no candidate. Chapter "Generated schedules"."""
        return None if number is None else (verb, number, *more)

    def candidate(self):
        """A candidate for an event, or None. The table of "Candidates". Chapter "Generated
        schedules".
        """
        below = self.draws.below
        kind = below(16)
        if kind == 0:
            return "adv", (1 + below(60),) * 5
        if kind == 1:
            return "adv", tuple(100 + below(2) for _ in range(5))
        if kind in (2, 3):
            return "tick", self.node()
        if kind == 4:
            client, file, page = self.client(), self.file(), below(4)
            return "app", client, ("write", file, page, bytes((below(256),)) * wire.WHOLE_PAGE)
        if kind == 5:
            return "app", self.client(), ("read", self.file(), below(4))
        if kind == 6:
            return "app", self.client(), ("sync", self.file())
        if kind <= 10:
            return self.numbered("deliver", self.message())
        if kind == 11:
            return self.numbered("effect", self.command())
        if kind == 12:
            return self.numbered("report", self.command(), True)
        if kind == 13:
            command = self.command()
            return None if command is None else ("report", command, below(8) != 0)
        if kind == 14:
            which = below(3)
            if which == 0:
                return self.numbered("lose", self.message())
            return ("cut" if which == 1 else "heal"), self.node(), self.node()
        which = below(20)
        return ("crash" if which == 0 else "start" if which <= 9 else "tick"), self.node()

    def chosen(self):
        """The first admissible candidate of 16, or `heal c1 s1`. Paragraph "Choice". Chapter
        "Generated schedules".
        """
        for _ in range(TRIES):
            candidate = self.candidate()
            if candidate is not None and self.world.refusal(candidate) is None:
                return candidate
        return "heal", 1, wire.SERVER_BASE + 1

    def event(self):
        """The next event; it happens. Chapter "Generated schedules"."""
        event = self.chosen()
        self.world.step(event)
        return event


def generate(length, seed, write):
    """The text of the schedule of a length and a seed. Paragraph "Schedule". Chapter "Generated
    schedules".
    """
    generator = Generator(seed)
    write(HEAD + "\n")
    for _ in range(length):
        write(event_line(generator.event()) + "\n")
    write("end\n")


def work_text(length, seed):
    """The last line of the report of the generated run. Chapter "Generated schedules"."""
    generator = Generator(seed)
    for _ in range(length):
        generator.event()
    return summary_text(generator.world.summary())
