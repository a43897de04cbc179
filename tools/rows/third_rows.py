"""The worked schedules of the third form: schedules/third/, each with its report, written by
tools/rows/write.

A story says who asks what, which messages arrive and when; its lines and its report are what
reference/ does.
"""
import row_records  # noqa: F401  (it makes reference/ known)
from reference import wire
from reference.report import report_of
from reference.schedule import event_line, read_event, read_head
from reference.world import World

FORMS = (1, 2, 3)
HEAD = "tank 3 1000 500 700 850 100 50 101 100 5 {clients} 1 1 {blocks} {limits}"


class Story:
    """A schedule that is told, and its world."""

    def __init__(self, limits="4096 1024 64 256 16", clients=1, blocks=64):
        head = HEAD.format(clients=clients, blocks=blocks, limits=limits)
        self.head = read_head(head.encode(), FORMS)
        self.world, self.lines = World(self.head), [head]
        self.messages, self.commands, self.answers, self.held = [], [], [], ()

    def say(self, *lines):
        """These events happen."""
        for line in lines:
            event = read_event(line.encode(), self.head)
            if self.world.refusal(event) is not None:
                raise ValueError(f"{line}: {self.world.refusal(event)}")
            self.lines.append(line)
            for one in self.world.step(event):
                if one[0] == "sent":
                    self.messages.append(one[1])
                elif one[0] == "submit":
                    self.commands.append(one[1])
                elif one[0] == "answer":
                    self.answers.append(one[1])
        return self

    def kind(self, number):
        return wire.KIND_NAMES[self.world.messages[number - 1].kind]

    def hold(self, *kinds):
        """From now on messages of these kinds stay on the way."""
        self.held = kinds
        return self

    def deliver(self, *kinds):
        """The oldest message on the way of each of these kinds arrives."""
        for kind in kinds:
            number = next(number for number in self.messages if self.kind(number) == kind)
            self.messages.remove(number)
            self.say(f"deliver {number}")
        return self

    def settle(self, disks=True):
        """All messages on the way arrive in order, and disk commands take effect, until nothing is
        left.
        """
        while True:
            ready = [number for number in self.messages if self.kind(number) not in self.held]
            if ready:
                self.messages.remove(ready[0])
                self.say(f"deliver {ready[0]}")
            elif disks and self.commands:
                number = self.commands.pop(0)
                self.say(f"effect {number}", f"report {number} ok")
            else:
                return self

    def trip(self):
        """A message and a disk command take this time, all the same: what is on the way arrives."""
        messages, commands, self.messages, self.commands = self.messages, self.commands, [], []
        self.say("adv 2", *(f"deliver {number}" for number in messages))
        return self.say(*(line for number in commands for line in (f"effect {number}", f"report {number} ok")))

    def texts(self):
        schedule = "\n".join([*self.lines, "end", ""])
        return schedule, report_of(schedule.encode(), FORMS)


def used_once():
    """A demand arrives before the extents: the grant is used, and given back afterwards."""
    story = Story(clients=2).say("app c1 write 1:2 0 1").settle().say("app c2 write 1:2 0 2").deliver("hello", "welcome", "acquire")
    story.settle().hold("extents").say("app c1 write 1:2 1 3").settle().say("app c2 write 1:2 2 4").settle()
    return story.hold().settle().say("app c1 read 1:2 2").settle()


def room():
    """The third dirty page of two waits until the oldest one is written out."""
    return Story("4096 1024 2 256 16").say("app c1 write 1:2 0 1", "app c1 write 1:2 1 2").settle().say("app c1 write 1:2 2 3").settle(False).settle()


def room_failed():
    """Every dirty page failed, so there is no room to make: dirtyfull."""
    story = Story("4096 1024 1 256 16").say("app c1 write 1:2 0 1").settle().say("app c1 sync 1:2", "report 1 fail", "app c1 write 1:2 1 2")
    return story.settle(False)


def give_back():
    """With one lock at most, the lock of one file is given back for the next file, its dirty page
    written out first.
    """
    return Story("4096 1 64 256 16").say("app c1 write 1:2 0 1").settle().say("app c1 write 1:3 0 2").settle()


def give_back_stuck():
    """The only lock belongs to a file whose page failed: toomanylocks."""
    story = Story("4096 1 64 256 16").say("app c1 write 1:2 0 1").settle().say("app c1 sync 1:2", "report 1 fail", "app c1 write 1:3 0 2")
    return story.settle(False)


def leave():
    """A client leaves: its page is written out, its lock is released, its life ends, and the next
    one is welcome at once.
    """
    story = Story(clients=2).say("app c1 write 1:2 0 1").settle().say("app c1 leave 1").settle()
    return story.say("app c1 write 1:2 0 2", "app c2 read 1:2 0").settle()


def leave_unsynced():
    """A leave of a client that lost a page names the file."""
    story = Story().say("app c1 write 1:2 0 1").settle().say("adv 850", "tick c1")
    return story.say("report 1 fail", "adv 150", "tick c1", "app c1 leave 1", "app c1 sync 1:2")


def leave_fails():
    """A failed write answers the leave with diskfault; the next leave writes the page out."""
    story = Story().say("app c1 write 1:2 0 1").settle().say("app c1 leave 1", "report 1 fail", "app c1 leave 1", "tick c1")
    story.commands.remove(1)
    return story.settle()


def leave_suspected():
    """A client leaves while it still waits for a lock that no operation wants now. The lock is
    granted before its next life greets, so the server suspects it for that greeting.
    """
    story = Story(clients=2).say("app c2 read 1:2 0").settle().hold("demand").say("app c1 write 1:2 0 1").settle()
    story.say("adv 700", "tick c1").settle().say("app c1 leave 1").hold("hello").settle()
    return story.hold().settle()


def answered():
    """Two locks are demanded at once. The second demand comes again while its release waits after
    the first one, and is answered.
    """
    story = Story(clients=2).say("app c1 read 1:2 0").settle().say("app c1 read 1:3 0").settle().hold("ack")
    story.say("app c2 write 1:2 0 1").settle().say("app c2 write 1:3 0 2").settle().say("adv 60", "tick s1").settle()
    return story.hold().settle()


def answer_late():
    """Two trips take the demand time. A demand is answered as it arrives, and the tick of
    the server comes before the answer, so the client is suspected.
    """
    story = Story(clients=2).say("app c1 read 1:2 0").settle().hold("demand", "demandseen", "released").say("app c2 write 1:2 0 1").settle()
    story.say("adv 50").hold("demandseen", "released").settle()
    return story.say("adv 50", "tick s1").hold().settle()


def fresh():
    """A welcome of a lease as old as renew is ignored, and the client greets again."""
    story = Story().say("app c1 write 1:2 0 1").deliver("hello").say("adv 500").deliver("welcome")
    return story.say("tick c1").settle()


def run_of_pages():
    """Three new pages are asked for at once, in one allocation."""
    return Story().hold("welcome").say("app c1 write 1:2 0 1", "app c1 write 1:2 1 2", "app c1 patch 1:2 2 5 3 9").settle().hold().settle()


def run_on_two_blocks():
    """A disk with two free blocks: the run of three pages becomes one of two, and the third page
    finds no space.
    """
    story = Story(blocks=2).hold("welcome").say("app c1 write 1:2 0 1", "app c1 write 1:2 1 2", "app c1 write 1:2 2 3")
    return story.settle().hold().settle()


def two_writers():
    """Two clients write one page three times each, while all messages take equal times."""
    story = Story(clients=2).say("app c1 write 1:2 0 1", "app c2 write 1:2 0 2")
    while len(story.answers) < 6:
        answered = len(story.answers)
        story.trip()
        for client in story.answers[answered:]:
            if story.answers.count(client) < 3:
                story.say(f"app c{client} write 1:2 0 {client + 2 * story.answers.count(client)}")
    return story


STORIES = {
    "used-once": used_once, "room": room, "room-failed": room_failed, "give-back": give_back, "give-back-stuck": give_back_stuck, "leave": leave,
    "leave-suspected": leave_suspected, "leave-unsynced": leave_unsynced, "leave-fails": leave_fails, "answered": answered,
    "answer-late": answer_late, "fresh-welcome": fresh, "run": run_of_pages, "run-on-two-blocks": run_on_two_blocks, "two-writers": two_writers,
}


def files():
    """The schedules and reports, by their paths."""
    found = {}
    for name, story in STORIES.items():
        found[f"schedules/third/{name}.schedule"], found[f"schedules/third/{name}.report"] = story().texts()
    return found
