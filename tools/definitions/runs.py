"""Random runs of the definitions, with every promise evaluated at each step."""
import random

import compare_schedules
import comparing
import parts
import running
import third_form


class Runs(parts.Part):
    """Random runs, judged."""

    def __init__(self, words, place):
        super().__init__(words, place)
        self.definitions = running.Definitions(words.crates, words.more, words.change)

    def turn(self, number):
        rng = random.Random(f"{self.words.seed} {self.place} {number}")
        length = rng.choice(self.words.lengths)
        if self.words.asks == running.THIRD_ASKS and number % 8 == 0 and self.words.driven:
            head, events = third(f"{self.words.seed} {self.place}", number, length)
        elif number % 8 or not self.words.driven:
            head, events = self.definitions.drawn(rng.randrange(2**32), length, self.words.asks or rng.choice(("all", "all", "names", "cuts")))
        else:
            head, events = driven(rng, length)
        self.judge(head, events, f"promises-{self.words.seed}-{self.place}-{number}")

    def judge(self, head, events, name):
        steps, broken = self.definitions.judged(head, events)
        self.counts["runs"] += 1
        self.counts["steps"] += steps
        self.did(steps)
        if broken:
            path = comparing.kept(name, schedule=running.schedule_of(head, events))
            self.found.append((f"{path}.schedule", broken))


def third(seed, number, length):
    """The head and the events of a run of the third form that the world of reference/ drives."""
    driver, _, _ = third_form.hostile(seed, number)
    driver.run(length)
    return running.read(driver.finish(None)[0])[:2]


def driven(rng, length):
    """The head and the events of a run that the world of reference/ drives."""
    driver = compare_schedules.Driver(rng, compare_schedules.random_head(rng) if rng.random() < 0.3 else compare_schedules.contended_head(rng))
    driver.run(length)
    return running.read(driver.finish(None)[0])[:2]
