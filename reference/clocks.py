"""Clocks and leases. Chapter "Clocks and leases"."""

VALID, RENEWAL, QUIESCE, FLUSH, EXPIRED = "valid", "renewal", "quiesce", "flush", "expired"


def steal_wait(settings):
    """The least W with W * den >= lease * num + den * grain. Chapter "Clocks and leases"."""
    needed = settings.lease * settings.num + settings.den * settings.grain
    return -(-needed // settings.den)


def advance_in_bound(settings, increments):
    """An advance in bound, judged by itself. Chapter "Clocks and leases"."""
    greatest, least = max(increments), min(increments)
    return least >= 1 and settings.den * greatest <= settings.num * least


class Drift:
    """One number for each pair of nodes. Chapter "Clocks and leases", rule "Drift"."""

    def __init__(self, nodes):
        self.excess = [[0] * nodes for _ in range(nodes)]

    def check(self, settings, increments):
        """The first pair whose number would come above den * grain, with that number, or None.
        Chapter "Clocks and leases".
        """
        bound = settings.den * settings.grain
        for m, row in enumerate(self.excess):
            gained = settings.den * increments[m]
            for n, before in enumerate(row):
                number = before + gained - settings.num * increments[n]
                if number > bound:
                    return m, n, number
        return None

    def step(self, settings, increments):
        """Take an accepted advance: each number is the greatest over intervals that end now, or 0.
        Chapter "Clocks and leases".
        """
        for m, row in enumerate(self.excess):
            gained = settings.den * increments[m]
            self.excess[m] = [max(0, before + gained - settings.num * increments[n]) for n, before in enumerate(row)]


def phase(settings, date, condemned, now):
    """The phase of a lease by its age. Chapter "Clocks and leases", rule "The phase of a lease"."""
    age = now - date
    if age >= settings.lease:
        return EXPIRED
    if age >= settings.flush:
        return FLUSH
    if age >= settings.quiesce or condemned:
        return QUIESCE
    if age >= settings.renew:
        return RENEWAL
    return VALID


def lease_end(settings, date):
    """The lease end is date and lease. Chapter "Clocks and leases"."""
    return date + settings.lease


class ListedClock:
    """A clock that gives a list of readings and then its last one. Chapter "Clocks of a node",
    `MemoryClock`.
    """

    def __init__(self, readings):
        self.readings = list(readings)
        self.place = 0

    def read(self):
        """The next reading; the last one is repeated. Chapter "Clocks and leases"."""
        reading = self.readings[min(self.place, len(self.readings) - 1)]
        self.place += 1
        return reading
