"""The settings of a world. Chapter "Settings"."""

from typing import NamedTuple


class Settings(NamedTuple):
    """The nine numbers of a world. Chapter "Settings"."""

    lease: int
    renew: int
    quiesce: int
    flush: int
    demand: int
    retry: int
    num: int
    den: int
    grain: int


class Limits(NamedTuple):
    """The limits of a world, and whether its clients cooperate: those of the first two forms, if
    nothing is told. Chapter "Settings".
    """

    inodes: int = 4096
    locks: int = 1024
    dirty: int = 64
    clean: int = 256
    operations: int = 16
    cooperate: bool = False


def settings_refusal(settings):
    """The first fault of settings, or None. Chapter "Settings"."""
    if not 0 < settings.renew < settings.quiesce < settings.flush < settings.lease:
        return "Order"
    if settings.den == 0 or settings.num < settings.den or settings.num > 1048576:
        return "Rate"
    if settings.lease > 2**40:
        return "TooLong"
    if not 0 < settings.retry <= settings.demand <= settings.lease:
        return "Demand"
    if settings.grain > settings.lease:
        return "Grain"
    return None
