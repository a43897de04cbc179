"""Modes of locks. Chapter "The cast", paragraph "Modes"."""

NONE, SHARED, EXCLUSIVE = 0, 1, 2


def conflicts(one, other):
    """Whether two held modes conflict: all pairs but shared with shared. Chapter "The cast"."""
    return one != NONE and other != NONE and (one == EXCLUSIVE or other == EXCLUSIVE)


def covers(held, wanted):
    """A lock covers a mode that is not above its own. Chapter "The cast"."""
    return wanted <= held
