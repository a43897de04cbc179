"""Grace and reassertion. Chapter "Grace and reassertion"."""


class Grace:
    """The grace of an epoch: its start, or None if the epoch has none. Chapter "Grace and
    reassertion".
    """

    def __init__(self, start=None):
        self.start = start

    def is_on(self, now, wait):
        """Grace is on while the clock is below the start and the steal wait. Chapter "Grace and
        reassertion".
        """
        return self.start is not None and now < self.start + wait

    def told_start(self):
        """The start of this epoch's grace, or 0 if it had none. Chapter "Grace and reassertion".
        """
        return 0 if self.start is None else self.start


def reassertion_refusal(grace, now, wait, table, client, life, rows):
    """Rule "Accepting a reassertion": the first refusal (cause, a, b) before installing, or None.
    Chapter "Grace and reassertion".
    """
    if not grace.is_on(now, wait):
        return "graceover", grace.told_start(), now
    for ino, grant, _ in rows:
        if grant >= table.epoch * 2**32:
            return "notholder", ino, grant
    lower = [ino for ino, of in table.rows.items() if client in of and of[client].life < life]
    if lower:
        return "conflict", min(lower), client
    return None
