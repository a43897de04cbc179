"""The lock table of a server. Chapter "Locks"."""

from .modes import EXCLUSIVE, NONE, SHARED, conflicts, covers


class Demand:
    """What is demanded of a row: the mode to go to, since when it waits for an answer (None:
    answered), when it was sent.
    """

    __slots__ = ("to", "since", "sent")

    def __init__(self, to, since, sent):
        self.to, self.since, self.sent = to, since, sent


class Row:
    """A lock of a client on a file. Chapter "Locks"."""

    __slots__ = ("life", "grant", "mode", "demand")

    def __init__(self, life, grant, mode):
        self.life, self.grant, self.mode, self.demand = life, grant, mode, None


class Wait:
    """A client that waits for a lock on a file. Chapter "Locks"."""

    __slots__ = ("life", "mode")

    def __init__(self, life, mode):
        self.life, self.mode = life, mode


class LockTable:
    """Rows by file and client, and waits by file and client in order of arrival. Chapter "Locks".
    """

    def __init__(self, epoch, limit=1024):
        self.epoch, self.limit = epoch, limit
        self.grants = 0
        self.rows = {}
        self.waits = {}

    def row(self, ino, client):
        """The client's row on a file, or None. Chapter "Locks"."""
        return self.rows.get(ino, {}).get(client)

    def has_rows(self, client):
        """Whether the client has a row at all. Chapter "Locks"."""
        return any(client in rows for rows in self.rows.values())

    def files_of(self, client):
        """How many files the client has a row or a wait on. Rule "Acquire". Chapter "Locks"."""
        files = {ino for ino, rows in self.rows.items() if client in rows}
        files.update(ino for ino, waits in self.waits.items() if client in waits)
        return len(files)

    def others_conflict(self, ino, client, mode):
        """Whether another client's row on the file conflicts with the mode. Chapter "Locks"."""
        return any(other != client and conflicts(row.mode, mode) for other, row in self.rows.get(ino, {}).items())

    def grant(self, ino, client, life, mode):
        """Rule "Grant": a row with the next grant number and without a demand; the client's wait
        goes. Chapter "Locks".
        """
        self.grants += 1
        row = Row(life, self.epoch * 2**32 + self.grants, mode)
        self.rows.setdefault(ino, {})[client] = row
        self.forget_wait(ino, client)
        return row

    def forget_wait(self, ino, client):
        """The client's wait for the file goes. Chapter "Locks"."""
        waits = self.waits.get(ino)
        if waits is not None and client in waits:
            del waits[client]
            if not waits:
                del self.waits[ino]

    def queue(self, ino, client, life, mode):
        """Rule "Queue": the greater mode at the old place, or a new wait at the end. Chapter
        "Locks".
        """
        waits = self.waits.setdefault(ino, {})
        old = waits.get(client)
        if old is None:
            waits[client] = Wait(life, mode)
        else:
            old.mode = max(old.mode, mode)

    def acquire(self, ino, client, life, mode, may_grant):
        """Rule "Acquire": ("granted", row), ("toomany",) or ("queued",). Chapter "Locks"."""
        row = self.row(ino, client)
        if row is not None and covers(row.mode, mode):
            return "granted", row
        waits = self.waits.get(ino, {})
        if row is None and client not in waits and self.files_of(client) >= self.limit:
            return ("toomany",)
        if may_grant and not any(other != client for other in waits) and not self.others_conflict(ino, client, mode):
            return "granted", self.grant(ino, client, life, mode)
        self.queue(ino, client, life, mode)
        return ("queued",)

    def release(self, ino, client, life, grant, to):
        """Rule "Release": only if the client's row has the file, the life and the grant number.
        Chapter "Locks".
        """
        row = self.row(ino, client)
        if row is None or row.life != life or row.grant != grant:
            return
        if to == NONE:
            self.forget_row(ino, client)
            return
        row.mode = SHARED
        if row.demand is not None:
            if row.demand.to == SHARED:
                row.demand = None
            else:
                row.demand.since = None

    def forget_row(self, ino, client):
        """The client's row on the file goes. Chapter "Locks"."""
        rows = self.rows[ino]
        del rows[client]
        if not rows:
            del self.rows[ino]

    def forget_client(self, client):
        """Rule "Forgetting": all rows and waits of a client. Chapter "Locks"."""
        for ino in [ino for ino, rows in self.rows.items() if client in rows]:
            self.forget_row(ino, client)
        self.forget_waits(client)

    def forget_waits(self, client):
        """Rule "Forgetting": only the waits of a client. Chapter "Locks"."""
        for ino in list(self.waits):
            self.forget_wait(ino, client)

    def forget_waits_for(self, ino):
        """Rule "Forgetting": all waits for a file. Chapter "Locks"."""
        self.waits.pop(ino, None)

    def install(self, client, life, rows):
        """Rule "Installing": all rows, or none and the first that conflicts with the least client.
        Chapter "Locks".
        """
        for ino, _, mode in rows:
            against = [other for other, row in self.rows.get(ino, {}).items() if other != client and conflicts(row.mode, mode)]
            if against:
                return ino, min(against)
        for ino, grant, mode in rows:
            self.rows.setdefault(ino, {})[client] = Row(life, grant, mode)
        return None

    def demand_seen(self, ino, client, grant):
        """Rule "A seen demand" no longer waits for an answer. Chapter "Locks"."""
        row = self.row(ino, client)
        if row is not None and row.grant == grant and row.demand is not None:
            row.demand.since = None

    def suspecting(self, now, patience):
        """Rule "Suspecting" (the list): clients that left a demand unanswered for that long,
        rising. Chapter "Locks".
        """
        return sorted({
            client
            for rows in self.rows.values()
            for client, row in rows.items()
            if row.demand is not None and row.demand.since is not None and now - row.demand.since >= patience
        })

    def granting(self):
        """Rule "Granting" (the pass): the grants (file, client, row), in order. Chapter "Locks"."""
        granted = []
        for ino in sorted(self.waits):
            while ino in self.waits:
                client, wait = next(iter(self.waits[ino].items()))
                if self.others_conflict(ino, client, wait.mode):
                    break
                granted.append((ino, client, self.grant(ino, client, wait.life, wait.mode)))
        return granted

    def demanding(self, now, is_tick, retry, suspects):
        """Rule "Demanding" (the pass): the demands that are sent (file, client, row), in order.
        Chapter "Locks".
        """
        sent = []
        for ino in sorted(self.waits):
            waiter, wait = next(iter(self.waits[ino].items()))
            wish = NONE if wait.mode == EXCLUSIVE else SHARED
            for client, row in sorted(self.rows.get(ino, {}).items()):
                if client == waiter or client in suspects or not conflicts(row.mode, wait.mode):
                    continue
                demand = row.demand
                if demand is None:
                    row.demand = Demand(wish, now, now)
                elif demand.to > wish:
                    demand.to = wish
                    self.send_again(demand, now)
                elif is_tick and now - demand.sent >= retry:
                    self.send_again(demand, now)
                else:
                    continue
                sent.append((ino, client, row))
        return sent

    @staticmethod
    def send_again(demand, now):
        """A demand that is sent waits since it was first sent without an answer. Rule "Demanding".
        Chapter "Locks".
        """
        demand.sent = now
        if demand.since is None:
            demand.since = now
