"""Containers that move by order, and their script. Chapters "A container moves by order",
"Scripts".
"""

FULL = 60000
HOLDING, LEAVING, SENT, GONE = "holding", "leaving", "sent", "gone"


class Record:
    """A server's record of a container. Chapter "A container moves by order"."""

    __slots__ = ("version", "standing", "to", "updates", "bytes")

    def __init__(self, version, updates):
        self.version, self.standing, self.to, self.updates = version, HOLDING, None, list(updates)
        self.bytes = sum(map(len, self.updates))


class Mover:
    """The records of a server, and which clients have a lock row of a container: only client 1
    has one in a script.
    """

    def __init__(self, server, servers, containers):
        self.server, self.containers = server, containers
        self.records = {c: Record(1, ()) for c in range(1, containers + 1) if 1 + (c - 1) % servers == server}
        self.locked = set()

    def missing(self, c):
        """The refusals NoContainer and Absent. Chapter "A container moves by order", "Refusals of a
        call on a container".
        """
        if not 1 <= c <= self.containers:
            return f"nocontainer {c}"
        return None if c in self.records else "absent"

    def changing(self, c):
        """The refusals of a put, an order and a lock up to Redirect."""
        refusal = self.missing(c)
        if refusal is None and self.records[c].standing == LEAVING:
            refusal = f"leaving {self.records[c].to}"
        return refusal or self.redirect(c)

    def redirect(self, c):
        """The refusal Redirect."""
        record = self.records[c]
        return f"redirect {record.to} {record.version}" if record.standing in (SENT, GONE) else None

    def put(self, c, update):
        """Rule "Put"."""
        refusal = self.changing(c)
        if refusal is not None:
            return refusal
        record = self.records[c]
        if record.bytes + len(update) > FULL:
            return f"full {record.bytes + len(update)}"
        record.updates.append(update)
        record.bytes += len(update)
        return f"ok {len(record.updates)}"

    def list(self, c):
        """Rule "List"."""
        refusal = self.missing(c) or self.redirect(c)
        if refusal is not None:
            return refusal
        return " ".join(["list", *(update.decode("latin-1") for update in self.records[c].updates)])

    def order(self, c, to):
        """Rule "Order"."""
        refusal = self.changing(c)
        if refusal is None and to == self.server:
            refusal = "same"
        if refusal is None:
            self.records[c].standing, self.records[c].to = LEAVING, to
        return refusal or "ok"

    def tick(self):
        """Rule "Tick": the images that are sent, as (to, container, version, updates)."""
        sent = []
        for c, record in sorted(self.records.items()):
            if record.standing == LEAVING and c not in self.locked:
                record.standing, record.version = SENT, record.version + 1
            if record.standing == SENT:
                sent.append((record.to, c, record.version, tuple(record.updates)))
        return sent

    def image(self, c, version, updates):
        """Rule "Image"."""
        if c not in self.records or version > self.records[c].version:
            self.records[c] = Record(version, updates)

    def taken(self, c, version):
        """Rule "Taken"."""
        record = self.records.get(c)
        if record is not None and record.standing == SENT and record.version == version:
            record.standing, record.updates, record.bytes = GONE, [], 0


class MoveScript:
    """The command `move`. Chapter "Scripts"."""

    def __init__(self, words):
        """The first line."""
        words.choice("move")
        self.servers, containers = words.number(2, 4), words.number(1, 64)
        self.movers = [Mover(server, self.servers, containers) for server in range(1, self.servers + 1)]
        self.sent, self.lost = [], set()

    def read(self, words):
        """An event of a line. Chapter "Scripts", "move"."""
        verb = words.choice("put", "list", "lock", "unlock", "order", "tick", "deliver", "lose")
        if verb in ("deliver", "lose"):
            return verb, words.number(1, 2**32 - 1)
        server = words.number(1, 4)
        if verb == "tick":
            return verb, server
        c = words.number(1, 99)
        if verb == "put":
            return verb, server, c, words.text(64)
        return (verb, server, c, words.number(1, 4)) if verb == "order" else (verb, server, c)

    def play(self, event):
        """The answers of an event. Chapter "Scripts", "move"."""
        verb, first, *rest = event
        if verb in ("deliver", "lose"):
            return self.play_message(verb, first)
        for server in (first, *(rest[1:] if verb == "order" else ())):
            if server > self.servers:
                return [f"noserver {server}"]
        mover = self.movers[first - 1]
        if verb == "tick":
            return [self.send(first, to, "image", *image) for to, *image in mover.tick()]
        return [getattr(self, f"play_{verb}")(mover, *rest)]

    def send(self, sender, to, kind, c, version, updates=None):
        """A message is sent; its line."""
        self.sent.append((sender, to, kind, c, version, updates))
        count = "" if updates is None else f" {len(updates)}"
        return f"send {len(self.sent)} s{sender} s{to} {kind} {c} {version}{count}"

    def play_message(self, verb, number):
        """A delivery or a loss."""
        if number > len(self.sent):
            return [f"nomessage {number}"]
        if number in self.lost:
            return [f"lostmessage {number}"]
        if verb == "lose":
            self.lost.add(number)
            return []
        sender, to, kind, c, version, updates = self.sent[number - 1]
        if kind == "taken":
            self.movers[to - 1].taken(c, version)
            return []
        self.movers[to - 1].image(c, version, updates)
        return [self.send(to, sender, "taken", c, version)]

    @staticmethod
    def play_put(mover, c, update):
        return mover.put(c, update)

    @staticmethod
    def play_list(mover, c):
        return mover.list(c)

    @staticmethod
    def play_order(mover, c, to):
        return mover.order(c, to)

    @staticmethod
    def play_lock(mover, c):
        refusal = mover.changing(c)
        if refusal is None:
            mover.locked.add(c)
        return refusal or "ok"

    @staticmethod
    def play_unlock(mover, c):
        if c not in mover.locked:
            return "nolock"
        mover.locked.remove(c)
        return "ok"

    def last(self, events):
        """The last line."""
        return f"end events {events} sent {len(self.sent)}"
