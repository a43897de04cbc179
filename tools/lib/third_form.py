"""The third form, tried with the worlds of reference/: what must hold after each event, random
hostile schedules, and worlds in which messages take time.
"""
import collections
import heapq
import itertools
import random

import comparing  # noqa: F401  (it makes reference/ known)
import compare_schedules
from reference import wire
from reference.flat_log import HARD
from reference.modes import EXCLUSIVE, NONE, SHARED
from reference.schedule import event_line, read_event, read_head
from reference.world import World

FORMS = (1, 2, 3)


class Broken(Exception):
    """Something that must hold doesn't: what, and at which event."""


class Watch:
    """Checks a world of the third form after each event; it counts what happened."""

    def __init__(self, world):
        self.world, self.counts = world, collections.Counter()
        self.owed, self.left, self.asked, self.without = {}, {}, {}, set()
        for client in world.clients:
            client.owe = self.owing(client, client.owe)
            client.give_back = self.giving(client.give_back)
        self.plain, world.step = world.step, self.step

    def hold(self, condition, what):
        if not condition:
            raise Broken(f"event {self.world.events}: {what}")

    def owing(self, client, plain):
        """Notes, when a lock is installed, which operation must use it: found apart from the
        client's own list.
        """
        def owe(association, ino):
            plain(association, ino)
            self.owed.pop((client.number, association.server, ino), None)
            mode = association.session.mode(ino)
            for operation in client.operations:
                if operation.server != association.server:
                    continue
                if operation.kind == "leave":
                    break
                if operation.ino == ino and operation.kind != "sync" and not operation.sent and mode >= (SHARED if operation.kind == "read" else EXCLUSIVE):
                    self.owed[client.number, association.server, ino] = association.life, operation
                    self.counts["owed"] += 1
                    break
        return owe

    def giving(self, plain):
        def give_back(association, operation):
            before = dict(association.session.demands)
            waits = plain(association, operation)
            self.counts["given back"] += association.session.demands != before
            return waits
        return give_back

    def step(self, event):
        """A step of the world, and all checks after it."""
        world = self.world
        if event[0] == "app":
            self.asked[event[1], world.asks[event[1] - 1] + 1] = event[2]
        self.without = {(client.number, it.server) for client in world.clients for it in client.associations if it.session is None}
        hard = [entry for entry in world.log.entries if entry.fate == HARD] if world.events % 64 == 0 else []
        seen = self.plain(event)
        self.hold(all(entry.fate == HARD for entry in hard), "a durable write was lost")
        for one in seen:
            check = getattr(self, "see_" + one[0], None)
            if check is not None:
                check(one, seen)
        self.grants_are_used()
        self.who_left_has_nothing()
        self.locks_are_exclusive()
        return seen

    def grants_are_used(self):
        """A lock stays until the operation that it is owed to was sent or answered, or the lock was
        lost.
        """
        for (number, server, ino), (life, operation) in list(self.owed.items()):
            client = self.world.clients[number - 1]
            association = client.associations[server - 1]
            if operation.sent or operation not in client.operations or association.life != life or not client.running:
                del self.owed[number, server, ino]
                continue
            lock = association.session.locks.get(ino)
            self.hold(lock is not None and lock.mode >= operation.needs(), f"c{number} gave the lock of {server}:{ino} back unused")

    def who_left_has_nothing(self):
        """A client that left has neither row nor wait, until it asks the server for something."""
        for (number, server), life in list(self.left.items()):
            association = self.world.clients[number - 1].associations[server - 1]
            if association.life != life or (association.session is not None and association.session.next_number > 1):
                del self.left[number, server]
            else:
                self.nothing(number, server)

    def nothing(self, client, server):
        locks = self.world.servers[server - 1].locks
        self.hold(not locks.has_rows(client), f"c{client} left s{server} and has a row")
        self.hold(not any(client in waits for waits in locks.waits.values()), f"c{client} left s{server} and has a wait")

    def locks_are_exclusive(self):
        """No dirty page without an exclusive lock, none beside another client's lock of a living
        lease, and no limit passed.
        """
        world = self.world
        for client in world.clients:
            self.hold(len(client.operations) <= client.limits.operations, f"c{client.number} has too many operations")
            for association in client.associations:
                if association.session is None:
                    continue
                store, limits = association.store, client.limits
                self.counts["waiting for room"] += store.standing > 0
                self.hold(len(association.session.locks) <= limits.locks, f"c{client.number} has too many locks")
                self.hold(len(store.dirty) <= limits.dirty and len(store.clean) <= limits.clean, f"c{client.number} has too many pages")
                if self.lives(client, association) and store.dirty:
                    self.alone(client, association)
        for server in world.servers:
            counts = collections.Counter(client for rows in server.locks.rows.values() for client in rows)
            for ino, waits in server.locks.waits.items():
                counts.update(client for client in waits if client not in server.locks.rows.get(ino, {}))
            self.hold(all(count <= server.limits.locks for count in counts.values()), f"s{server.number} has too many locks of a client")

    def lives(self, client, association):
        return client.running and association.session is not None and self.world.clocks[client.number - 1] < client.lease_end_at(association.server)

    def alone(self, client, association):
        for ino in {ino for ino, _ in association.store.dirty}:
            self.hold(association.session.mode(ino) == EXCLUSIVE, f"c{client.number} has a dirty page without an exclusive lock")
            for other in self.world.clients:
                there = other.associations[association.server - 1]
                if other is not client and self.lives(other, there):
                    self.hold(there.session.mode(ino) == NONE, f"c{client.number} has a dirty page beside the lock of c{other.number}")

    def see_sent(self, one, seen):
        message = one[2]
        cause = wire.CAUSES[message.body[0] - 1] if message.kind == wire.NACK else ""
        self.hold(cause != "conflict", "a reassertion was refused as a conflict")
        self.counts[f"sent {wire.KIND_NAMES[message.kind]} {cause}".rstrip()] += 1
        self.counts["runs"] += message.kind == wire.ALLOCATE and message.body[3] > 1
        self.hold(message.kind != wire.ALLOCATE or message.body[3] <= 64, "an allocation asks for more than 64 pages")
        spelled = wire.encode(message, 3)
        self.hold(len(spelled) == wire.size_of(message) and wire.decode(spelled, 3) == message, "a message isn't what its bytes say")
        if message.kind == wire.DEMAND:
            self.counts["demands"] += 1

    def see_dated(self, one, seen):
        _, client, server, end = one
        if (client, server) in self.without:
            self.counts["sessions"] += 1
            age = self.world.clocks[client - 1] - (end - self.world.settings.lease)
            self.hold(age < self.world.settings.renew, f"c{client} took a stale welcome")

    def see_stolen(self, one, seen):
        _, server, client, life = one
        world = self.world
        if (client, server, life) in world.ended or world.clients[client - 1].associations[server - 1].life == life:
            end = world.lease_end_of(client, server, life)
            self.hold(end is None or world.clocks[client - 1] >= end, f"s{server} robbed c{client} before its lease ended")
        self.counts["thefts"] += 1

    def see_ended(self, one, seen):
        _, client, server, life = one
        self.counts["lives that ended"] += 1
        for entry in self.world.log.entries:
            if entry.kind != "cut" and (entry.client, entry.file[0], entry.life) == (client, server, life):
                self.hold(entry.fate == HARD, f"c{client} ended its life with a write that is {entry.fate}")

    def see_answer(self, one, seen):
        _, client, number, answer = one
        self.counts["answer " + answer[0]] += 1
        check = getattr(self, "answer_" + answer[0], None)
        if check is not None:
            check(client, self.asked[client, number], answer, seen)

    def answer_left(self, client, ask, answer, seen):
        association = self.world.clients[client - 1].associations[ask[1] - 1]
        self.left[client, ask[1]] = association.life
        self.nothing(client, ask[1])
        self.hold(not association.lost, f"c{client} left with pages that were lost and not told")

    def answer_read(self, client, ask, answer, seen):
        if not any(other[0] in ("write", "patch") and other[3:5] == (ask[1], ask[2]) for other in seen):
            self.hold(self.world.log.content(ask[1], ask[2]) == answer[1], f"c{client} read wrong bytes")

    def answer_hard(self, client, ask, answer, seen):
        life = self.world.clients[client - 1].associations[ask[1][0] - 1].life
        for entry in self.world.log.entries:
            if entry.kind != "cut" and (entry.client, entry.file, entry.life) == (client, ask[1], life):
                self.hold(entry.fate == HARD or any(other[0] in ("write", "patch") for other in seen), f"c{client} was told hard, and a write is {entry.fate}")

    def answer_dirtyfull(self, client, ask, answer, seen):
        store = self.world.clients[client - 1].associations[ask[1][0] - 1].store
        written = {(command.ino, command.page) for command in store.commands.values() if command.version is not None}
        hopeful = [place for place, dirty in store.dirty.items() if dirty.failed is None and place not in written]
        self.hold(not hopeful or any(one[0] == "submit" for one in seen), f"c{client} was told dirtyfull, and a page could be written")


def third_head(rng, profile):
    """A head of the third form with small limits."""
    heads = {"contend": compare_schedules.contended_head, "restart": compare_schedules.contended_head, "fill": compare_schedules.filling_head}
    words = ["tank", "1"]
    while words[1] != "2":
        words = heads.get(profile, compare_schedules.random_head)(rng).split()
    if profile == "fill":
        words[-1] = rng.choice(("64", "4096", "8"))
    limits = [rng.choice((10, 12, 20, 4096)), rng.choice((1, 2, 2, 3, 4, 6, 1024)), rng.choice((1, 2, 2, 3, 4, 8, 64)), rng.choice((2, 2, 3, 8, 256)),
              rng.choice((1, 3, 3, 6, 16, 64))]
    words[1] = "3"
    if profile is None and rng.random() < 0.15:
        servers = rng.randint(1, 8)
        words[11:14] = [str(rng.choice((17, 20, 64))), str(servers), str(rng.randint(servers, 16))]
    return " ".join(words + list(map(str, limits)))


class Driver(compare_schedules.Driver):
    """Draws events for a world of the third form: leaves and patches among them."""

    leave_rate = 0.03

    def ask(self):
        rng = self.rng
        if rng.random() < self.leave_rate:
            return "leave", rng.choice(self.hot)[0] if rng.random() < 0.9 else rng.randint(1, self.head.servers + 1)
        ask = super().ask()
        if ask[0] in ("write", "read") and rng.random() < 0.25:
            at = rng.choice((0, 1, 4095, rng.randrange(4096)))
            return "patch", ask[1], ask[2], at, bytes((rng.randrange(256),)) * rng.choice((1, 4096 - at))
        return ask

    def candidate(self):
        event = super().candidate()
        if event is not None and event[0] == "app" and self.rng.random() < 0.95:
            client = self.world.clients[event[1] - 1]
            if len(client.operations) >= client.limits.operations:
                return "tick", event[1]
        return event

    def happen(self, event):
        if event[0] == "app" and event[2][0] != "name" and read_event(event_line(event).encode("latin-1"), self.head) != event:
            raise Broken(f"the line of {event} says something else")
        if event[0] == "app" and event[2][0] == "leave":
            self.asked[event[1], self.world.asks[event[1] - 1] + 1] = event[2]
        super().happen(event)


def hostile(seed, number):
    """A random hostile schedule that is played and checked: its driver and what was counted."""
    rng = random.Random(f"{seed} {number}")
    profile = rng.choice((None, None, "contend", "contend", "restart", "fill"))
    driver = Driver(rng, third_head(rng, profile), profile=profile, forms=FORMS)
    if rng.random() < 0.5:
        driver.pages, driver.moods = rng.choice((4, 8)), driver.moods + ["busy", "full", "calm"]
    driver.leave_rate = rng.choice((0, 0.01, 0.03, 0.1))
    if profile != "fill" and rng.random() < 0.6:
        driver.hot = [(rng.randint(1, driver.head.servers), ino) for ino in rng.sample(range(2, 10), rng.randint(3, 8))]
    return driver, Watch(driver.world), rng.choice((200, 600, 1500, 3000))


HEAD = "tank 3 10000 5000 7000 8500 1000 500 101 100 5 {clients} {servers} {servers} {blocks} {limits}"
USED = ("written", "read", "cut", "hard", "named", "listed", "refused", "left")


class Timed:
    """A world in which messages and disk commands take time, and every node ticks each 100.
    `ask_of` draws the asks: (this world, client) to an ask.
    """

    def __init__(self, clients, ask_of, trip=(4, 4), disk=(2, 2), in_order=True, limits="4096 1024 64 256 16", servers=1, blocks=4096, seed=1, asks=1):
        self.rng = random.Random(seed)
        head = HEAD.format(clients=clients, servers=servers, blocks=blocks, limits=limits)
        self.world, self.lines = World(read_head(head.encode(), FORMS)), [head]
        self.watch = Watch(self.world)
        self.ask_of, self.trip, self.disk, self.in_order = ask_of, trip, disk, in_order
        self.waiting, self.order, self.now, self.last = [], itertools.count(), 0, {}
        self.open, self.done, self.said, self.longest = {}, collections.Counter(), collections.Counter(), 0
        self.nodes = [*range(1, clients + 1), *(wire.SERVER_BASE + server for server in range(1, servers + 1))]
        for node in self.nodes:
            self.after(100, ("tick", node))
        for client in range(1, clients + 1):
            for _ in range(asks):
                self.after(self.rng.randint(0, 3), ("ask", client))

    def after(self, time, event):
        heapq.heappush(self.waiting, (self.now + time, next(self.order), event))

    def happen(self, event):
        """An event, if it is admissible, and what comes of it later."""
        if self.world.refusal(event) is not None:
            return
        self.lines.append(event_line(event))
        for one in self.world.step(event):
            if one[0] == "sent":
                self.sent(one[1], one[2])
            elif one[0] == "submit":
                self.after(self.rng.randint(*self.disk), ("disk", one[1]))
            elif one[0] == "answer":
                self.answered(*one[1:])

    def sent(self, number, message):
        time, link = self.rng.randint(*self.trip), (message.sender, message.receiver)
        if self.in_order:
            time = max(time, self.last.get(link, 0) - self.now)
            self.last[link] = self.now + time
        self.after(time, ("deliver", number))

    def answered(self, client, number, answer):
        since = self.open.pop((client, number))
        self.said[answer[0]] += 1
        self.done[client] += answer[0] in USED
        self.longest = max(self.longest, self.now - since)
        self.after(1 if answer[0] not in ("opsfull", "quiesced") else 60, ("ask", client))

    def run(self, until):
        """Runs until this moment; an ask that is still open counts as one that waited until then.
        """
        while self.waiting and self.waiting[0][0] <= until:
            at, _, event = heapq.heappop(self.waiting)
            if at > self.now:
                self.happen(("adv", (at - self.now,) * len(self.nodes)))
                self.now = at
            self.turn(event)
        self.longest = max([self.longest, *(until - since for since in self.open.values())])
        return self

    def turn(self, event):
        if event[0] == "tick":
            self.after(100, event)
        if event[0] == "ask":
            client = event[1]
            self.open[client, self.world.asks[client - 1] + 1] = self.now
            self.happen(("app", client, self.ask_of(self, client)))
        elif event[0] == "disk":
            self.happen(("effect", event[1]))
            self.happen(("report", event[1], True))
        else:
            self.happen(event)
