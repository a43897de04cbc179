"""The world and its checks. Chapter "The world"."""

from . import wire
from .client import Client
from .clocks import Drift, advance_in_bound
from .disks import Disks
from .extents import server_of_disk
from .flat_log import PENDING, FlatLog
from .schedule import node_word
from .server import Server

NETWORK = {1: 2**29, 2: 2**29, 3: 2**32}


class Origin:
    """Whose a disk command is. Section "What it has"."""

    __slots__ = ("client", "own", "starts", "server", "life", "carries")

    def __init__(self, client, own, starts, server, life, carries):
        self.client, self.own, self.starts, self.server, self.life, self.carries = client, own, starts, server, life, carries


class World:
    """All nodes with their clocks, the network, the disks and the log. Section "What it has"."""

    def __init__(self, head):
        self.head, self.settings = head, head.settings
        self.clients = [Client(number, head.settings, head.servers, head.limits) for number in range(1, head.clients + 1)]
        self.servers = [
            Server(number, head.settings, head.servers, head.disks, head.blocks, head.limits) for number in range(1, head.servers + 1)
        ]
        self.clocks = [0] * head.clients + [1000 * number for number in range(1, head.servers + 1)]
        self.drift = Drift(len(self.clocks)) if head.form >= 2 else None
        self.asks = [0] * head.clients
        self.starts = [0] * head.clients
        self.messages = []
        self.bytes = 0
        self.lost = set()
        self.links_cut = set()
        self.disks = Disks()
        self.origins = []
        self.last_writes = {}
        self.carriers = {}
        self.log = FlatLog()
        self.ended = {}
        self.flush_steps = {}
        self.events = self.reads = self.thefts = 0

    # Looking things up

    def place(self, node):
        """The place of a node's clock: clients in order, then servers; None if there is no such
        node. Chapter "The world".
        """
        if node > wire.SERVER_BASE:
            number = node - wire.SERVER_BASE
            return len(self.clients) + number - 1 if number <= len(self.servers) else None
        return node - 1 if node <= len(self.clients) else None

    def node(self, node):
        """The node of a number, or None. Chapter "The world"."""
        place = self.place(node)
        if place is None:
            return None
        return self.clients[place] if place < len(self.clients) else self.servers[place - len(self.clients)]

    def clock(self, node):
        """The clock of a node. Chapter "The world"."""
        return self.clocks[self.place(node)]

    def lease_end_of(self, client, server, life):
        """The lease end that a life had when it ended, or else the present one; None without a
        lease. Chapter "The world".
        """
        if (client, server, life) in self.ended:
            return self.ended[client, server, life][0]
        return self.clients[client - 1].lease_end_at(server)

    # Checks

    def refusal(self, event):
        """The first check of an event that applies, as (name, values..), or None. Section "Which
        events are admissible". Chapter "The world".
        """
        return getattr(self, "check_" + event[0])(*event[1:])

    def no_node(self, node):
        """Refusal `NoNode`. Chapter "The world"."""
        return ("NoNode", node_word(node)) if self.node(node) is None else None

    def not_running(self, node):
        """Refusal `NotRunning`. Chapter "The world"."""
        return None if self.node(node).running else ("NotRunning", node_word(node))

    def net_full(self):
        """Refusal `NetFull`. Chapter "The world"."""
        return ("NetFull", self.bytes) if self.bytes >= NETWORK[self.head.form] else None

    def no_message(self, number):
        """Refusal `NoMessage`. Chapter "The world"."""
        return ("NoMessage", number) if not 1 <= number <= len(self.messages) else None

    def lost_message(self, number):
        """Refusal `LostMessage`. Chapter "The world"."""
        return ("LostMessage", number) if number in self.lost else None

    def no_command(self, number):
        """Refusal `NoCommand`. Chapter "The world"."""
        return ("NoCommand", number) if not 1 <= number <= len(self.origins) else None

    def check_tick(self, node):
        """The checks of a tick. Chapter "The world"."""
        return self.no_node(node) or self.not_running(node) or self.net_full()

    def check_app(self, client, ask):
        """The checks of an ask. Chapter "The world"."""
        return self.check_tick(client)

    def check_deliver(self, number):
        """The checks of a delivery. Chapter "The world"."""
        refusal = self.no_message(number) or self.lost_message(number)
        if refusal is not None:
            return refusal
        message = self.messages[number - 1]
        if (message.sender, message.receiver) in self.links_cut:
            return "LinkCut", node_word(message.sender), node_word(message.receiver)
        return self.not_running(message.receiver) or self.net_full()

    def check_lose(self, number):
        """The checks of a loss. Chapter "The world"."""
        return self.no_message(number) or self.lost_message(number)

    def check_cut(self, one, other):
        """The checks of a cut and a heal. Chapter "The world"."""
        return self.no_node(one) or self.no_node(other)

    check_heal = check_cut

    def check_adv(self, increments):
        """The checks of an advance. Chapter "The world"."""
        return self.clocks_out_of_bound(increments) or self.flush_missed(increments)

    def clocks_out_of_bound(self, increments):
        """Refusals `ClockRate` and `ClockDrift`. Chapter "The world"."""
        if self.drift is None:
            if advance_in_bound(self.settings, increments):
                return None
            return "ClockRate", max(increments), min(increments)
        excess = self.drift.check(self.settings, increments)
        if excess is None:
            return None
        m, n, number = excess
        return "ClockDrift", self.word_at(m), self.word_at(n), number

    def word_at(self, place):
        """The word of the node whose clock is at a place. Chapter "The world"."""
        clients = len(self.clients)
        return f"c{place + 1}" if place < clients else f"s{place - clients + 1}"

    def flush_missed(self, increments):
        """Refusal `FlushMissed`. Chapter "The world"."""
        for client, before, increment in zip(self.clients, self.clocks, increments):
            if not client.running:
                continue
            for association in client.associations:
                if not association.store.dirty:
                    continue
                end = client.lease_end_at(association.server)
                if not before < end <= before + increment:
                    continue
                stepped = self.flush_steps.get((client.number, association.server)) == end
                if not stepped or self.has_write_out(client, association):
                    return "FlushMissed", f"c{client.number}", f"s{association.server}"
        return None

    def has_write_out(self, client, association):
        """Whether a write isn't reported that the client submitted since its last start, in its
        present life at the server. Chapter "The world"."""
        present = (client.number, self.starts[client.number - 1], association.server, association.life)
        return any(
            not command.reported and origin.carries is not None and (origin.client, origin.starts, origin.server, origin.life) == present
            for command, origin in zip(self.disks.commands, self.origins)
        )

    def check_effect(self, number):
        """The checks of an effect. Chapter "The world"."""
        refusal = self.no_command(number)
        if refusal is not None:
            return refusal
        if self.disks.effect_refusal(number) is not None:
            return "DiskState", number
        origin = self.origins[number - 1]
        clock, end = self.clock(origin.client), self.lease_end_of(origin.client, origin.server, origin.life)
        if end is not None and clock >= end:
            return "LateDisk", clock, end
        return None

    def check_report(self, number, success):
        """The checks of a report. Chapter "The world"."""
        refusal = self.no_command(number)
        if refusal is not None:
            return refusal
        if self.disks.report_refusal(number, success) is not None:
            return "DiskState", number
        return self.net_full()

    def check_crash(self, node):
        """The checks of a crash. Chapter "The world"."""
        return self.no_node(node) or self.not_running(node)

    def check_start(self, node):
        """The checks of a start. Chapter "The world"."""
        refusal = self.no_node(node)
        if refusal is None and self.node(node).running:
            refusal = ("Running", node_word(node))
        return refusal

    # Events

    def step(self, event):
        """An admissible event happens: what is observed. Section "What an event does". Chapter "The
        world".
        """
        self.seen = []
        self.events += 1
        getattr(self, "do_" + event[0])(*event[1:])
        return self.seen

    def do_tick(self, node):
        """Event: a tick. Chapter "The world"."""
        if node > wire.SERVER_BASE:
            self.server_step(node, None)
        else:
            self.client_step(node, ("tick",))

    def do_app(self, client, ask):
        """A client's ask is numbered first. Chapter "The world"."""
        self.asks[client - 1] += 1
        self.client_step(client, ("ask", self.asks[client - 1], ask))

    def do_deliver(self, number):
        """Event: a delivery. Chapter "The world"."""
        message = self.messages[number - 1]
        if message.receiver > wire.SERVER_BASE:
            self.server_step(message.receiver, message)
        else:
            self.client_step(message.receiver, ("message", message))

    def do_lose(self, number):
        """Event: a loss of a message. Chapter "The world"."""
        self.lost.add(number)

    def do_cut(self, one, other):
        """Event: a cut of one direction. Chapter "The world"."""
        self.links_cut.add((one, other))

    def do_heal(self, one, other):
        """Event: a heal of one direction. Chapter "The world"."""
        self.links_cut.discard((one, other))

    def do_adv(self, increments):
        """Every clock gains its increment; at a lease end the life's pending entries are gone.
        Chapter "The world".
        """
        before = self.clocks
        self.clocks = [clock + increment for clock, increment in zip(before, increments)]
        if self.drift is not None:
            self.drift.step(self.settings, increments)
        gone = []
        for (client, server, life), pending in self.log.pending.items():
            end = self.lease_end_of(client, server, life)
            if end is not None and before[client - 1] < end <= self.clocks[client - 1]:
                crashed = (client, server, life) in self.ended and self.ended[client, server, life][1]
                gone += [(number, crashed) for number in pending]
        for number, crashed in sorted(gone):
            self.dropped(number, None if crashed else self.last_writes.get(self.log.owner(number)))

    def dropped(self, number, command):
        """Rule "By a lease end" and "By a crash": the cause is a crash (None) or a failed command.
        Chapter "The world".
        """
        self.log.drop(number, command)
        self.seen.append(("dropped", number, command))

    def do_effect(self, number):
        """The command has its effect, and a write makes the entry that it carries hard. Chapter
        "The world".
        """
        self.disks.effect(number)
        carried = self.origins[number - 1].carries
        if carried is not None:
            for entry in self.log.harden(carried):
                self.seen.append(("hard", entry))

    def do_report(self, number, success):
        """The command ends; its client is told, if it runs and was not started again. Chapter
        "The world".
        """
        self.disks.report(number)
        origin, command = self.origins[number - 1], self.disks.commands[number - 1]
        if not self.clients[origin.client - 1].running or self.starts[origin.client - 1] != origin.starts:
            return
        if not success:
            end = ("end", origin.own, "failed", None)
        elif command.write is not None:
            end = ("end", origin.own, "written", None)
        else:
            end = ("end", origin.own, "read", command.sample)
        self.client_step(origin.client, end)

    def do_crash(self, node):
        """Event: a crash; a client's lives end with the lease ends that they had. Chapter "The
        world".
        """
        if node > wire.SERVER_BASE:
            self.node(node).crash()
            return
        client = self.clients[node - 1]
        for association in client.associations:
            end = client.lease_end_at(association.server)
            self.ended[node, association.server, association.life] = (end, True)
        self.drop_by_crash(node)
        client.crash()

    def drop_by_crash(self, client):
        """Rule "By a crash": all pending entries but what an unreported command carries, and the
        earlier ones there. Chapter "The world".
        """
        pending = sorted(number for key, numbers in self.log.pending.items() if key[0] == client for number in numbers)
        if not pending:
            return
        spared = {}
        for command, origin in zip(self.disks.commands, self.origins):
            if not command.reported and origin.carries is not None:
                owner = self.log.owner(origin.carries)
                spared[owner] = max(spared.get(owner, 0), origin.carries)
        for number in pending:
            if number > spared.get(self.log.owner(number), 0):
                self.dropped(number, None)

    def do_start(self, node):
        """Event: a start. Chapter "The world"."""
        if node > wire.SERVER_BASE:
            self.node(node).start(self.clock(node))
        else:
            self.starts[node - 1] += 1
            self.node(node).start()

    # Steps and what is observed

    def server_step(self, node, message):
        """A server's step and what is observed. Chapter "The world"."""
        server = self.node(node)
        for output in server.step(self.clock(node), message):
            self.observe_server(server, output)

    def observe_server(self, server, output):
        """Section "What is observed": sending and the notes of a server. Chapter "The world"."""
        kind = output[0]
        if kind == "send":
            self.sent(output[1])
        elif kind == "cutdone":
            _, ino, page = output
            file = (server.number, ino)
            number = self.log.add("cut", 0, 0, file, page)
            self.seen.append(("cut", number, file, page))
        elif kind == "suspected":
            self.seen.append(("suspected", server.number, *output[1:]))
        else:
            self.thefts += 1
            self.seen.append(("stolen", server.number, *output[1:]))

    def sent(self, message):
        """The message is the network's last one. Chapter "The world"."""
        self.messages.append(message)
        self.bytes += wire.size_of(message)
        self.seen.append(("sent", len(self.messages), message))

    def client_step(self, number, taken):
        """A client's step, what is observed, and its flush steps. Chapter "The world"."""
        client = self.clients[number - 1]
        ends = [client.lease_end_at(association.server) for association in client.associations]
        for output in client.step(self.clocks[number - 1], taken):
            self.observe_client(client, output, ends)
        for association in client.associations:
            if client.is_in_flush(association.server):
                self.flush_steps[number, association.server] = client.lease_end_at(association.server)

    def observe_client(self, client, output, ends):
        """Section "What is observed": sending, submitting, answering and the notes of a client.
        Chapter "The world".
        """
        kind, number = output[0], client.number
        if kind == "send":
            self.sent(output[1])
        elif kind == "submit":
            self.submitted(client, *output[1:])
        elif kind == "answer":
            if output[2][0] == "read":
                self.reads += 1
            self.seen.append(("answer", number, *output[1:]))
        elif kind == "write":
            _, file, page, data = output
            entry = self.log.add("write", number, client.associations[file[0] - 1].life, file, page, 0, data)
            self.seen.append(("write", entry, number, file, page, data))
        elif kind == "patch":
            _, file, page, at, data = output
            entry = self.log.add("patch", number, client.associations[file[0] - 1].life, file, page, at, data)
            self.seen.append(("patch", entry, number, file, page, at, data))
        elif kind == "dated":
            self.seen.append(("dated", number, *output[1:]))
        else:
            _, server, life, *end = output
            self.ended[number, server, life] = (end[0] if kind == "ended" else ends[server - 1], False)
            self.seen.append((kind, number, server, life))

    def submitted(self, client, own, disk, block, write):
        """A command is submitted; a write carries its page's latest entry of this client. Chapter
        "The world".
        """
        command = self.disks.submit(disk, block, write)
        server = server_of_disk(disk, len(self.servers))
        life = client.associations[server - 1].life
        carries = None
        if write is not None:
            file, page = (write[0], write[1]), write[2]
            carries = self.log.latest.get((client.number, file, page))
            self.last_writes[client.number, life, file, page] = command
        self.origins.append(Origin(client.number, own, self.starts[client.number - 1], server, life, carries))
        self.seen.append(("submit", command, client.number, own, disk, block, write))

    def summary(self):
        """The counts of a run. Section "The marks of the log", "Summary". Chapter "The world"."""
        return (
            self.events, len(self.messages), len(self.origins), self.log.changes, self.reads, self.log.hard, self.log.gone,
            self.thefts,
        )
