"""The state that a run has reached, as far as its schedule and its report show: messages, commands,
leases, clocks, cuts, and nodes that don't run.

`Told` follows a run event by event: `see` takes an event's words and its observations in the
report. `observations` splits a report. Everything comes from these two texts. So a lease's end is
that of its last line `lease`, and a page is dirty until a line says otherwise.
"""
import collections

Message = collections.namedtuple("Message", "sender receiver kind life epoch number event")
Command = collections.namedtuple("Command", "client server life event write page")


def observations(report):
    """The observations by event, each as its words, and the last line, of a report's lines."""
    seen = {}
    for line in report[1:-1]:
        words = line.split(" ")
        seen.setdefault(int(words[0]), []).append(words[1:])
    return seen, report[-1]


class Told:
    """A run so far. Events are numbered from 1; a file's server is the number before its colon."""

    def __init__(self, head):
        self.head, self.event = head, 0
        self.clocks = {node: 0 if node[0] == "c" else 1000 * int(node[1:]) for node in head.nodes}
        self.messages, self.commands, self.lost, self.cuts, self.down = [], [], {}, {}, {}
        self.effects, self.reports, self.asked = {}, {}, collections.Counter()
        self.lives = collections.Counter({(c, s): 1 for c in self.clients() for s in self.servers()})
        self.ends, self.former, self.dirty, self.stepped = {}, {}, collections.defaultdict(dict), {}

    def clients(self):
        return [node for node in self.head.nodes if node[0] == "c"]

    def servers(self):
        return [node for node in self.head.nodes if node[0] == "s"]

    def server_of_disk(self, disk):
        """The server to which a disk belongs: disks are assigned to servers in turn."""
        return f"s{(disk - 1) % self.head.servers + 1}"

    def see(self, words, observed):
        """Takes an event that happened, and what was observed."""
        self.event += 1
        getattr(self, "do_" + words[0], self.do_nothing)(*words[1:])
        for told in observed:
            getattr(self, "saw_" + told[0], self.do_nothing)(*told[1:])

    def do_nothing(self, *_):
        pass

    # events

    def do_adv(self, *steps):
        for at, node in enumerate(self.head.nodes):
            self.clocks[node] += int(steps[at if len(steps) > 1 else 0])

    def do_app(self, client, *_):
        self.asked[client] += 1
        self.step(client)

    def do_tick(self, node):
        self.step(node)

    def do_deliver(self, number):
        self.step(self.messages[int(number) - 1].receiver)

    def do_lose(self, number):
        self.lost[int(number)] = self.event

    def do_cut(self, one, other):
        self.cuts[one, other] = self.event

    def do_heal(self, one, other):
        self.cuts.pop((one, other), None)

    def do_effect(self, number):
        self.effects[int(number)] = self.event

    def do_report(self, number, how):
        number = int(number)
        self.reports[number] = self.event, how
        command = self.commands[number - 1]
        if command.write and how == "ok":
            held = self.dirty[command.client, command.server]
            if held.get(command.page, command.event) <= command.event:
                held.pop(command.page, None)
        self.step(command.client)

    def do_crash(self, node):
        self.down[node] = self.event
        for server in self.servers() if node[0] == "c" else ():
            self.dirty.pop((node, server), None)

    def do_start(self, node):
        self.down.pop(node, None)
        for server in self.servers() if node[0] == "c" else ():
            self.end_life(node, server)

    def step(self, node):
        """Notes the lease end under which a client last took a step, and its clock then."""
        for server in self.servers() if node[0] == "c" else ():
            self.stepped[node, server] = self.clocks[node]

    def end_life(self, client, server):
        end = self.ends.pop((client, server), None)
        self.former[client, server, self.lives[client, server]] = end
        self.lives[client, server] += 1
        self.dirty.pop((client, server), None)

    # observations

    def saw_send(self, _number, sender, receiver, kind, life, epoch, number, *_):
        self.messages.append(Message(sender, receiver, kind, int(life), int(epoch), int(number), self.event))

    def saw_submit(self, _number, client, _own, disk, _block, how, *rest):
        server = self.server_of_disk(int(disk))
        page = (f"{server[1:]}:{rest[0]}", rest[1]) if how == "w" else None
        self.commands.append(Command(client, server, self.lives[client, server], self.event, how == "w", page))

    def saw_write(self, _number, client, file, page, *_):
        self.dirty[client, f"s{file.split(':')[0]}"][file, page] = self.event

    saw_patch = saw_write

    def saw_lease(self, client, server, end):
        self.ends[client, server] = int(end)

    def saw_lost(self, client, server, _life):
        self.end_life(client, server)

    saw_end = saw_lost

    # questions

    def end_of(self, command):
        """The lease end under which a command was submitted, or of the life that it belonged to."""
        key = command.client, command.server
        return self.ends.get(key) if self.lives[key] == command.life else self.former.get((*key, command.life))

    def open_writes(self, client, server):
        """The numbers of a client's write commands to a server's disks that weren't reported."""
        return [at for at, it in enumerate(self.commands, 1) if it.write and (it.client, it.server) == (client, server) and at not in self.reports]
