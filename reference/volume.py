"""The volume: what applications see of a run. Chapter "The volume"."""

import collections

from .trees import FRESH, does
from .wire import WHOLE_PAGE

OPEN, HARD, DROPPED = "open", "hard", "dropped"
OPEN_ASKS, DIRTY_PAGES, LOCKED_FILES, TOLD_ROWS = 16, 64, 1024, 1024
MOST_TRIED, MOST_KEPT = 300, 50


class Refused(Exception):
    """Why the volume can't take a step."""


def need(holds, why):
    if not holds:
        raise Refused(why)


class Entry:
    """A write, a patch or a cut in the log."""

    def __init__(self, client, change):
        self.client, self.change = client, change
        self.place = change[1:3] if change[0] != "cut" else None
        self.fate = OPEN if self.place else HARD
        self.crashed, self.failed, self.told = False, None, False

    def is_of(self, client, file):
        return self.place is not None and (self.client, self.place[0]) == (client, file)

    def is_settled(self):
        return self.fate == HARD or self.crashed or self.fate == DROPPED and self.told


def touched(op, directory, name, *more):
    """What an ask for a name reads or changes: directories, and which of them there are."""
    new = directory != 1 or op in ("create", "mkdir", "rename") or more == (0,)
    return {directory, *more[:1]} | ({"new"} if new else set())


class Asked:
    """An open or orphaned ask: all of it but what depends on when names took effect."""

    def __init__(self, client, number, ask):
        self.client, self.number, self.key, self.ask = client, number, (client, number), ask
        self.kind, self.op = ask[0], ask[2][0] if ask[0] == "name" else None
        self.place = ask[1:3] if self.kind in ("write", "patch") else None
        self.file, self.written, self.full, self.faults = ask[1], False, False, set()
        if self.kind == "name":
            self.file = ask[1], ask[2][3] if ask[2][0] == "remove" else 0
        self.server = self.file[0]
        self.touched = touched(*ask[2]) if self.kind == "name" else {"new"}
        self.changes = self.kind == "cut" or self.op in ("create", "mkdir", "remove", "rename")

    def is_of(self, client, server):
        """It belongs to this client, or to any, and is for this server."""
        return client in (None, self.client) and self.server == server

    def is_sooner(self, then):
        """Whether it must take effect before a later ask. Paragraph "Order"."""
        if self.client != then.client or self.number >= then.number or self.kind in ("read", "sync"):
            return False
        cuts = then.kind in ("cut", "name") and self.file == then.file
        return cuts or self.kind == "write" and self.place == then.place


class Possible:
    """What depends on when names took effect: the trees; of each open ask its result, whether its
    file was missing, and whether another file had its name; and the orphans. Never changed."""

    def __init__(self, trees, marks, orphans, effects=0):
        self.trees, self.marks, self.orphans, self.effects = trees, marks, orphans, effects
        self.key = (tuple(tree.key for tree in trees), frozenset(marks.items()), frozenset(it.key for it in orphans))

    def tree(self, server):
        return self.trees[server - 1] if 1 <= server <= len(self.trees) else None

    def exists(self, file):
        return self.tree(file[0]) is not None and self.tree(file[0]).is_file(file[1])

    def is_untaken(self, it):
        return not it.written and (it.key not in self.marks or self.marks[it.key][0] is None)

    def noticed(self, it, mark=(None, False, False)):
        """The mark of an ask after a look at its file and its name."""
        result, missed, other = mark
        missed = missed or it.file[1] != 0 and not self.exists(it.file)
        if it.op == "remove" and self.tree(it.server):
            found, is_dir = self.tree(it.server).entries.get(it.ask[2][1:3], (None, False))
            other = other or found is not None and not is_dir and found != it.file[1]
        return result, missed, other

    def but(self, **new):
        return Possible(*(new.get(it, getattr(self, it)) for it in ("trees", "marks", "orphans", "effects")))

    def without_orphans(self, client, server):
        """The orphans of a client, or of all, at a server no longer take effect."""
        return self.but(orphans=tuple(it for it in self.orphans if not it.is_of(client, server)))


class Volume:
    """The state of the volume, in each possibility of what a report leaves open."""

    def __init__(self, sizes):
        self.sizes, self.log, self.open, self.claims = sizes, [], {}, set()
        self.asks, self.starts, self.files = {}, {}, {}
        self.possible, self.whole = [Possible((FRESH,) * len(sizes), {}, ())], True

    def asked(self, client, ask):
        need(len(self.open_of(client)) <= OPEN_ASKS, f"17 asks of c{client} are open, not 16")
        self.asks[client] = self.asks.get(client, 0) + 1
        it, others = Asked(client, self.asks[client], ask), self.open_of(client)
        it.full = any(other.full and it.place and other.place == it.place for other in others)
        self.files.setdefault((client, it.server), set()).add(it.file[1])
        self.open[it.key] = it
        self.claims |= {it.place} - {None}
        same = [other.key for other in others if other.file == it.file]
        self.possible = [state.but(marks={**state.marks, it.key: state.noticed(
            it, (None, any(state.marks[key][1] for key in same), False))}) for state in self.possible]
        self.notice_room()

    def open_of(self, client):
        return [it for it in self.open.values() if it.client == client]

    def notice_room(self):
        full = [server for server, size in enumerate(self.sizes, 1)
                if sum(file[0] == server for file, _ in self.claims) > size]
        for it in self.open.values():
            it.full = it.full or it.server in full

    def is_clear(self, client, file):
        """No other client has open entries of the file."""
        return all(it.client == client or it.fate != OPEN or it.place[0] != file for it in self.log)

    def may_take(self, state, it):
        """It has not taken effect, and no other ask must do so before."""
        return state.is_untaken(it) and not any(
            state.is_untaken(other) and other.is_sooner(it) for other in self.open.values())

    def takes(self, state, it, made):
        """What is possible after an ask took effect so: (tree or None, result, removed file)."""
        tree, result, _ = made
        after = state.without_orphans(it.client, it.server).but(effects=state.effects + 1)
        if it.key in state.marks:
            after = after.but(marks={**state.marks, it.key: (result, *state.marks[it.key][1:])})
        if tree is not None and tree is not state.tree(it.server):
            after = after.but(trees=(*state.trees[:it.server - 1], tree, *state.trees[it.server:]))
            after = after.but(marks={key: after.noticed(self.open[key], mark) for key, mark in after.marks.items()})
        return after

    def waiting(self, state, server):
        """The asks that may take effect at a server, and have not."""
        return [it for it in (*self.open.values(), *state.orphans)
                if it.server == server and self.may_take(state, it)]

    def name_effects(self, state, server):
        """The asks for names that may take effect without a line, and what they do."""
        for it in self.waiting(state, server):
            made = does(state.tree(server), it.ask[2]) if it.kind == "name" else None
            if made and made[2] is None:
                yield it, made

    def relevant(self, state, server, wanted):
        """The asks that bear on the wanted ones: those that must come before, that their effect
        depends on or changes, and the orphans that they end. All others are left to later."""
        asks = [it for it in (*self.open.values(), *state.orphans)
                if it.kind == "name" and it.server == server and state.is_untaken(it)]
        chosen = list(wanted)
        for it in chosen:
            chosen += [other for other in asks if other not in chosen and (
                other.is_sooner(it) or other in state.orphans and other.client == it.client or
                other.touched & it.touched and (it.changes or other.changes))]
        return chosen

    def search(self, server, ends, wanted, later=True):
        """Some names take effect at a server, and then what `ends` gives for a possibility and the
        last effect. If that effect could as well come afterwards, it is left to later."""
        found = {}
        for start in self.possible if 1 <= server <= len(self.sizes) else []:
            seen, ahead = {start.key}, collections.deque([(start, None, None)])
            chosen = self.relevant(start, server, wanted(start))
            while ahead and len(seen) <= MOST_TRIED:
                state, before, last = ahead.popleft()
                for after in ends(state, last):
                    if not later or before is None or not any(
                            self.takes(earlier, it, made).key == after.key for earlier in ends(before, None)
                            for it, made in self.name_effects(earlier, server) if it is last):
                        found[after.key] = after
                for it, made in self.name_effects(state, server):
                    after = self.takes(state, it, made) if it in chosen else state
                    if after.key not in seen:
                        seen.add(after.key)
                        ahead.append((after, state, it))
            self.whole = self.whole and not ahead
        return list(found.values())

    def keep(self, states, why):
        """Goes on with these possibilities, those with the fewest effects first."""
        need(states, why)
        states = sorted({state.key: state for state in states}.values(), key=lambda it: it.effects)
        self.possible, self.whole = states[:MOST_KEPT], self.whole and len(states) <= MOST_KEPT

    def settle_orphans(self, client, server):
        """The orphans of a client, or of all, at a server take effect now or never."""
        if any(it.is_of(client, server) for state in self.possible for it in state.orphans):
            self.keep(self.search(server, lambda state, last: [state.without_orphans(client, server)]
                if last is None or last.key not in self.open else [],
                lambda state: [it for it in state.orphans if it.is_of(client, server)], False), "")

    def with_file(self, file):
        """The possibilities in which a file exists."""
        if not all(state.exists(file) for state in self.possible):
            self.keep(self.search(file[0], lambda state, last: [state] if state.exists(file) else [],
                lambda state: [it for it in (*self.open.values(), *state.orphans)
                               if it.op == "create"]), "the file doesn't exist")

    def joined(self, index, client, change):
        """The line of an entry: an ask takes effect before it."""
        need(index == len(self.log) + 1, f"the next entry is {len(self.log) + 1}")
        if change[0] == "cut":
            self.cut(change[1], change[2])
        else:
            it = next((it for it in self.open_of(client) if it.ask == change and not it.written), None)
            need(it, f"no open ask of c{client} is this {change[0]}")
            need(self.may_take(self.possible[0], it), f"an earlier write of c{client} is open")
            need(self.is_clear(client, it.file), "another client has open entries of the file")
            self.with_file(it.file)
            self.settle_orphans(client, it.server)
            it.written = True
        self.log.append(Entry(client, change))
        self.notice_room()

    def cut(self, file, page):
        """A cut, or a remove of a file, takes effect."""
        def ends(state, last):
            for it in self.waiting(state, file[0]) if state.exists(file) else []:
                made = (None, ("cut",), file[1]) if it.ask == ("cut", file, page) else None
                if it.kind == "name" and page == 0:
                    made = does(state.tree(file[0]), it.ask[2])
                if made and made[2] == file[1] and self.is_clear(it.client, file):
                    yield self.takes(state, it, made)
        self.keep(self.search(file[0], ends, lambda state: [it for it in (*self.open.values(), *state.orphans)
            if it.kind in ("cut", "name") and it.file == file]), "no ask may cut this now")
        self.claims = {place for place in self.claims if place[0] != file or place[1] < page}
        self.claims |= {it.place for it in self.open.values()} - {None}

    def answered(self, client, op, answer):
        it, kind = self.open.get((client, op)), answer[0]
        need(it, f"c{client} has no open ask {op}")
        if kind in ("named", "listed", "refused"):
            self.has_result(it, answer)
        elif kind == "written":
            need(it.written, "the ask has not taken effect")
        elif kind == "cut":
            self.keep([state for state in self.possible if state.marks[it.key][0] == answer],
                      "the ask has not taken effect")
        elif kind == "uncertain":
            self.is_uncertain(it, *answer[1:])
        else:
            self.keep([state for state in self.possible if state.is_untaken(it)], "the ask has taken effect")
            rule = getattr(self, f"is_{kind}", None)
            rule(it, *answer[1:]) if rule else self.need_cause(it, *answer)
        del self.open[it.key]
        self.keep([state.but(marks={key: mark for key, mark in state.marks.items()
                                    if key != it.key}) for state in self.possible], "")

    def has_result(self, it, answer):
        """An ask for a name has taken effect, or does so now."""
        need(it.kind == "name", "the ask is none for a name")
        def ends(state, last):
            if state.marks[it.key][0] == answer:
                yield state
            elif self.may_take(state, it):
                made = does(state.tree(it.server), it.ask[2])
                if made and made[1:] == (answer, None):
                    yield self.takes(state, it, made)
        self.keep(self.search(it.server, ends, lambda state: [it]), "at no moment since the ask this is its result")

    def is_uncertain(self, it, old, new):
        now = 1 + self.starts.get(it.server, 0)
        need(it.kind in ("cut", "name"), "the ask is neither a cut nor for a name")
        need(1 <= old <= now and (new == 0 or old < new <= now), "the server has no such epochs")
        if new == 0 and old == now:
            self.keep([state.but(orphans=(*state.orphans, it)) if it.changes and state.is_untaken(it) else state
                       for state in self.possible], "")
        elif it.kind == "name":
            self.keep(self.search(it.server, lambda state, last: [state] if last in (None, it)
                                  else [], lambda state: [it], False), "there is no such server")

    def is_read(self, it, data):
        need(it.kind == "read", "the ask isn't a read")
        need(self.is_clear(it.client, it.file), "another client has open entries of the file")
        self.with_file(it.file)
        need(data == self.content(it.file, it.ask[2]), "the page contains other bytes")
        self.settle_orphans(it.client, it.server)

    def content(self, file, page):
        """The bytes of a page, by the entries that touch it and were not dropped."""
        data = bytearray(WHOLE_PAGE)
        for kind, of, at_page, *rest in (it.change for it in self.log if it.fate != DROPPED):
            if of == file and (page == at_page or kind == "cut" and page > at_page):
                at, new = {"cut": (0, bytes(WHOLE_PAGE)), "write": (0, *rest), "patch": rest}[kind]
                data[at:at + len(new)] = new
        return bytes(data)

    def settled(self, it):
        """The entries of the client for the file of its sync, of which none may be in doubt."""
        need(it.kind == "sync", "the ask isn't a sync")
        for index, entry in enumerate(self.log, 1):
            if entry.is_of(it.client, it.file):
                need(entry.is_settled(), f"entry {index} is neither hard nor told as lost")
                yield entry

    def is_hard(self, it):
        for entry in list(self.settled(it)):
            entry.told = True

    def is_quiesced(self, it):
        if it.kind == "sync":
            list(self.settled(it))

    def is_lost(self, it, rows):
        need(it.kind == "sync", "the ask isn't a sync")
        need(rows and all(a[0] < b[0] for a, b in zip(rows, rows[1:])), "the pages don't rise")
        own = [entry for entry in self.log if entry.is_of(it.client, it.file)]
        for page, number in rows:
            need(number and any((entry.place[1], entry.failed) == (page, number) and
                                not (entry.told or entry.crashed) for entry in own),
                 f"command {number} isn't the last failed one of page {page}, or that was told")
        told = dict(rows)
        for entry in own:
            if entry.place[1] in told and (entry.fate == DROPPED or entry.failed == told[entry.place[1]]):
                entry.told = True
        need(len(rows) >= TOLD_ROWS or all(entry.fate != DROPPED or entry.is_settled()
                                           for entry in own), "another dropped entry isn't told")

    def is_nofile(self, it):
        if 1 <= it.server <= len(self.sizes):
            need(it.kind != "sync", "a sync needs no file")
            self.keep([state for state in self.possible if state.marks[it.key][1]],
                      "its file exists since the ask, or it has none")

    def is_notholder(self, it):
        self.keep(self.search(it.server, lambda state, last: [state] if state.is_untaken(it) and
                              state.marks[it.key][2] else [], lambda state: [it]), "no other file had the name")

    def need_cause(self, it, kind, *fields):
        dirty = {entry.place for entry in self.log if entry.client == it.client and entry.place and
                 entry.place[0][0] == it.server and not (entry.crashed or entry.told or entry.fate == DROPPED)}
        files = self.files[it.client, it.server] - {0}
        holds, why = {
            "nospace": (it.place and it.full and fields == (0, 1), "the server was not full"),
            "diskfault": (it.faults.issuperset(fields), "no such command has failed the ask"),
            "opsfull": (sum(other.number < it.number for other in self.open_of(it.client)) == OPEN_ASKS,
                        "not 16 earlier asks are open"),
            "dirtyfull": (it.place and len(dirty | {it.place}) > DIRTY_PAGES, "not 64 other pages may be dirty"),
            "toomanylocks": (it.kind != "sync" and it.file[1] and len(files) > LOCKED_FILES,
                             "the client was not asked of 1,024 other files")}[kind]
        need(holds, why)

    def open_entry(self, index):
        entry = self.log[index - 1] if 1 <= index <= len(self.log) else None
        need(entry and entry.fate == OPEN, f"entry {index} isn't open")
        return entry

    def hardened(self, index):
        self.open_entry(index).fate = HARD

    def dropped(self, index, number):
        """By a crash, if the number is None, or by a failed command."""
        entry = self.open_entry(index)
        need(entry.crashed if number is None else number and entry.failed == number, f"entry {index} has no such cause")
        entry.fate = DROPPED

    def crashed(self, client):
        for entry in self.log:
            entry.crashed = entry.crashed or entry.client == client
        gone = [it for it in self.open_of(client) if it.changes]
        self.open = {key: it for key, it in self.open.items() if it.client != client}
        self.keep([state.but(marks={key: mark for key, mark in state.marks.items() if key[0] != client},
            orphans=(*state.orphans, *(it for it in gone if state.is_untaken(it)))) for state in self.possible], "")

    def restarted(self, server):
        self.settle_orphans(None, server)
        self.starts[server] = self.starts.get(server, 0) + 1

    def write_failed(self, client, number, index):
        """A write that carried an entry, and along with it those before that are open."""
        need(1 <= index <= len(self.log), "a write failed that carried no entry")
        carried = self.log[index - 1]
        for entry in self.log[:index]:
            if (entry.client, entry.place) == (client, carried.place) and (entry.fate == OPEN or entry is carried):
                entry.failed = number
        self.fails(client, number, lambda it: it.ask == ("sync", carried.place[0]))

    def read_failed(self, client, server, number):
        self.fails(client, number, lambda it: it.kind in ("read", "patch") and it.server == server)

    def fails(self, client, number, test):
        for it in filter(test, self.open_of(client)):
            it.faults.add(number)
