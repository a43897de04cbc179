"""The text of schedules, for the tools: heads and events word by word, as in docs/PROTOCOL.md,
"Schedules"; and comments.

`plain` removes comments and blank lines. `fault` finds the first wrong word of a line, as the
program does, and says what is expected there.
"""
import difflib
import re

SETTINGS = ("LEASE", "RENEW", "QUIESCE", "FLUSH", "DEMAND", "RETRY", "NUM", "DEN")
COUNTS = ("CLIENTS", "SERVERS", "DISKS", "BLOCKS")
MOST_SETTING, MOST_NUMBER, MOST_PAGE, MOST_LINE = 2**63 - 1, 4294967295, 1048575, 256
ASKS = ("write", "read", "sync", "cut", "lookup", "create", "mkdir", "remove", "rename", "list", "patch")
EVENTS = ("adv", "tick", "app", "deliver", "lose", "cut", "heal", "effect", "report", "crash", "start", "end")


class Place:
    """One word's place: its name, and how a word is checked there. A number's place has a range;
    others a pattern.
    """

    def __init__(self, name, about, pattern=None, least=0, most=0):
        self.name, self.about, self.pattern, self.least, self.most = name, about, pattern and re.compile(pattern), least, most

    def fault(self, word):
        """'Syntax' or 'Number' if the word is wrong here, otherwise nothing."""
        if self.pattern:
            return None if self.pattern.fullmatch(word) and self.is_in_range(word) else "Syntax"
        if not re.fullmatch("[0-9]+", word):
            return "Syntax"
        return None if (word == "0" or word[0] != "0") and self.least <= int(word) <= self.most else "Number"

    def is_in_range(self, word):
        """The numbers inside a file are in their ranges; for a node the pattern suffices."""
        if self.name != "F":
            return True
        server, inode = map(int, word.split(":"))
        return server <= 65535 and inode <= MOST_NUMBER


def number(name, about, least, most):
    return Place(name, f"{about}, a number from {least} to {most}", None, least, most)


def words(name, choices):
    return Place(name, "one of " + ", ".join(choices) if len(choices) > 1 else f"the word {choices[0]}", "|".join(map(re.escape, choices)))


NODE = Place("N", "a node: c or s and its number, such as c1 or s1", "[cs][1-9][0-9]?")
CLIENT = Place("C", "a client: c and its number, such as c1", "c[1-9][0-9]?")
FILE = Place("F", "a file: its server and its inode with a colon between them, such as 1:2", "[1-9][0-9]{0,4}:[1-9][0-9]{0,9}")
NAME = Place("NAME", "a name of 1 to 100 visible ASCII characters", "[!-~]{1,100}")
PAGE = number("P", "a page", 0, MOST_PAGE)
BYTE = number("B", "the byte that the page is filled with", 0, 255)
MESSAGE = number("K", "a message's number in the order of sending", 1, MOST_NUMBER)
COMMAND = number("K", "a disk command's number in the order of submission", 1, MOST_NUMBER)
ASKED = {
    "write": [FILE, PAGE, BYTE], "read": [FILE, PAGE], "sync": [FILE], "cut": [FILE, PAGE], "lookup": [FILE, NAME], "create": [FILE, NAME],
    "mkdir": [FILE, NAME], "remove": [FILE, NAME, number("I", "the inode that the asker means, 0 for a directory", 0, MOST_NUMBER)],
    "rename": [FILE, NAME, number("I", "the inode of the second directory", 1, MOST_NUMBER), NAME],
    "list": [FILE, Place("AFTER", "a name after which the listing begins, or - for the beginning", "[!-~]{1,100}")],
}
FORMS = {
    "tick": [NODE], "deliver": [MESSAGE], "lose": [MESSAGE], "cut": [NODE, NODE], "heal": [NODE, NODE], "effect": [COMMAND],
    "report": [COMMAND, words("ok|fail", ("ok", "fail"))], "crash": [NODE], "start": [NODE], "end": [],
}


class Head:
    """A head's settings and counts, and in the third form its limits."""

    def __init__(self, form, settings, counts, limits=()):
        self.form, self.settings, self.limits = form, settings, limits
        self.clients, self.servers, self.disks, self.blocks = counts
        self.nodes = [f"c{i + 1}" for i in range(self.clients)] + [f"s{i + 1}" for i in range(self.servers)]


class Fault:
    """The first wrong word of a line: its refusal, its column from 1, the word (nothing if it is
    missing), and what is expected there.
    """

    def __init__(self, kind, column, word, place, is_last=False):
        self.kind, self.column, self.word, self.place, self.is_last = kind, column, word, place, is_last


def plain(text):
    """The lines of a schedule (as bytes) without comments and blank lines, and the number that each
    had before.
    """
    lines = text.split(b"\n")
    if lines[-1] == b"":
        lines.pop()
    kept = [(at, line) for at, line in enumerate(lines, 1) if line.strip() and not line.lstrip().startswith(b"#")]
    return [line for _, line in kept], [at for at, _ in kept]


def head_names(form):
    return [*SETTINGS, *(["GRAIN"] if form == 2 else []), *COUNTS]


def head_places(form):
    """The places of a head's words after the form; those after SERVERS depend on it, see
    `fault_of_head`.
    """
    most = {"CLIENTS": 16, "SERVERS": 4, "DISKS": 8, "BLOCKS": 4096}
    return [number(name, f"{name} of the head", 1 if name in most else 0, most.get(name, MOST_SETTING)) for name in head_names(form)]


def walk(line_words, places):
    """Checks words against places; returns the first fault, or nothing."""
    column = 1
    for at, word in enumerate(line_words):
        if at >= len(places):
            return Fault("Syntax", column, word, None, True)
        kind = places[at].fault(word)
        if kind:
            return Fault(kind, column, word, places[at])
        column += len(word) + 1
    if len(line_words) < len(places):
        return Fault("Syntax", column - 1, None, places[len(line_words)])
    return None


def fault_of_head(line):
    """The first fault of the head, or nothing; its settings may still be refused."""
    given = line.split(" ")
    places = [words("tank", ("tank",)), words("FORM", ("1", "2"))]
    places += head_places(2 if given[1:2] == ["2"] else 1)
    servers = len(places) - 3
    if len(given) > servers and not places[servers].fault(given[servers]):
        places[servers + 1] = number("DISKS", "DISKS of the head, at least one for each server", int(given[servers]), 8)
    return walk(given, places)


def head_of(line):
    """The head that a line is, if it has no fault."""
    given = line.split(" ")
    form = int(given[1])
    values = dict(zip(head_names(form), map(int, given[2:])))
    return Head(form, values, [values[name] for name in COUNTS])


def places_of(given, head):
    """The places of an event's words, as far as its first words decide them."""
    verb = given[0]
    verbs = words("EVENT", EVENTS)
    if verb == "adv":
        step = number("D", "the ticks by which clocks advance", 1 if head.form == 1 else 0, MOST_NUMBER)
        return [verbs] + [step] * (1 if len(given) <= 2 else len(head.nodes))
    if verb == "app":
        asks = words("ASK", ASKS if head.form == 2 else ASKS[:-1])
        asked = dict(ASKED)
        if head.form == 2:
            at = int(given[5]) if len(given) > 5 and re.fullmatch("[0-9]{1,4}", given[5]) else 0
            asked["patch"] = [FILE, PAGE, number("AT", "the place in the page of the patch's first byte", 0, 4095),
                              number("LEN", "how many bytes the patch has, within the page's 4,096", 1, 4096 - min(at, 4095)), BYTE]
        return [verbs, CLIENT, asks, *(asked.get(given[2], []) if len(given) > 2 else [])]
    return [verbs, *FORMS.get(verb, [])]


def fault(line, head):
    """The first fault of an event's line, or nothing."""
    given = line.split(" ")
    return walk(given, places_of(given, head))


def near(word, choices):
    """The choice that a wrong word most likely means, or nothing."""
    low = word.lower()
    if low in choices:
        return low
    found = difflib.get_close_matches(low, choices, 1, 0.6)
    return found[0] if found else next((it for it in choices if len(low) > 2 and (it.startswith(low) or low.startswith(it))), None)
