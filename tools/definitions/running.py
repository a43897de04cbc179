"""The definitions as a program: written by scheme.py, compiled by Chez Scheme, and asked for
reports, for random runs, and which promises are broken.
"""
import functools
import hashlib
import os
import pathlib
import re
import resource
import subprocess
import sys

HERE = pathlib.Path(__file__).resolve().parent
sys.path[:0] = [str(HERE), str(HERE.parent / "lib")]
import comparing  # noqa: E402
from antt import NotUnderstood, Sources  # noqa: E402
from reference.report import lines_of  # noqa: E402
from reference.schedule import Head, LineRefused, ScheduleReader, event_line  # noqa: E402
from reference.settings import Limits, Settings  # noqa: E402
from scheme import Translator, symbol  # noqa: E402

RULES, PROMISES, THIRD = "Rattle.st_rules.specs.", "Rattle.st_promises.specs.", "Rattle.st_third.specs."
ROOTS = (("Run", "run"), ("Report", "report"), ("Report", "ending"), ("World", "fresh_world"), ("Events", "world_step"), ("Safety", "IsHead"), ("Safety", "is_event"),
         ("Safety", "steps"), ("Safety", "is_old"), ("Safety", "is_of_other_epoch"), ("Safety", "is_of_past_life"), ("History", "traced"))
THIRD_ROOTS = (("Run", "run"), ("Run", "third_report"), ("World", "third_world"), ("Events", "world_step"), ("Limits", "IsHead"), ("Steps", "steps"),
               ("Steps", "third_traced"), ("Steps", "plain_step"), ("State", "third_turn"), ("Client", "take_input"), ("Server", "take_input"), ("Messages", "spelling"), ("Messages", "fits"), ("Messages", "head_line"),
               ("Messages", "leave_line"))
ENUMS = (("st_third", "event", "ThirdEvent"), ("st_third", "message", "ThirdMessage"), ("st_third", "event", "ThirdInput"), ("st_rules", "disks", "Report"), ("st_messages", "event", "Event"), ("st_messages", "ask", "Ask"), ("st_base", "names", "NameAsk"), ("st_base", "ids", "NodeId"),
         ("core", "result", "Result"))
RECORDS = (("0",), ("server", "ino"), ("lease", "renew", "quiesce", "flush", "demand", "retry", "num", "den", "grain"),
           ("inodes", "locks", "dirty", "clean", "operations"), ("from", "to", "life", "epoch", "number", "stamp"))
# What a run's asks are like: of all kinds; six of ten for names; half of them cuts and removals,
# whose replies are often lost. `third` are runs of the third form, of all kinds.
ASKS = ("all", "names", "cuts")
THIRD_ASKS = "third"
MOST_MEMORY = 4 << 30
FORMS = (1, 2, 3)
# If this variable is set, only the promises that are named in addition are judged; the compiled
# program reads it too.
ONLY_MORE = "TANK_ONLY_MORE"


def module_path(file, folder):
    """The path of a module: CRATE:MODULE, or a MODULE of this folder."""
    return "Rattle." + file.replace(":", ".specs.") if ":" in file else folder + file


def promises_of(translator, more):
    """The promises by name, each as its symbol: the fields of IsSafe, unless only more are judged,
    and these more, each a module and a name in it.
    """
    module = translator.sources.module(PROMISES + "Safe")
    names = [] if os.environ.get(ONLY_MORE) else [text.split()[1] for _, text in module.records["IsSafe"][1]]
    places = [place.rsplit(".", 1) for place in more]
    found = [translator.root(module.path, name) for name in names]
    found += [translator.root(module_path(file, PROMISES), name) for file, name in places if name not in names]
    return {one[1].name: symbol(one[1].module.path, one[1].name) for one in found}


def third_promises_of(translator):
    """The promises of the third form by name, each as its symbol: the fields of IsThirdSafe."""
    module = translator.sources.module(THIRD + "Promises")
    names = [text.split()[1] for _, text in module.records["IsThirdSafe"][1]]
    return {name: symbol(module.path, translator.root(module.path, name)[1].name) for name in names}


def translated(sources, more, numbers=None):
    """The translated definitions, and the promises by name, each as its symbol: those of all forms,
    and those of the third.
    """
    translator = Translator(sources, numbers)
    for file, name in ROOTS:
        translator.root(RULES + file, name)
    for file, name in THIRD_ROOTS:
        translator.root(THIRD + file, name)
    promises, third = promises_of(translator, more), third_promises_of(translator)
    for enum in ENUMS:
        for variant in ("Ok", "Err") if enum[2] == "Result" else sources.variants(*enum):
            translator.variant((*enum, variant))
    for names in RECORDS:
        translator.layout(names)
    translator.run()
    return translator, promises, third


@functools.cache
def base(crates, more):
    """The sources of these crates, their translated definitions, and the promises."""
    sources = Sources(crates)
    return sources, *translated(sources, more)


def program_text(crates, more):
    """The definitions of these crates, with these promises more, as a program of Chez Scheme."""
    _, translator, *promises = base(crates, more)
    tables = [" ".join(f"(cons '{name} (lambda (past) (lambda (step) ({at} past step))))" for name, at in those.items()) for those in promises]
    library, scheduler, worlds = ((HERE / f"{name}.ss").read_text() for name in ("library", "scheduler", "worlds"))
    named = [f"(define {name} (list {table}))" for name, table in zip(("promises", "third-promises"), tables)]
    return "\n".join([library, translator.text(), *named, scheduler, worlds])


def changed_text(crates, more, texts):
    """What a program of these crates must evaluate so that some modules, of st_rules or as
    CRATE:MODULE, have these texts.
    """
    sources, before, *_ = base(str(crates), tuple(more))
    return translated(sources.with_texts({module_path(file, RULES): text for file, text in texts.items()}), more, before)[0].changes(before)


def built(crates, more=()):
    """The compiled program of these crates, with these promises more; it is kept for each text."""
    return compiled(str(crates), tuple(more))


@functools.cache
def compiled(crates, more):
    """The same, once in a process and in those that it starts."""
    try:
        text = program_text(crates, more)
    except NotUnderstood as fault:
        ended(f"a definition is not understood: {fault}")
    cache = pathlib.Path(os.environ.get("XDG_CACHE_HOME", pathlib.Path.home() / ".cache")) / "tavsligg" / "definitions"
    cache.mkdir(parents=True, exist_ok=True)
    program = cache / f"{hashlib.sha256(text.encode()).hexdigest()[:16]}.so"
    if not program.exists():
        source, part = cache / f"new-{os.getpid()}.ss", cache / f"new-{os.getpid()}.so"
        source.write_text(text)
        words = f'(optimize-level 2) (generate-inspector-information #f) (compile-file "{source}" "{part}")'
        try:
            said = subprocess.run(["chezscheme", "-q"], input=words, text=True, stdout=subprocess.PIPE, stderr=subprocess.STDOUT).stdout
        except FileNotFoundError:
            ended("Chez Scheme is wanted, Debian's package chezscheme")
        source.unlink()
        if not part.exists():
            ended(f"Chez Scheme does not compile them: {said[-300:]}")
        part.rename(program)
    return program


def ended(why):
    """Says why nothing can be run, and ends with status 2."""
    print(f"definitions: {why}", file=sys.stderr)
    raise SystemExit(2)


# Data for the program: reference/'s tuples as lists.

def datum(it):
    """What the program reads for a value of reference/."""
    if isinstance(it, Head):
        return datum((*it[:6], tuple(it.limits[:5])))
    if isinstance(it, bool):
        return "#t" if it else "#f"
    if isinstance(it, bytes):
        return "(bytes" + "".join(f" ({len(run.group())} {run.group()[0]})" for run in re.finditer(rb"(.)\1*", it, re.S)) + ")"
    return f"({' '.join(map(datum, it))})" if isinstance(it, (tuple, list)) else str(it)


def of_datum(text):
    """What the program wrote, as reference/ has it."""
    stack = [[]]
    for token in re.findall(r"[()]|[^\s()]+", text):
        if token == "(":
            stack.append([])
        elif token == ")":
            done = stack.pop()
            is_bytes = done[:1] == ["bytes"]
            stack[-1].append(b"".join(bytes((byte,)) * count for count, byte in done[1:]) if is_bytes else tuple(done))
        else:
            stack[-1].append(int(token) if token.isdigit() else {"#t": True, "#f": False}.get(token, token))
    return stack[0][0]


def schedule_of(head, events):
    """The text of a schedule."""
    numbers = [*head.settings[: 8 if head.form == 1 else 9], *head[2:6], *(head.limits[:5] if head.form == 3 else ())]
    return "\n".join([f"tank {head.form} {' '.join(map(str, numbers))}", *map(event_line, events), "end", ""]).encode("latin-1")


def read(schedule, forms=FORMS):
    """The head and the events of a schedule, up to what its reader refuses, and whether it refuses
    nothing. The head is None if it is refused.
    """
    reader, items = ScheduleReader(forms), []
    try:
        for line in lines_of([schedule]):
            items.append(reader.line(line))
        reader.finish()
        whole = True
    except LineRefused:
        whole = False
    return (items[0] if items else None), [it for it in items[1:] if it != ("end",)], whole


class Definitions:
    """The running program."""

    def __init__(self, crates=None, more=(), change=""):
        self.program, self.process, self.change = built(crates or comparing.ROOT / "crates", more), None, change

    def ask(self, *request):
        """What the program answers; if it ends or finds no clause, a text that begins with
        `error`.
        """
        if self.process is None:
            self.begin()
        return self.answer(datum(request))

    def begin(self):
        """Starts the program, and has it evaluate what is changed."""
        self.process = subprocess.Popen(["chezscheme", "--script", self.program], stdin=subprocess.PIPE, stdout=subprocess.PIPE,
                                        preexec_fn=lambda: resource.setrlimit(resource.RLIMIT_AS, (MOST_MEMORY, MOST_MEMORY)))
        if self.change:
            said = self.answer(f"(change {self.change})")
            if said:
                ended(f"the change is not evaluated: {said.decode()}")

    def answer(self, request):
        """What the program answers to a datum."""
        try:
            self.process.stdin.write(request.encode() + b"\n")
            self.process.stdin.flush()
        except BrokenPipeError:
            pass
        count = self.process.stdout.readline()
        if not count:
            self.process = None
            return b"error: the definitions stopped\n"
        return self.process.stdout.read(int(count))

    def report(self, head, events):
        """The report by the definitions of the first two forms."""
        return self.ask("report", head, events)

    def third_report(self, head, events):
        """The report by the definitions of all forms."""
        return self.ask("third-report", head, events)

    def drawn(self, seed, length, asks="all"):
        """The head and the events of a random run by the definitions' own scheduler, with asks of
        one of ASKS.
        """
        head, events = of_datum(self.ask("draw", seed, length, asks).decode())
        return Head(head[0], Settings(*head[1]), *head[2:6], *(Limits(*numbers, True) for numbers in head[6:])), list(events)

    def judged(self, head, events):
        """How many steps a run has, and what is broken in it: pairs of a promise and a step."""
        said = self.ask("third-judge" if head.form == 3 else "judge", head, events).decode()
        if said.startswith("error"):
            return 0, [(said.strip(), 0)]
        steps, sound, broken = of_datum(said)
        broken = [(name, step) for name, _, step in broken]
        return steps, broken if sound else [("the schedule is none", 0), *broken]
