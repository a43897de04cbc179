"""Which laws and promises a rule serves: those whose proofs speak of it.

A proof speaks of a rule if a lemma names one of its definitions, or a change of st_trace that
the rule makes. Such a change has a type that names a definition of the rule, or a lemma of st_trace
gets it from one. A law is a public function of a law crate. Its proof consists of the lemmas that
the file of its name takes, of those of the same crate and of st_lemmas that they name, and so on.
"""
import collections
import functools
import pathlib
import re

ROOT = pathlib.Path(__file__).resolve().parents[2]
USE = re.compile(r"^(?:pub )?use ([\w.]+?)(?:\.\{([^}]*)\})?(?: as (\w+))?\s*$", re.M)
DECLARATION = re.compile(r"( *)(?:(?:pub|unfoldable|abbrev|data|record) )*([^\s:(){}]+)")
NO_LAWS = ("st_laws_steps", "st_laws_refine", "st_laws_safe")  # walks of all rules, and the theorem
Lemma = collections.namedtuple("Lemma", "module name")
WORDS = "st_lemmas.proofs.Words"


def passed_on():
    """What Words passes on: its modules by their names there, and its items by theirs."""
    modules, items = {}, {}
    for path, names, short in USE.findall((ROOT / "crates/st_lemmas/proofs/Words.antt").read_text()):
        module = path.removeprefix("Rattle.")
        if not names:
            modules[short or module.rsplit(".", 1)[-1]] = module
        for name in filter(None, (it.strip() for it in names.split(","))):
            items[name] = Lemma(module, name)
    return modules, items


PASSED_MODULES, PASSED_ITEMS = passed_on()


class File:
    """What a file takes, as modules by their short names and names by their modules, and the text
    of each of its declarations.
    """

    def __init__(self, path):
        text = re.sub(r"(^|\s)--[^\n]*", r"\1", path.read_text())
        self.module, self.modules, self.names = ".".join(path.relative_to(ROOT / "crates").with_suffix("").parts), {}, {}
        for path, items, short in USE.findall(text):
            first, dot, rest = path.partition(".")
            module = rest if first == "Rattle" else self.modules.get(first, first) + dot + rest
            if module.startswith(WORDS + "."):
                inner, dot, rest = module.removeprefix(WORDS + ".").partition(".")
                module = PASSED_MODULES.get(inner, inner) + dot + rest
            if not items:
                self.modules[short or module.rsplit(".", 1)[-1]] = module
            for item in filter(None, (it.strip() for it in items.split(","))):
                name, _, other = item.partition(" as ")
                self.names[other or name] = PASSED_ITEMS[name] if module == WORDS else Lemma(module, name)
        self.texts = self.divide(USE.sub("", text))

    @staticmethod
    def divide(text):
        """The lines of each declaration, also of those in `module` blocks."""
        found, blocks, name = collections.defaultdict(list), [], None
        for line in filter(str.strip, text.split("\n")):
            depth = len(line) - len(line.lstrip())
            while blocks and depth <= blocks[-1]:
                blocks.pop()
            if depth == (blocks[-1] + 2 if blocks else 0) and not line.lstrip().startswith("unfolding"):
                found_name = DECLARATION.match(line)
                name = found_name[2] if found_name else name
            if line.lstrip().startswith("module "):
                blocks.append(depth)
            found[name].append(line)
        return {one: "\n".join(lines) for one, lines in found.items()}

    def named(self, text):
        """The names of all modules that a text has, each with its module."""
        words = set(re.findall(r"(?<![\w.])[A-Za-z_][\w'-]*", text))
        found = {Lemma(self.modules[short], name) for short, name in re.findall(r"(?<![\w.])([A-Za-z_]\w*)\.([A-Za-z_]\w*)", text) if short in self.modules}
        return found | {self.names[word] for word in words if word in self.names} | {Lemma(self.module, word) for word in words if word in self.texts}


@functools.cache
def file_of(module):
    path = ROOT / "crates" / (module.replace(".", "/") + ".antt")
    return File(path) if path.is_file() else None


def rules_among(names):
    return {one for one in names if one.module.startswith("st_rules.specs")}


@functools.cache
def changes():
    """The changes of st_trace, each with the definitions of the rules that make it."""
    found = collections.defaultdict(set)
    for path in sorted((ROOT / "crates/st_trace/specs").glob("*/*.antt")):
        file = File(path)
        for name, kind in re.findall(r"^  ([A-Z]\w*) : ((?:.|\n(?!  [A-Z]|\S|\n))*)", "\n".join(file.texts.values()), re.M):
            found[Lemma(file.module, name)] |= rules_among(file.named(kind))
    for path in sorted((ROOT / "crates/st_trace/proofs").glob("*/*.antt")):
        file = File(path)
        for text in file.texts.values():
            names = file.named(text)
            if len(made := [name for name in names if name in found]) <= 3:
                for name in made:
                    found[name] |= rules_among(names)
    return dict(found)


@functools.cache
def named_by(lemma):
    file = file_of(lemma.module)
    return file.named(file.texts[lemma.name]) if file and lemma.name in file.texts else set()


def proof_of(crate, law):
    """What the lemmas of a law's proof name."""
    start = file_of(f"{crate}.proofs.{law}.Answers")
    left, seen = list(start.names.values()) if start else [], set()
    while left:
        lemma = left.pop()
        if lemma in seen:
            continue
        seen.add(lemma)
        left += named_by(lemma) if lemma.module.startswith((f"{crate}.", "st_lemmas.proofs.")) else ()
    return seen


@functools.cache
def spoken():
    """For each law the definitions of rules of which its proof speaks."""
    found = {}
    for source in sorted(ROOT.glob("crates/st_laws_*/src/lib.rt")):
        crate = source.parts[-3]
        for law in re.findall(r"^pub fn (\w+)", source.read_text(), re.M) if crate not in NO_LAWS else ():
            found[crate, law] = {one for name in proof_of(crate, law) for one in changes().get(name, {name} if name.module.startswith("st_rules.specs") else ())}
    return found


@functools.cache
def promises():
    """For each law the promises that its contract names."""
    specs = (ROOT / "crates/st_promises/specs").glob("*.antt")
    known = {name for path in specs for name in re.findall(r"^(?:abbrev |unfoldable )?pub ([A-Z]\w*)", path.read_text(), re.M)}
    found = {}
    for source in ROOT.glob("crates/st_laws_*/src/lib.rt"):
        for name, contract in re.findall(r"^pub fn (\w+)\(\)((?:.|\n(?!pub fn))*?)\{\}", source.read_text(), re.M):
            found[source.parts[-3], name] = [word for word in dict.fromkeys(re.findall(r"[A-Z]\w+", contract)) if word in known]
    return found


def served(definitions):
    """The laws that definitions of rules serve, as names, each with the promises that it shows:
    first those whose proofs speak of the fewest definitions.
    """
    wanted = {Lemma(f"st_rules.specs.{file}", name) for file, name in definitions}
    found = sorted((len(names), crate, law) for (crate, law), names in spoken().items() if names & wanted)
    return list(dict.fromkeys((law, tuple(promises().get((crate, law), ()))) for _, crate, law in found))
