"""Reads definition files (.antt): their words, expressions, clauses, records and `use` lines. What
it does not understand is an error.
"""
import functools
import pathlib
import re


class NotUnderstood(Exception):
    """A text that is not read."""


PUNCTUATION = set("(){}[],;")
ESCAPES = {"n": "\n", "t": "\t", "\\": "\\", '"': '"'}
# How tight an operator binds, and which side may have the same one again.
OPERATORS = {"→": (1, "right"), "×": (2, "right"), "≡": (4, ""), "||": (30, "left"), "&&": (35, "left"), "==": (40, ""), "<": (50, ""), "≤": (50, ""),
             "+": (65, "left"), "-": (65, "left"), "++": (65, "left"), "∷": (67, "right"), "*": (70, "left"), "/": (70, "left"), "%": (70, "left"),
             "^": (75, "right")}
ENDS = {"then", "else", "=", ":", "in"}
NO_VALUES = ("elim", "let", "data", "∀", "open", "_", "?")


def word_end(text, place):
    """Where the word ends that begins there."""
    while place < len(text) and not text[place].isspace() and text[place] not in PUNCTUATION and text[place] != '"':
        place += 1
    return place


def tokens_of(text):
    """The tokens, each a pair of a kind and a value. A name keeps its dots: `a.b.0` is one token;
    `.f` right after `)` is ("field", "f").
    """
    out, place = [], 0
    while place < len(text):
        letter = text[place]
        if letter.isspace():
            place += 1
        elif text.startswith("--", place) and (place == 0 or text[place - 1].isspace()):
            place = text.find("\n", place) % (len(text) + 1)
        elif letter == '"':
            value, place = "", place + 1
            while text[place] != '"':
                escaped = text[place] == "\\"
                value += ESCAPES[text[place + 1]] if escaped else text[place]
                place += 1 + escaped
            out.append(("text", value))
            place += 1
        elif text.startswith("[]", place):
            out.append(("name", "[]"))
            place += 2
        elif letter in PUNCTUATION:
            out.append(("mark", letter))
            place += 1
            while letter == ")" and re.match(r"\.[^\s.(){}\[\],;]", text[place:]):
                end = re.compile(r"[^\s.(){}\[\],;]+").match(text, place + 1).end()
                out.append(("field", text[place + 1 : end]))
                place = end
        else:
            end = word_end(text, place)
            word, place = text[place:end], end
            if word.endswith(".") and len(word) > 1:
                out += [("name", word[:-1]), ("mark", ".")]
            else:
                out.append(("number", int(word)) if re.fullmatch("[0-9]+", word) else ("name", word))
    return out


class Parser:
    """Expressions, as tuples: ("number", n), ("text", s), ("name", dotted), ("tuple", items),
    ("if", a, b, c), ("function", names, body), ("apply", head, arguments), ("operator", sign, left,
    right), ("field", of, name) and ("record", base or None, fields)."""

    def __init__(self, tokens, where):
        self.tokens, self.place, self.where = tokens, 0, where

    def fail(self, why):
        raise NotUnderstood(f"{self.where}: {why} at {self.tokens[max(0, self.place - 2) : self.place + 6]}")

    def peek(self):
        return self.tokens[self.place] if self.place < len(self.tokens) else ("end", None)

    def take(self):
        self.place += 1
        return self.tokens[self.place - 1] if self.place <= len(self.tokens) else ("end", None)

    def want(self, value):
        if self.peek()[1] != value or self.peek()[0] == "text":
            self.fail(f"no {value}")
        self.take()

    def whole(self):
        """The expression that all tokens are."""
        found = self.expression(0)
        if self.peek()[0] != "end":
            self.fail("more than an expression")
        return found

    def expression(self, level):
        """An expression whose operators bind at least as tight as this."""
        left = self.prefix()
        while True:
            kind, sign = self.peek()
            if kind != "name" or sign not in OPERATORS or OPERATORS[sign][0] < level:
                return left
            binds, side = OPERATORS[sign]
            self.take()
            left = ("operator", sign, left, self.expression(binds if side == "right" else binds + 1))
            following = self.peek()
            if side == "" and following[0] == "name" and OPERATORS.get(following[1], (0,))[0] == binds:
                self.fail(f"two {sign}")

    def prefix(self):
        """A function, a choice, or a head with its arguments."""
        if self.peek() == ("name", "λ"):
            self.take()
            names = []
            while self.peek() != ("mark", "."):
                kind, value = self.take()
                if kind != "name":
                    self.fail("a λ with types")
                names.append(value)
            self.take()
            return ("function", names, self.expression(0))
        if self.peek() == ("name", "if"):
            self.take()
            test = self.expression(0)
            self.want("then")
            one = self.expression(0)
            self.want("else")
            return ("if", test, one, self.expression(5))
        head = self.atom()
        if head is None:
            self.fail("no expression")
        arguments = []
        while (argument := self.atom()) is not None:
            arguments.append(argument)
        return ("apply", head, arguments) if arguments else head

    def atom(self):
        """A number, a text, a name, a record, or what is in parentheses; None if none of these
        follows.
        """
        kind, value = self.peek()
        if kind in ("number", "text"):
            return self.take()
        if (kind, value) == ("mark", "("):
            self.take()
            items = [self.expression(0)]
            while self.peek() == ("mark", ","):
                self.take()
                items.append(self.expression(0))
            self.want(")")
            found = items[0] if len(items) == 1 else ("tuple", items)
            while self.peek()[0] == "field":
                found = ("field", found, self.take()[1])
            return found
        if kind != "name" or value in ENDS or value in OPERATORS or value in ("λ", "if"):
            return None
        self.take()
        if value == "record":
            return self.record()
        if value in NO_VALUES:
            self.fail(f"{value} is not translated")
        return ("name", value)

    def record(self):
        """A record, or one with changed fields."""
        base = None if self.peek() == ("mark", "{") else self.atom()
        self.want("{")
        fields = []
        while self.peek() != ("mark", "}"):
            name = str(self.take()[1])
            self.want("=")
            fields.append((name, self.expression(0)))
            if self.peek() == ("mark", ";"):
                self.take()
        self.take()
        return ("record", base, fields)

    def patterns(self):
        """The patterns before a clause's `=`; implicit ones are left out."""
        found = []
        while self.peek()[0] != "end":
            if self.peek() == ("mark", "{"):
                while self.take() != ("mark", "}"):
                    pass
            elif self.peek() == ("name", "_"):
                found.append(self.take())
            else:
                found.append(self.atom() or self.fail("no pattern"))
        return found


class Definition:
    """A definition: its clauses in order, each as the tokens before and after `=`."""

    def __init__(self, module, name):
        self.module, self.name, self.clauses = module, name, []

    @functools.cached_property
    def parsed(self):
        """The patterns and the expression of each clause."""
        where = f"{self.module.path}.{self.name}"
        return [(Parser(before, where).patterns(), Parser(behind, where).whole()) for before, behind in self.clauses]

    @functools.cached_property
    def arity(self):
        """How many patterns each clause has."""
        counts = {len(patterns) for patterns, _ in self.parsed}
        if len(counts) != 1:
            raise NotUnderstood(f"{self.module.path}.{self.name}: clauses of {counts} patterns")
        return counts.pop()


class Module:
    """The definitions and records of a file, and what its `use` lines bring in: items (name to path
    and name there) and modules (name to path).
    """

    def __init__(self, path, text):
        self.path, self.definitions, self.records, self.items, self.modules = path, {}, {}, {}, {}
        for group in self.groups(text):
            self.read(group)

    @staticmethod
    def groups(text):
        """The texts of the declarations and clauses: lines that are indented, or inside of braces,
        continue what comes before them.
        """
        found, open_braces = [], 0
        for line in text.split("\n"):
            if not line.strip() or line.lstrip().startswith("--"):
                continue
            if found and (line[0].isspace() or open_braces > 0):
                found[-1] += "\n" + line
            else:
                found.append(line)
            open_braces += line.count("{") - line.count("}")
        return found

    def read(self, text):
        """One declaration or clause."""
        words = text.split(None, 3)
        if words[0] == "pub":
            words = words[1:]
        if words[:2] == ["unfoldable", "pub"] and words[2] == "use":
            words = words[2:]
        if words[0] == "use":
            self.use(" ".join(text[text.index("use") + 3 :].split()))
        elif words[0] == "record":
            self.record(text)
        elif words[0] not in ("mod", "unfolding", "infix", "infixl", "infixr"):
            self.clause(text)

    def clause(self, text):
        """A clause; a signature is ignored."""
        tokens = tokens_of(text)
        colon, equals = self.outermost(tokens, ":"), self.outermost(tokens, "=")
        if colon is not None and (equals is None or colon < equals):
            return
        if equals is None:
            raise NotUnderstood(f"{self.path}: {text[:80]}")
        name = tokens[0][1]
        self.definitions.setdefault(name, Definition(self, name)).clauses.append((tokens[1:equals], tokens[equals + 1 :]))

    @staticmethod
    def outermost(tokens, word):
        """Where this word is outside of all parentheses."""
        depth = 0
        for place, (kind, value) in enumerate(tokens):
            if kind == "mark":
                depth += (value in "({[") - (value in ")}]")
            elif depth == 0 and (kind, value) == ("name", word):
                return place
        return None

    def use(self, text):
        path, _, inner = text.partition(".{")
        if inner:
            for item in filter(None, (part.strip() for part in inner.rstrip("} ").split(","))):
                name, _, alias = item.partition(" as ")
                self.items[alias or name] = (path, name)
        else:
            path, _, alias = text.partition(" as ")
            self.modules[alias or path.split(".")[-1]] = path

    def record(self, text):
        """A record: the names of its parameters, and the name and the type of each field."""
        head, *fields = text.split("\n")
        match = re.match(r"pub record (\S+)(.*) : Type \S+ where", head)
        if not match:
            raise NotUnderstood(f"{self.path}: {head}")
        parameters = " ".join(re.findall(r"\(([^():]*) : ", match.group(2))).split()
        self.records[match.group(1)] = (parameters, [field.strip().removeprefix("pub ").split(" : ", 1) for field in fields])


def parts_between_commas(text):
    """What is between the commas that are outside of all brackets."""
    parts, depth = [""], 0
    for letter in text:
        depth += (letter in "(<{[") - (letter in ")>}]")
        if letter == "," and depth == 0:
            parts.append("")
        else:
            parts[-1] += letter
    return [part.strip() for part in parts if part.strip()]


class Sources:
    """The definition files of the crates of a folder, and the enums of their sources."""

    def __init__(self, crates):
        self.crates, self.modules, self.enums = pathlib.Path(crates), {}, {}

    def with_texts(self, texts):
        """The same sources, except for modules that have these texts: by path."""
        found = Sources(self.crates)
        found.modules, found.enums = {**self.modules, **{path: Module(path, text) for path, text in texts.items()}}, self.enums
        return found

    def module(self, path):
        """The module of a path such as Rattle.st_rules.specs.Run."""
        if path not in self.modules:
            _, crate, specs, *rest = path.split(".")
            file = self.crates / crate / specs / ("/".join(rest) + ".antt")
            if specs != "specs" or not file.exists():
                raise NotUnderstood(f"no module {path}")
            self.modules[path] = Module(path, file.read_text())
        return self.modules[path]

    def variants(self, crate, file, name):
        """The variants of an enum, in order, each with how many fields it has."""
        key = crate, file, name
        if key not in self.enums:
            text = (self.crates / crate / "src" / f"{file}.rt").read_text()
            match = re.search(rf"pub enum {name}(?:<[A-Z]>)? {{(.*?)\n}}", text, re.S)
            if not match:
                raise NotUnderstood(f"no enum {name} in {crate}/src/{file}.rt")
            self.enums[key] = {}
            for part in parts_between_commas(re.sub(r"//[^\n]*|#\[[^\n]*\]", "", match.group(1))):
                variant = re.fullmatch(r"(\w+)\s*(?:\((.*)\)|\{(.*)\})?", part, re.S)
                if not variant:
                    raise NotUnderstood(f"variant {part!r} of {name}")
                self.enums[key][variant.group(1)] = len(parts_between_commas(variant.group(2) or variant.group(3) or ""))
        return self.enums[key]
