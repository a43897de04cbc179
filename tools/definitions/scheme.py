"""Writes definitions as functions of Chez Scheme: each that some roots reach, by the names of `use`
lines, its clauses in order.

A record is a vector: the number of its layout, and its fields by name. A value of an enum is a
vector: the number of its variant, and its fields. A list is a list, a number a number, `true` and
`false` are #t and #f. In a promise `≡` is equality, `×` both, `⊤` true and `⊥` false; a record of
facts is true if each of them is. All is evaluated strictly, except for `if`, `&&`, `||` and `×`.
"""
import re

from antt import NotUnderstood, Parser, tokens_of

# What definitions use of the standard library, and how many arguments each has; library.ss has
# them.
LIBRARY = {"suc": 1, "pred": 1, "min": 2, "max": 2, "not": 1, "nat_lt": 2, "nat_le": 2, "nat_eq": 2, "div_ceil": 2, "map": 2, "filter": 2, "find": 2,
           "filter_map": 2, "flat_map": 2, "list_any": 2, "list_all": 2, "length": 1, "take": 2, "drop": 2, "set": 3, "replicate": 2, "slice_get": 2,
           "slice_index": 2, "zip": 2, "fold": 3, "sum_by": 2, "is_some": 1, "is_none": 1, "unwrap_or": 2, "option_map": 2, "option_and_then": 2, "option_or": 2, "decimal": 1,
           "codes": 1, "bytes_eq": 2, "reverse": 1, "to_be_bytes": 2}
SIGNS = {"≡": "equal?", "==": "=", "<": "<", "≤": "<=", "+": "+", "-": "minus", "++": "append", "∷": "cons", "*": "*", "/": "divided", "%": "modulus",
         "^": "expt", "||": "or", "&&": "and", "×": "and"}
# Only to save time: definitions of two arguments whose values are kept for the same two objects,
# and modules in which a list with one more element is. Promises say the same of the same steps
# again and again.
REMEMBERED = {"st_volume.Pages.changed", "st_laws_volume.Witness.led_by", "st_laws_volume.Witness.begun", "st_rules.FlatLog.changed", "st_promises.NameAnswers.same_names", "st_promises.NameAnswers.says"}
GROWING = ("Rattle.st_promises.", "Rattle.st_rules.specs.Safety", "Rattle.st_third.specs.Promises")
CONSTANTS = {"w16": "2", "w32": "4", "w64": "8", "[]": "'()", "zero": "0", "true": "#t", "false": "#f", "tt": "'tt", "⊤": "#t", "⊥": "#f"}
OPTION, RESULT = ("core", "option", "Option"), ("core", "result", "Result")
LIBRARY_VARIANTS = {"None": (*OPTION, "None"), "Some": (*OPTION, "Some"), "Ok": (*RESULT, "Ok"), "Err": (*RESULT, "Err")}
LIBRARY_ENUMS = {OPTION: {"None": 0, "Some": 1}, RESULT: {"Ok": 1, "Err": 1}}


def symbol(path, name):
    """The symbol of a definition, such as |st_rules.Run.run|."""
    return f"|{path.removeprefix('Rattle.').replace('.specs.', '.')}.{name}|"


def variable(name):
    return f"|v {name}|"


def field_table(name):
    return f"|field {name}|"


class Translator:
    """The definitions that were asked for, and those that they use: `code` has each by its symbol.
    Numbers are those of another translator, if one is given.
    """

    def __init__(self, sources, numbers=None):
        self.sources = sources
        self.layouts, self.fields, self.variants = (dict(numbers.layouts), set(numbers.fields), dict(numbers.variants)) if numbers else ({}, set(), {})
        self.known, self.waiting, self.code = set(), [], {}

    # Names.

    def layout(self, names):
        """The fields of a record in their order, and the number of its layout."""
        names = tuple(sorted(names))
        self.fields.update(names)
        return names, self.layouts.setdefault(names, len(self.layouts))

    def variant(self, of):
        """The number of a variant: its crate, file, enum and name."""
        return self.variants.setdefault(of, 1000 + len(self.variants))

    def fields_of(self, of):
        """How many fields a variant has."""
        variants = LIBRARY_ENUMS.get(of[:3]) or self.sources.variants(*of[:3])
        if of[3] not in variants:
            raise NotUnderstood(f"no variant {of[3]} of {of[2]}")
        return variants[of[3]]

    def item(self, path, name):
        """What an item of a module is: ("variant", ..), ("library", name), ("constant", code),
        ("sign", sign), ("definition", it) or ("facts", module, name).
        """
        parts = path.split(".")
        if parts[1] in ("std", "core") or parts[0] in ("mathlib", "Prim", "lib"):
            if name in LIBRARY_VARIANTS:
                return "variant", LIBRARY_VARIANTS[name]
            if name in CONSTANTS:
                return "constant", CONSTANTS[name]
            if name in LIBRARY:
                return "library", name
            return ("sign", name[1:-1]) if name[1:-1] in SIGNS else ("type", name)
        if "declared" in parts:
            return ("variant", (parts[1], parts[4], parts[5], name)) if parts[-1] == "TheVariants" else ("type", name)
        return self.own(self.sources.module(path), name)

    def own(self, module, name):
        """What a name without a dot is in a module; None if it is nothing there."""
        if name in module.definitions:
            return "definition", module.definitions[name]
        if name in module.records:
            return "facts", module, name
        return self.item(*module.items[name]) if name in module.items else None

    def resolve(self, module, dotted, local):
        """What the head of a dotted name is, and the fields that are taken of it."""
        head, *rest = dotted.split(".")
        if head in local:
            return ("local", head), rest
        if dotted in CONSTANTS:
            return ("constant", CONSTANTS[dotted]), []
        found = self.own(module, head)
        if found is None and head in module.modules and rest:
            found, rest = self.item(module.modules[head], rest[0]), rest[1:]
        if found is None and head in LIBRARY_VARIANTS:
            found = "variant", LIBRARY_VARIANTS[head]
        if found is None:
            raise NotUnderstood(f"{module.path}: {dotted} is not known")
        return found, rest

    # Definitions.

    def root(self, path, name):
        """Asks for a definition."""
        found = self.own(self.sources.module(path), name)
        if found is None:
            raise NotUnderstood(f"no {name} in {path}")
        self.need(found)
        return found

    def need(self, found):
        if found[1:] not in self.known:
            self.known.add(found[1:])
            self.waiting.append(found)

    def run(self):
        """Writes all that was asked for and what that uses."""
        while self.waiting:
            kind, *found = self.waiting.pop()
            (self.define if kind == "definition" else self.define_facts)(*found)

    def define(self, definition):
        """A definition as a function."""
        module, name = definition.module, symbol(definition.module.path, definition.name)
        arguments, clauses = [f"a{i}" for i in range(definition.arity)], []
        for patterns, body in definition.parsed:
            tests, local = [], {}
            for argument, pattern in zip(arguments, patterns):
                self.match(module, pattern, argument, tests, local)
            code = self.expression(module, body, local)
            if local:
                code = f"(let ({' '.join(f'[{variable(bound)} {place}]' for bound, place in local.items())}) {code})"
            clauses.append((tests, code))
        if clauses[0][0] or len(clauses) > 1:
            lines = [f"[(and {' '.join(tests)}) {code}]" for tests, code in clauses]
            code = "(cond " + "\n    ".join([*lines, f"[else (no-clause '{name})])"])
        if name.strip("|") in REMEMBERED and len(arguments) == 2:
            self.code[name] = f"(define {name} (remembering (lambda ({' '.join(arguments)})\n  {code})))"
        else:
            self.code[name] = f"(define ({' '.join([name, *arguments])})\n  {code})"

    def define_facts(self, module, record):
        """A record of facts as a function: whether each of them holds."""
        parameters, fields = module.records[record]
        name, calls = symbol(module.path, record), []
        arguments = "".join(" " + variable(parameter) for parameter in parameters)
        for field, text in fields:
            where = f"{module.path}.{record}.{field}"
            calls.append(self.expression(module, Parser(tokens_of(text), where).whole(), dict.fromkeys(parameters)))
        self.code[name] = f"(define ({name}{arguments})\n  (and {' '.join(calls)}))"

    # Patterns.

    def match(self, module, pattern, place, tests, local):
        """The tests of a pattern, and the place of each variable in it."""
        if pattern[0] == "tuple":
            self.layout(map(str, range(len(pattern[1]))))
            for number, inner in enumerate(pattern[1]):
                self.match(module, inner, f"(field {field_table(number)} {place})", tests, local)
            return
        if pattern[:2] == ("operator", "∷"):
            tests.append(f"(pair? {place})")
            self.match(module, pattern[2], f"(car {place})", tests, local)
            self.match(module, pattern[3], f"(cdr {place})", tests, local)
            return
        head, arguments = (pattern[1], pattern[2]) if pattern[0] == "apply" else (pattern, [])
        if head[0] != "name":
            raise NotUnderstood(f"{module.path}: pattern {pattern}")
        simple = {"_": [], "tt": [], "[]": [f"(null? {place})"], "zero": [f"(eqv? {place} 0)"], "true": [place], "false": [f"(not {place})"]}
        if head[1] in simple and not arguments:
            tests += simple[head[1]]
        elif head[1] == "suc":
            tests.append(f"(> {place} 0)")
            self.match(module, arguments[0], f"(- {place} 1)", tests, local)
        else:
            self.match_variant(module, head[1], arguments, place, tests, local)

    def match_variant(self, module, name, arguments, place, tests, local):
        """A variant with its fields, or a variable."""
        try:
            found, rest = self.resolve(module, name, {})
        except NotUnderstood:
            found, rest = (None,), []
        if found[0] == "variant" and not rest:
            if len(arguments) != self.fields_of(found[1]):
                raise NotUnderstood(f"{module.path}: pattern {name} with {len(arguments)} fields")
            tests.append(f"(eq? (vector-ref {place} 0) {self.variant(found[1])})")
            for number, inner in enumerate(arguments, 1):
                self.match(module, inner, f"(vector-ref {place} {number})", tests, local)
        elif arguments or "." in name or name in local:
            raise NotUnderstood(f"{module.path}: pattern {name}")
        else:
            local[name] = place

    # Expressions.

    def expression(self, module, e, local):
        """The code of an expression; what is local is a variable."""
        match e:
            case ("number", number):
                return str(number)
            case ("tuple", items):
                return self.make({str(number): self.expression(module, item, local) for number, item in enumerate(items)})
            case ("if", *three):
                return f"(if {' '.join(self.expression(module, one, local) for one in three)})"
            case ("function", names, body):
                code = self.expression(module, body, {**local, **dict.fromkeys(names)})
                for name in reversed(names):
                    code = f"(lambda ({variable(name)}) {code})"
                return code
            case ("operator", "++", left, ("operator", "∷", last, ("name", "[]"))) if module.path.startswith(GROWING):
                return f"(extended {self.expression(module, left, local)} {self.expression(module, last, local)})"
            case ("operator", sign, left, right) if sign in SIGNS:
                return f"({SIGNS[sign]} {self.expression(module, left, local)} {self.expression(module, right, local)})"
            case ("field", of, name):
                return self.fields_taken(self.expression(module, of, local), [name])
            case ("record", base, fields):
                return self.record(module, base, fields, local)
            case ("name", name):
                return self.application(module, name, [], local)
            case ("apply", ("name", "codes"), [("text", text)]):
                return f"'({' '.join(map(str, text.encode()))})"
            case ("apply", ("name", name), arguments):
                return self.application(module, name, [self.expression(module, it, local) for it in arguments], local)
            case ("apply", head, arguments):
                return self.applied(self.expression(module, head, local), [self.expression(module, it, local) for it in arguments])
        raise NotUnderstood(f"{module.path}: {e} has no value")

    def application(self, module, name, arguments, local):
        found, rest = self.resolve(module, name, local)
        if rest:
            return self.applied(self.fields_taken(self.value(module, found, []), rest), arguments)
        return self.value(module, found, arguments)

    def record(self, module, base, fields, local):
        fields = {name: self.expression(module, value, local) for name, value in fields}
        if base is None:
            return self.make(fields)
        self.fields.update(fields)
        return f"(change {self.expression(module, base, local)} {' '.join(f'[{field_table(name)} {value}]' for name, value in fields.items())})"

    def make(self, fields):
        names, number = self.layout(fields)
        values = " ".join(fields[name] for name in names)
        return f"'#({number} {values})" if re.fullmatch("[0-9 ]+", values) else f"(vector {number} {values})"

    def fields_taken(self, code, names):
        for name in names:
            self.fields.add(name)
            code = f"(field {field_table(name)} {code})"
        return code

    @staticmethod
    def applied(code, arguments):
        for argument in arguments:
            code = f"({code} {argument})"
        return code

    def value(self, module, found, arguments):
        """What a name is, with these arguments."""
        match found:
            case ("local", name):
                return self.applied(variable(name), arguments)
            case ("constant", code):
                return self.applied(code, arguments)
            case ("variant", of):
                count = self.fields_of(of)
                return self.call(f"vector {self.variant(of)}", count, arguments) if count else f"'#({self.variant(of)})"
            case ("library", name):
                return self.call(symbol("std", name), LIBRARY[name], arguments)
            case ("sign", sign):
                return self.call(SIGNS[sign], 2, arguments)
            case ("definition", definition):
                self.need(found)
                return self.call(symbol(definition.module.path, definition.name), definition.arity, arguments)
            case ("facts", of, record):
                self.need(found)
                return self.call(symbol(of.path, record), len(of.records[record][0]), arguments)
        raise NotUnderstood(f"{module.path}: {found} has no value")

    def call(self, head, count, arguments):
        """A function of this many arguments that gets these: a value if there are enough, and
        otherwise a function of the rest.
        """
        if len(arguments) < count:
            given, missing = [f"g{i}" for i in range(len(arguments))], [f"m{i}" for i in range(count - len(arguments))]
            code = f"({' '.join([head, *given, *missing])})"
            for name in reversed(missing):
                code = f"(lambda ({name}) {code})"
            return f"(let ({' '.join(f'[{name} {it}]' for name, it in zip(given, arguments))}) {code})" if given else code
        names, bindings = arguments[:count], []
        if sum(argument.startswith("(") for argument in names) > 1:
            # in order, so that a large value is let go as soon as its parts are taken
            names = [f"x{place}" if argument.startswith("(") else argument for place, argument in enumerate(names)]
            bindings = [f"[{name} {argument}]" for name, argument in zip(names, arguments) if name != argument]
        code = f"({' '.join([head, *names])})"
        return self.applied(f"(let* ({' '.join(bindings)}) {code})" if bindings else code, arguments[count:])

    # The program.

    def tables(self):
        """The place of each field in each layout, and the layouts and variants by name."""
        layouts = sorted(self.layouts, key=self.layouts.get)
        for name in sorted(self.fields):
            places = " ".join(str(names.index(name) + 1) if name in names else "#f" for names in layouts)
            yield f"(define {field_table(name)} '#({places}))"
        yield f"(define layouts '({' '.join('(' + ' '.join([str(number), *(f'|{name}|' for name in names)]) + ')' for number, names in enumerate(layouts))}))"
        yield f"(define variants '({' '.join(f'(|{of[2]}.{of[3]}| . {number})' for of, number in self.variants.items())}))"

    def changes(self, base):
        """What differs from another translation, which gave the numbers: definitions, and all
        tables.
        """
        return "\n".join([*self.tables(), *(code for name, code in self.code.items() if base.code.get(name) != code)])

    def text(self):
        """All that was written, after the numbers that library.ss needs."""
        none, some = (self.variant(LIBRARY_VARIANTS[name]) for name in ("None", "Some"))
        head = f"(define none '#({none}))\n(define (some x) (vector {some} x))\n(define (some? o) (eqv? (vector-ref o 0) {some}))\n"
        return head + f"(define (pair one other) (vector {self.layout(('0', '1'))[1]} one other))\n" + "\n".join([*self.tables(), *self.code.values(), ""])
