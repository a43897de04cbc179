"""The text of include/tank_checked.h: for each call of include/tank.h, a function that looks at its
pointers and then makes the call.
"""
import re

TOP = """/* tank_checked.h: checks of pointers, for tank.h, which includes it.
 *
 * A call is made through one of these functions. It returns TANK_NULL if a pointer is null that
 * must not be. Otherwise it makes the library's call, with a pointer in place of one to no items.
 * `tools/checks/library --write` writes this file. */
#ifndef TANK_CHECKED_H
#define TANK_CHECKED_H
"""


def calls(header):
    """By name: the result's type, and the parameters, each a type and a name."""
    found = {}
    for result, name, words in re.findall(r"^(void|uint\d+_t) (tank_\w+)\(([^;{]*)\);", header, re.M):
        each = [re.sub(r"\s+", " ", it.strip()) for it in words.split(",") if it.strip() != "void"]
        found[name] = result, [re.fullmatch(r"(.*?)(\w+)", it).groups() for it in each]
    return found


def wrapped(line, indent):
    """A line, broken at its last commas or tests so that no part has more than 100 columns."""
    lines = []
    while len(line) > 100:
        at = max(line.rfind(", ", 0, 100), line.rfind("|| ", 0, 100) + 1)
        at = at + (1 if line[at] == "," else 2)
        lines.append(line[:at].rstrip())
        line = " " * indent + line[at:].lstrip()
    return "\n".join([*lines, line])


def check_of(name, result, parameters):
    """The function that checks a call's pointers."""
    items = [at for at, (kind, _) in enumerate(parameters) if "*" in kind and parameters[at + 1:] and parameters[at + 1][0] == "size_t "]
    single = [it for at, (kind, it) in enumerate(parameters) if "*" in kind and at not in items]
    tests = [f"!{it}" for it in single] + [f"(!{parameters[at][1]} && {parameters[at + 1][1]})" for at in items]
    given = [it for _, it in parameters]
    for at in items:
        kind, it = parameters[at]
        through = "const void *" if kind.startswith("const") else "void *"
        given[at] = f"{it} ? {it} : ({kind.strip()})({through}){single[-1]}"
    refused = {"uint32_t": "return TANK_NULL;", "uint64_t": "return 0;", "void": "return;"}[result]
    declared = ", ".join(kind + it for kind, it in parameters)
    call = f"{'' if result == 'void' else 'return '}{name}({', '.join(given)});"
    lines = [f"static inline {result} {name}_checked({declared}) {{", f"    if ({' || '.join(tests)}) {refused}", f"    {call}"]
    return "\n".join([*(wrapped(line, 8) for line in lines), "}", f"#define {name} {name}_checked", ""])


def text(header):
    """The text of the file, for the text of include/tank.h."""
    checked = {name: it for name, it in calls(header).items() if any("*" in kind for kind, _ in it[1])}
    return "\n".join([TOP, *(check_of(name, *it) for name, it in checked.items()), "#endif\n"])
