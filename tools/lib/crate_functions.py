"""The private functions of the crates: how long their bodies are, and how many places call them.

A function is private if it has no `pub`, or `pub(crate)`; methods of an impl of a trait and tests
aren't counted. A place that calls it is found by its name, in its own crate: two functions of one
name are told apart by nothing, so each counts as called wherever the name is.
"""
import collections
import pathlib
import re

ROOT = pathlib.Path(__file__).resolve().parents[2]
HEAD = re.compile(r"( *)(pub\(\w+\) |pub )?(?:const |unsafe |extern \"C\" )*fn (\w+)")
NO_CODE = re.compile(r"\s*(//|requires|ensures|ghost |use |pub use |mod |#\[)")
Function = collections.namedtuple("Function", "crate path line name body callers")


def body_of(lines, at, indent):
    """The lines between the braces of the function whose head is in this line, or None."""
    for place in range(at, len(lines)):
        line = lines[place]
        if line == indent + "{" or (line.endswith("{") and (place == at or line.startswith(indent + ")"))):
            return lines.index(indent + "}", place) - place - 1
        if line.endswith("{}"):
            return 0
        if line.endswith(";"):
            return None
    return None


def in_trait(lines, at):
    """Whether a method's head in this line is one of a trait, or of an impl of one."""
    for line in reversed(lines[:at]):
        if re.match(r"(unsafe )?impl\b|(pub(\(\w+\))? )?trait ", line):
            return bool(re.search(r"\btrait\b| for ", line.split("{")[0]))
    return False


def heads(path):
    """The private functions of a file: line, name and lines of the body."""
    lines = path.read_text().split("\n")
    for at, line in enumerate(lines):
        head = HEAD.match(line)
        if not head or head[2] == "pub " or "#[test]" in lines[at - 1] or (head[1] and in_trait(lines, at)):
            continue
        body = body_of(lines, at, head[1])
        if body is not None:
            yield at + 1, head[3], body


def of_crate(folder):
    """The private functions of a crate."""
    paths = sorted((folder / "src").rglob("*.rt"))
    code = "\n".join(line for path in paths for line in path.read_text().split("\n") if not NO_CODE.match(line))
    for path in paths:
        for line, name, body in heads(path):
            calls = re.findall(rf"(?<!fn )\b{name}\s*(?:::<[^>]*>)?\(|[(,]\s*(?:Self::)?{name}\s*[,)]", code)
            yield Function(folder.name, path.relative_to(ROOT), line, name, body, len(calls))


def of_all():
    """The private functions of every crate."""
    for folder in sorted((ROOT / "crates").iterdir()):
        yield from of_crate(folder)
