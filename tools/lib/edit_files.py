"""The must-fail edits of the crates: where they are, how they are read, and the texts that they
make.

An edit plants one wrong body, which the prover must refuse. It is a file with a line 'file:
src/NAME.rt' and then pairs of lines 'old: TEXT' and 'new: TEXT', each text one line. An old text
occurs exactly once in its file, and a further pair applies to what the earlier ones made. `rt ci`
tries crates/NAME/must-fail/EDIT.edit. Those in crates/NAME/must-fail/more/ are named EDIT.edit.md,
since `rt ci` calls any other file below must-fail/ a bad edit; `tools/checks/wrong_bodies` tries
both folders.
"""
import collections
import pathlib
import re

ROOT = pathlib.Path(__file__).resolve().parents[2]
GATE, MORE = "gate", "more"
NAME = re.compile(r"[A-Za-z0-9_-]+")
# An edit: its crate's name, its own name, the folder (GATE or MORE), and its file.
Edit = collections.namedtuple("Edit", "crate name folder path")


class BadEdit(Exception):
    """What is wrong with an edit or its place."""


def crates(root=ROOT):
    """Returns the crates that each crate of crates.txt uses, in the file's order."""
    found = {}
    for line in (root / "crates.txt").read_text().splitlines():
        head, colon, rest = line.partition("#")[0].partition(":")
        if colon:
            found[head.split()[0]] = rest.split()
    return found


def placed(path, crate):
    """Returns the edit of a file below a crate's must-fail/, or says why it is in the wrong place.
    """
    if path.parent.name == "must-fail" and path.suffix == ".edit":
        name, folder = path.name.removesuffix(".edit"), GATE
    elif path.parent.name == "more" and path.parent.parent.name == "must-fail" and path.name.endswith(".edit.md"):
        name, folder = path.name.removesuffix(".edit.md"), MORE
    else:
        raise BadEdit("is neither must-fail/EDIT.edit nor must-fail/more/EDIT.edit.md")
    if not NAME.fullmatch(name):
        raise BadEdit("its name has other characters than letters, digits, _ and -")
    return Edit(crate, name, folder, path)


def all_edits(root=ROOT):
    """Returns the edits of all crates, and a list of (file, what is wrong with its place)."""
    listed, good, bad = crates(root), [], []
    for path in sorted((root / "crates").glob("*/must-fail/**/*")):
        crate = path.relative_to(root / "crates").parts[0]
        if path.is_dir() or path.name == "README.md":
            continue
        try:
            if crate not in listed:
                raise BadEdit("its crate is not in crates.txt")
            edit = placed(path, crate)
            if any((it.crate, it.name) == (crate, edit.name) for it in good):
                raise BadEdit("an edit of this name is in both folders")
            good.append(edit)
        except BadEdit as why:
            bad.append((path, str(why)))
    return good, bad


def pairs(text):
    """Yields (file, old text, new text) for each pair of an edit."""
    file = old = None
    for line in text.splitlines():
        word, _, rest = line.partition(": ")
        if old is None and word == "file" and rest:
            file = rest
        elif old is None and word == "old" and rest and file:
            old = rest
        elif old is not None and (word == "new" or line == "new:"):
            yield file, old, rest
            old = None
        elif line.strip():
            raise BadEdit(f"a line has no place there: {line.strip()[:60]}")
    if old is not None:
        raise BadEdit("its last 'old:' line has no 'new:' line")


def applied(edit):
    """Returns the texts that the edit makes, by their files in the crate, or says why it does not
    apply.
    """
    folder = edit.path.parents[1 if edit.folder == GATE else 2]
    before, after = {}, {}
    for file, old, new in pairs(edit.path.read_text(encoding="utf-8")):
        path = pathlib.PurePosixPath(file)
        if path.parts[0] != "src" or ".." in path.parts or str(path) != file:
            raise BadEdit(f"{file} isn't a file below src/")
        if file not in after:
            if not (folder / file).is_file():
                raise BadEdit(f"there is no file {file}")
            before[file] = after[file] = (folder / file).read_text(encoding="utf-8")
        count = after[file].count(old)
        if count != 1:
            raise BadEdit(f"an old text occurs {count} times in {file}, instead of once: {old.strip()[:80]}")
        after[file] = after[file].replace(old, new)
    if after == before:
        raise BadEdit("it changes nothing")
    return after
