"""The tree of a server, as applications see it. Chapter "The volume", "Effects"."""

ROOT, FIRST_INODE, MOST_ENTRIES, LISTED = 1, 10, 4095, 256
GOOD = frozenset(b"abcdefghijklmnopqrstuvwxyzABCDEFGHIJKLMNOPQRSTUVWXYZ0123456789._-")
ABSENT, PRESENT, NO_DIRECTORY, DIRECTORY, NOT_EMPTY, IN_ITSELF, BAD_NAME, TOO_MANY = range(1, 9)


class Tree:
    """Entries, (directory, name) to (inode, is a directory), and the next inode; never changed."""

    def __init__(self, entries, next_ino):
        self.entries, self.next = entries, next_ino
        self.key = next_ino, frozenset(entries.items())

    def is_file(self, ino):
        return (ino, False) in self.entries.values()

    def lies_in(self, directory, top):
        """Whether a directory is the first one, or lies in it."""
        above = {ino: place[0] for place, (ino, is_dir) in self.entries.items() if is_dir}
        while directory != top and directory in above:
            directory = above[directory]
        return directory == top

    def fault(self, directory, name=None):
        """What is wrong with a directory, or with a place in it."""
        if directory != ROOT and (directory, True) not in self.entries.values():
            return NO_DIRECTORY if self.is_file(directory) else ABSENT
        good = name is None or (
            1 <= len(name) <= 64 and GOOD.issuperset(name) and name not in (b".", b".."))
        return None if good else BAD_NAME


FRESH = Tree({(ROOT, b"f%d" % ino): (ino, False) for ino in range(2, FIRST_INODE)}, FIRST_INODE)


def refused(tree, code):
    return tree, ("refused", code), None


def create(tree, place, is_dir):
    if place in tree.entries:
        return refused(tree, PRESENT)
    if len(tree.entries) >= MOST_ENTRIES:
        return refused(tree, TOO_MANY)
    entries = {**tree.entries, place: (tree.next, is_dir)}
    return Tree(entries, tree.next + 1), ("named", tree.next), None


def remove(tree, place, ino):
    """None if another file has the name: the ask has no effect."""
    found, is_dir = tree.entries[place]
    if is_dir and ino != 0:
        return refused(tree, DIRECTORY)
    if is_dir and any(directory == found for directory, _ in tree.entries):
        return refused(tree, NOT_EMPTY)
    if not is_dir and found != ino:
        return None
    entries = {at: entry for at, entry in tree.entries.items() if at != place}
    return Tree(entries, tree.next), ("named", found), None if is_dir else found


def rename(tree, place, new_place):
    entry = tree.entries[place]
    if new_place in tree.entries:
        return refused(tree, PRESENT)
    if entry[1] and tree.lies_in(new_place[0], entry[0]):
        return refused(tree, IN_ITSELF)
    entries = {new_place if at == place else at: it for at, it in tree.entries.items()}
    return Tree(entries, tree.next), ("named", entry[0]), None


def listing(tree, directory, after):
    names = sorted(name for at, name in tree.entries if at == directory and name > after)
    rows = [(*tree.entries[directory, name], name) for name in names[:LISTED]]
    return tree, ("listed", tuple((ino, 1 + is_dir, name) for ino, is_dir, name in rows)), None


def does(tree, ask):
    """What an ask for a name makes of a tree: (tree, result, removed file); None without effect."""
    op, directory, name, *more = ask
    fault = tree.fault(directory, None if op == "list" else name)
    if op == "rename" and fault is None:
        fault = tree.fault(*more)
    if fault is not None:
        return refused(tree, fault)
    if op == "list":
        return listing(tree, directory, name)
    place = directory, name
    if op in ("create", "mkdir"):
        return create(tree, place, op == "mkdir")
    if place not in tree.entries:
        return refused(tree, ABSENT)
    if op == "lookup":
        return tree, ("named", tree.entries[place][0]), None
    return remove(tree, place, *more) if op == "remove" else rename(tree, place, tuple(more))
