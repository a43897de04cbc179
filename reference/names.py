"""The names of a server. Chapter "Names"."""

ROOT = 1
LISTED = 256
GOOD = frozenset(b"abcdefghijklmnopqrstuvwxyzABCDEFGHIJKLMNOPQRSTUVWXYZ0123456789._-")

ABSENT, PRESENT, NO_DIRECTORY, IS_DIRECTORY, NOT_EMPTY, UNDER_ITSELF, BAD_NAME, TOO_MANY = 1, 2, 3, 4, 5, 6, 7, 8


class Entry:
    """Directory, name, inode, and whether it is a directory. Chapter "Names"."""

    __slots__ = ("directory", "name", "ino", "is_directory")

    def __init__(self, directory, name, ino, is_directory):
        self.directory, self.name, self.ino, self.is_directory = directory, name, ino, is_directory


def is_good_name(name):
    """Rule "Good names". Chapter "Names"."""
    return 1 <= len(name) <= 64 and all(byte in GOOD for byte in name) and name not in (b".", b"..")


class Names:
    """The entries of a server, found by place and by inode. Chapter "Names"."""

    def __init__(self, limit=4096):
        self.limit = limit
        self.by_place = {}
        self.by_ino = {}
        self.next_ino = 10
        for ino in range(2, 10):
            self.put(Entry(ROOT, b"f%d" % ino, ino, False))

    def put(self, entry):
        """An entry is there at its place and under its inode. Chapter "Names"."""
        self.by_place.setdefault(entry.directory, {})[entry.name] = entry
        self.by_ino[entry.ino] = entry

    def entry_at(self, directory, name):
        """The entry at a place, or None. Chapter "Names"."""
        return self.by_place.get(directory, {}).get(name)

    def is_file(self, ino):
        """Whether the inode is a live file. Chapter "Names"."""
        entry = self.by_ino.get(ino)
        return entry is not None and not entry.is_directory

    def directory_refusal(self, directory):
        """No inode (1), no directory (3), or None. Rule "A place". Chapter "Names"."""
        if directory == ROOT:
            return None
        entry = self.by_ino.get(directory)
        if entry is None:
            return ABSENT
        return None if entry.is_directory else NO_DIRECTORY

    def place_refusal(self, directory, name):
        """Rule "A place": 1, 3, 7 or None. Chapter "Names"."""
        refusal = self.directory_refusal(directory)
        if refusal is None and not is_good_name(name):
            refusal = BAD_NAME
        return refusal

    def lookup(self, directory, name):
        """Rule "Look up": (refusal, None) or (None, entry). Chapter "Names"."""
        refusal = self.place_refusal(directory, name)
        if refusal is not None:
            return refusal, None
        entry = self.entry_at(directory, name)
        return (ABSENT, None) if entry is None else (None, entry)

    def create(self, directory, name, is_directory):
        """Rules "Create" and "make a directory": (refusal, None) or (None, inode). Chapter "Names".
        """
        refusal = self.place_refusal(directory, name)
        if refusal is not None:
            return refusal, None
        if self.entry_at(directory, name) is not None:
            return PRESENT, None
        if len(self.by_ino) + 1 >= self.limit:
            return TOO_MANY, None
        ino = self.next_ino
        self.next_ino += 1
        self.put(Entry(directory, name, ino, is_directory))
        return None, ino

    def take_out(self, entry):
        """The entry goes. Chapter "Names"."""
        del self.by_place[entry.directory][entry.name]
        del self.by_ino[entry.ino]
        if entry.is_directory:
            self.by_place.pop(entry.ino, None)

    def remove(self, directory, name):
        """Rule "Remove": (refusal, None) or (None, inode). Chapter "Names"."""
        refusal, entry = self.lookup(directory, name)
        if refusal is not None:
            return refusal, None
        if entry.is_directory and self.by_place.get(entry.ino):
            return NOT_EMPTY, None
        self.take_out(entry)
        return None, entry.ino

    def comes_under(self, directory, ino):
        """Whether the directory is the inode or lies under it. Chapter "Names"."""
        while directory != ROOT:
            if directory == ino:
                return True
            directory = self.by_ino[directory].directory
        return False

    def rename(self, directory, name, directory2, name2):
        """Rule "Rename": (refusal, None) or (None, inode). Chapter "Names"."""
        refusal = self.place_refusal(directory, name)
        if refusal is None:
            refusal = self.place_refusal(directory2, name2)
        if refusal is not None:
            return refusal, None
        entry = self.entry_at(directory, name)
        if entry is None:
            return ABSENT, None
        if self.entry_at(directory2, name2) is not None:
            return PRESENT, None
        if entry.is_directory and self.comes_under(directory2, entry.ino):
            return UNDER_ITSELF, None
        del self.by_place[entry.directory][entry.name]
        entry.directory, entry.name = directory2, name2
        self.put(entry)
        return None, entry.ino

    def list(self, directory, after):
        """Rule "List": (refusal, None) or (None, entries as (inode, kind, name)). Chapter "Names".
        """
        refusal = self.directory_refusal(directory)
        if refusal is not None:
            return refusal, None
        entries = self.by_place.get(directory, {})
        chosen = sorted(name for name in entries if name > after)[:LISTED]
        return None, tuple((entries[name].ino, 2 if entries[name].is_directory else 1, name) for name in chosen)
