"""A volume with images, and its script. Chapters "Images of a container", "Scripts"."""

from .schedule import runs_text

KEPT = 64
ZEROS = bytes(4096)


class Volume:
    """The list of changes, by what it says: each page's writes with their times, and the kept
    images with theirs.
    """

    def __init__(self, blocks):
        self.blocks = blocks
        self.time = 0
        self.writes = {}  # (file, page): a list of (time, bytes), oldest first
        self.images = {}  # image: the time of its take
        self.taken = 0
        self.held = 0  # how many writes are shown

    def shown(self, writes, views):
        """Which of a page's writes are shown: the last one, and for each kept image the last one
        before its take.
        """
        kept = {len(writes) - 1}
        for view in views:
            before = [place for place, (time, _) in enumerate(writes) if time < view]
            kept.update(before[-1:])
        return sorted(kept)

    def write(self, file, page, data):
        """Rule "Write"."""
        writes = self.writes.get((file, page), [])
        last = writes[-1][0] if writes else None
        takes = last is None or any(view > last for view in self.images.values())
        if takes and self.held >= self.blocks:
            return "nospace 0 1"
        self.time += 1
        self.held += takes
        self.writes[file, page] = (writes if takes else writes[:-1]) + [(self.time, data)]
        return "ok"

    def read(self, image, file, page):
        """Rule "Read"."""
        if image and image not in self.images:
            return f"noimage {image}"
        view = self.images[image] if image else self.time + 1
        before = [data for time, data in self.writes.get((file, page), []) if time < view]
        return runs_text(before[-1] if before else ZEROS)

    def take(self):
        """Rule "Take"."""
        if len(self.images) >= KEPT:
            return f"toomany {KEPT}"
        self.time += 1
        self.taken += 1
        self.images[self.taken] = self.time
        return f"image {self.taken}"

    def forget(self, image):
        """Rule "Forget"."""
        if image not in self.images:
            return f"noimage {image}"
        del self.images[image]
        views = list(self.images.values())
        for place, writes in self.writes.items():
            self.writes[place] = [writes[at] for at in self.shown(writes, views)]
        self.held = sum(map(len, self.writes.values()))
        return "ok"


class SnapScript:
    """The command `snap`. Chapter "Scripts"."""

    def __init__(self, words):
        """The first line."""
        words.choice("snap")
        self.volume = Volume(words.number(1, 4096))

    @staticmethod
    def read(words):
        """An event of a line. Chapter "Scripts", "snap"."""
        verb = words.choice("write", "read", "take", "forget")
        if verb == "take":
            return (verb,)
        if verb == "write":
            return verb, words.number(1, 2**32 - 1), words.page(), bytes((words.number(0, 255),)) * 4096
        image = words.number(0, 99999)
        return (verb, image) if verb == "forget" else (verb, image, words.number(1, 2**32 - 1), words.page())

    def play(self, event):
        """The answers of an event. Chapter "Scripts", "snap"."""
        return [getattr(self.volume, event[0])(*event[1:])]

    def last(self, events):
        """The last line."""
        return f"end events {events} free {self.volume.blocks - self.volume.held}"
