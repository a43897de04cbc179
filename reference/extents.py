"""Where pages lie. Chapter "Extents"."""

import heapq


def server_of_disk(disk, servers):
    """Disk d belongs to server 1 + (d - 1) mod servers. Chapter "Extents"."""
    return 1 + (disk - 1) % servers


class Extents:
    """The mapped pages of one server's files, and its free blocks. Chapter "Extents"."""

    def __init__(self, server, servers, disks, blocks):
        self.pages = {}
        self.births = 0
        self.blocks = blocks
        self.disks = [disk for disk in range(1, disks + 1) if server_of_disk(disk, servers) == server]
        self.used = 0
        self.released = []

    def map(self, ino, page):
        """Rule "Map": (disk, block, birth), or None. Chapter "Extents"."""
        return self.pages.get(ino, {}).get(page)

    def rows(self, ino, page, count):
        """The extents of a range: (page, disk, block, birth) for each mapped page, rising. Chapter
        "Extents".
        """
        of_file = self.pages.get(ino, {})
        return tuple((at, *of_file[at]) for at in range(page, page + count) if at in of_file)

    def allocate(self, ino, page, count):
        """Rule "Allocate": None, or (free, asked) if the free blocks are too few. Chapter
        "Extents".
        """
        of_file = self.pages.setdefault(ino, {})
        unmapped = [at for at in range(page, page + count) if at not in of_file]
        if self.free() < len(unmapped):
            return self.free(), len(unmapped)
        for at in unmapped:
            disk, block = self.least_free()
            self.births += 1
            of_file[at] = (disk, block, self.births)
        return None

    def free(self):
        """How many blocks are free. Chapter "Extents"."""
        return len(self.disks) * self.blocks - self.used + len(self.released)

    def least_free(self):
        """The least free block is taken: one that was released, or else the next that never was
        used. Chapter "Extents".
        """
        if self.released:
            return heapq.heappop(self.released)
        disk, block = divmod(self.used, self.blocks)
        self.used += 1
        return self.disks[disk], block

    def release(self, ino, page):
        """Rule "Release": every page of the file from this one on is unmapped. Chapter "Extents".
        """
        of_file = self.pages.get(ino, {})
        for at in [at for at in of_file if at >= page]:
            disk, block, _ = of_file.pop(at)
            heapq.heappush(self.released, (disk, block))
