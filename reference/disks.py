"""Disks and their commands. Chapter "Disks"."""

PAGE = 4096
ZEROS = bytes(PAGE)
UNWRITTEN = (0, 0, 0, 0, ZEROS)


class Command:
    """A command on one block: a read, or a write with a tag and bytes (server, inode, page, birth,
    bytes).
    """

    __slots__ = ("disk", "block", "write", "effected", "reported", "sample")

    def __init__(self, disk, block, write):
        self.disk, self.block, self.write = disk, block, write
        self.effected = self.reported = False
        self.sample = None


class Disks:
    """Blocks that were written, and all commands, numbered from 1. Chapter "Disks"."""

    def __init__(self):
        self.blocks = {}
        self.commands = []

    def submit(self, disk, block, write):
        """Rule "Submit": the command's number. Chapter "Disks"."""
        self.commands.append(Command(disk, block, write))
        return len(self.commands)

    def effect_refusal(self, number):
        """Rule "Effect": "NoCommand", "Reported", "Twice" or None. Chapter "Disks"."""
        if not 1 <= number <= len(self.commands):
            return "NoCommand"
        command = self.commands[number - 1]
        if command.reported:
            return "Reported"
        return "Twice" if command.effected else None

    def effect(self, number):
        """Rule "Effect": a write makes the whole block; a read keeps its sample. Chapter "Disks".
        """
        command = self.commands[number - 1]
        place = (command.disk, command.block)
        if command.write is not None:
            self.blocks[place] = command.write
        else:
            command.sample = self.blocks.get(place, UNWRITTEN)
        command.effected = True

    def report_refusal(self, number, success):
        """Rule "Report": "NoCommand", "Twice", "NotEffected" or None. Chapter "Disks"."""
        if not 1 <= number <= len(self.commands):
            return "NoCommand"
        command = self.commands[number - 1]
        if command.reported:
            return "Twice"
        return "NotEffected" if success and not command.effected else None

    def report(self, number):
        """Rule "Report": it ends a command. Chapter "Disks"."""
        self.commands[number - 1].reported = True
