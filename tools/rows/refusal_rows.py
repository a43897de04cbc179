"""Lines and events, and which of them are refused: schedules/refusals/, written by
tools/rows/write.

Each refusal of the table of admissible events is beside an event that differs from it in one thing
and is accepted. A line here that begins with `!` must be refused; reference/ says which refusal it
is and with which values. It also says which of the lines below LINES are refused. `.ci/refusals`
gives the rows to the program. tools/checks/full_network tests a full network.
"""
import row_records  # noqa: F401  (it makes reference/ known)
from reference.schedule import LineRefused, ScheduleReader
from reference.world import World

SETTINGS = "1000 500 700 850 100 50 101 100"
RATED = f"tank 1 {SETTINGS} 2 2 2 8"
DRIFTING = f"tank 2 {SETTINGS} 5 2 2 2 8"

NODES = """
! tick c3
! tick s3
tick c2
tick s2
! app c3 sync 1:4
app c2 sync 1:3
! crash c3
! crash s3
! start c3
! start s3
! start c1
crash c1
! crash c1
! tick c1
! app c1 sync 1:2
tick c2
app c2 sync 1:3
start c1
! start c1
tick c1
app c1 sync 1:2
! start s1
crash s1
! crash s1
! tick s1
tick s2
start s1
! start s1
tick s1
crash s1
"""

MESSAGES = """
! deliver 1
! lose 1
app c1 write 1:2 0 1
! deliver 2
! lose 2
deliver 1
! deliver 3
deliver 2
app c2 write 1:3 0 1
deliver 4
deliver 5
lose 5
! lose 5
! deliver 5
deliver 4
lose 4
! deliver 4
! cut c3 s1
! cut c1 s3
! cut c3 s3
! heal c3 s1
! heal c1 s3
! heal s3 c3
cut c1 s2
deliver 3
cut c1 s1
! deliver 3
! deliver 1
deliver 2
cut c1 s1
heal s1 c1
! deliver 3
heal c1 s1
deliver 3
deliver 1
cut s1 c1
! deliver 2
deliver 3
crash c1
! deliver 2
heal s1 c1
! deliver 2
deliver 3
start c1
deliver 2
crash s1
! deliver 3
cut c1 s1
! deliver 3
lose 3
! deliver 3
heal c1 s1
deliver 2
"""

# the second client opens its file at the first server and writes a page of it
OPENED = """
app c2 write 1:3 0 1
deliver 1..6
"""

COMMANDS = OPENED + """
! effect 1
! report 1 ok
! report 1 fail
app c2 sync 1:3
! effect 2
! report 2 fail
! report 1 ok
effect 1
! effect 1
report 1 ok
! report 1 ok
! report 1 fail
! effect 1
app c2 write 1:3 0 2
app c2 sync 1:3
! report 2 ok
report 2 fail
! report 2 fail
! report 2 ok
! effect 2
"""

FLUSHES = OPENED + """
! adv 102 100 100 100
! adv 100 100 100 102
! adv 100 99 100 100
adv 101 100 100 100
! adv 900 900 900 900
adv 400 400 400 400
tick c2
adv 349 349 349 349
! adv 151 151 151 151
adv 1 1 1 1
! adv 150 150 150 150
tick c2
! adv 150 150 150 150
effect 1
! adv 150 150 150 150
report 1 fail
adv 100 100 100 100
deliver 7
deliver 9
adv 549 549 549 549
! adv 1 1 1 1
crash c2
adv 1 1 1 1
"""

CLIENTS = """
app c2 write 2:3 0 1
deliver 1..6
app c2 write 1:3 0 1
deliver 7..12
app c1 write 2:2 0 1
deliver 13..18
! adv 1000 1000 1000 1000
app c1 sync 2:2
! adv 1000 1000 1000 1000
effect 1
report 1 ok
! adv 1000 1000 1000 1000
app c2 sync 1:3
effect 2
report 2 ok
! adv 1000 1000 1000 1000
app c2 sync 2:3
effect 3
report 3 ok
adv 1000 1000 1000 1000
"""

LATE = OPENED + """
app c2 write 1:3 1 2
deliver 7..8
app c2 sync 1:3
adv 999 999 999 999
crash c2
start c2
app c2 write 1:3 0 3
deliver 9..10
effect 1
adv 1 1 1 1
! effect 3
! effect 2
! effect 1
report 1 ok
report 2 fail
! effect 2
"""

READS = OPENED + """
app c2 write 1:3 1 2
deliver 7..8
app c2 sync 1:3
effect 1
report 1 ok
effect 2
report 2 ok
app c1 read 1:3 0
app c1 read 1:3 1
deliver 9..21
adv 999 999 999 999
effect 3
adv 1 1 1 1
! effect 4
tick c1
! effect 4
! report 4 ok
report 4 fail
"""

DRIFTS = OPENED + """
! adv 107 100 100 100
adv 106 100 100 100
! adv 102 100 100 100
adv 101 100 100 100
! adv 1 0 0 0
adv 100 104 100 100
adv 0 0 0 0
! adv 6 0 6 6
adv 5 0 5 5
! adv 1 0 1 1
! adv 0 9 0 0
adv 0 5 0 0
! adv 0 1 0 0
crash c1
! adv 0 1 0 0
! adv 0 0 0 9
! adv 1000 900 900 900
! adv 1000 1000 1000 1000
crash c2
adv 1000 1000 1000 1000
"""

# lines one by one, and which of them a reader or the world refuses
LINES = """
adv x
adv 01
adv 1 2
adv 1 2 3 4
adv 1 2 3
adv 0
adv 7 7 7
adv 4294967296
adv
adv 1 02 3
tick c01
tick c1 x
tick c100
tick x1
tick s99
cut c1
heal c1 s0
cut s1 c2
deliver
deliver 0
deliver -1
lose 99999999999999999999999999
report 1
report 1 oK
report 3 fail
effect 4294967295
app c1 write 1:2 0 256
app c1 write 1:2 0 077
app c1 write 1:2 1048576 0
app c1 write 1:2 0 255
app s1 sync 1:2
app c1 cut 1:02 3
app c1 read 65536:2 0
app c1 sync 65535:4294967295
app c1 sync 1:2:3
app c1 fetch 1:2
app c1 lookup 1:1 a\xff
app c1 remove 1:1 n 4294967296
app c1 remove 1:1 n 0
app c1 rename 1:1 n 0 m
app c1 rename 1:1 n 2 m
app c1 list 1:1 -
app c1 list 1:1
app c1 patch 1:2 0 0 1 7

 adv 1
adv  1
adv 1 
\xff\x00
end 
ends
tank 1 1000 500 700 850 100 50 101 100 2 1 1 8
""" + "deliver " * 32 + "\n" + "deliver " * 32 + "x\n"

DRIFTING_LINES = """
adv 0
adv 0 4294967295 7
app c1 patch 1:2 0 0 1 7
app c1 patch 1:2 0 4095 2 7
app c1 patch 1:2 0 4096 1 7
app c1 patch 1:2 3 4095 1 7
"""

BEHIND = "\nend\n\nx\nend\n" + "deliver " * 32 + "\n" + "deliver " * 32 + "x\n"

HEADS = """

tanks 1
end
tank 3 1
tank 1 1000
tank 1 1000 500
tank 1 0 500 700 850 100 50 101 100 2 1 1 8
tank 1 1000 700 700 850 100 50 101 100 2 1 1 8
tank 1 1000 500 700 850 100 50 99 100 2 1 1 8
tank 1 2000000000000 500 700 850 100 50 101 100 2 1 1 8
tank 1 1000 500 700 850 100 0 101 100 2 1 1 8
tank 2 1000 500 700 850 100 50 101 100 1001 2 1 1 8
tank 1 1000 500 700 850 100 50 101 100 17 1 1 8
tank 1 1000 500 700 850 100 50 101 100 2 4 3 8
tank 1 9223372036854775808 500 700 850 100 50 101 100 2 1 1 8
tank 1 9223372036854775807 500 700 850 100 50 101 100 16 4 8 4096
tank 1 1000 500 700 850 100 50 101 100 2 1 1 8 9
tank 1 1000 500 700 850 100 50 101 100 2 1 1 8 
""" + "deliver " * 32 + "x\n"

SMALL = f"tank 1 {SETTINGS} 2 1 1 8"
SMALL_DRIFTING = f"tank 2 {SETTINGS} 5 2 1 1 8"

# for each file its head, its script, and what it says of itself
FILES = {
    "nodes": (RATED, NODES, "Nodes that are not there, that run, and that do not."),
    "messages": (RATED, MESSAGES, "Messages that were not sent, that are lost, and whose direction is cut."),
    "commands": (RATED, COMMANDS, "Disk commands that were not submitted, or whose state admits no effect or report."),
    "rates": (RATED, FLUSHES, "Clocks that run apart too fast, and a lease end that is reached with a dirty page or a write that is not reported."),
    "clients": (RATED, CLIENTS, "Several clients and servers at their lease ends: the first client, and then the first server, is named."),
    "late-writes": (RATED, LATE, "Effects of writes at and behind the lease end of the life that submitted them."),
    "late-reads": (RATED, READS, "Effects of reads at the lease end."),
    "drift": (DRIFTING, DRIFTS, "Clocks with a grain that run apart too far: the first pair is named, with its excess."),
}

LINE_FILES = {
    "lines": (SMALL, LINES, "Lines that a reader refuses, with the column; a few that it reads, which the world takes or refuses."),
    "lines-with-a-grain": (SMALL_DRIFTING, DRIFTING_LINES, "Lines behind a head of the second form."),
    "lines-behind-the-end": (SMALL, BEHIND, "What stands behind the end."),
    "heads": ("", HEADS, "First lines that are no head."),
}


def lines_of(script):
    """The lines of a script; `deliver 1..3` stands for three."""
    for line in filter(None, script.split("\n")):
        first, more, last = line.removeprefix("deliver ").partition("..")
        yield from [f"deliver {k}" for k in range(int(first), int(last) + 1)] if more else [line]


def told(name, values):
    """A refusal as the report has it."""
    return " ".join(map(str, [name, *values]))


def rows(head, script):
    """The lines of a script, with its refusal after each that is refused."""
    reader = ScheduleReader()
    world = World(reader.line(head.encode()))
    for line in lines_of(script):
        event = reader.line(line.removeprefix("! ").encode())
        refusal = world.refusal(event)
        assert line.startswith("! ") == (refusal is not None), (line, refusal)
        if refusal is not None:
            yield f"{line} > {told(refusal[0], refusal[1:])}"
        else:
            world.step(event)
            yield line


def line_rows(head, lines):
    """Lines as the rows of a file; those that are refused have their refusal after them."""
    reader, world = ScheduleReader(), None
    if head:
        world = World(reader.line(head.encode()))
    for line in lines.split("\n")[1:-1]:
        if not head:
            reader = ScheduleReader()
        try:
            event = reader.line(line.encode("latin-1"))
        except LineRefused as refused:
            yield f"! {line} > {told(refused.name, refused.values)}"
            continue
        refusal = world.refusal(event) if world and line != "end" else None
        if refusal is not None:
            yield f"! {line} > {told(refusal[0], refusal[1:])}"
            continue
        if world and line != "end":
            world.step(event)
        yield line


def file(name, says, head, rows):
    """A file and its text."""
    return f"schedules/refusals/{name}.rows", "\n".join([f"# {says}", *filter(None, [head]), *rows, ""])


def files():
    """Each file of lines and events, and its text."""
    events = [file(name, says, head, rows(head, script)) for name, (head, script, says) in FILES.items()]
    return dict(events + [file(name, says, head, line_rows(head, lines)) for name, (head, lines, says) in LINE_FILES.items()])
