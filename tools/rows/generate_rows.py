"""Worked rows of generated schedules: crates/st_rows_world/src/generated_*.rt and their proofs,
written by tools/rows/write.

The first draws of some seeds, a candidate of each kind, short schedules with their text, and what
their runs count are written as contracts of functions, from the generator of reference/.
"""
import row_records  # noqa: F401  (it makes reference/ known)
from reference.generator import Draws, Generator, generate, work_text
from reference.schedule import event_line

CRATE = "crates/st_rows_world"
SEEDS = {"seed_0": 0, "seed_7": 7, "seed_9": 9, "high_seed": 2**63 + 5, "last_seed": 2**64 - 1}
OPEN = "#[tactic(auto, unfolding(crate::specs::GeneratedWords::rows_open))]"
TEXTS = {"no_event": (0, 9), "seed_0": (40, 0), "seed_7": (40, 7), "seed_9": (40, 9), "last_seed": (40, 2**64 - 1)}
FIRST = "// Written by tools/rows/generate_rows.py."
KINDS = {
    "even_advance": 0, "uneven_advance": 1, "tick": 2, "write": 4, "read": 5, "sync": 6, "deliver": 7, "effect": 11,
    "success": 12, "report": 13, "lose": 14, "cut": 14, "heal": 14, "crash": 15, "start": 15, "late_tick": 15,
}
WORDS = {"success": "report", "late_tick": "tick", "even_advance": "adv", "uneven_advance": "adv", "write": "app", "read": "app", "sync": "app"}


def file(name, lines):
    """A file of functions."""
    return {f"{CRATE}/src/generated_{name}.rt": "\n".join(lines) + "\n"}


def draws():
    lines = [FIRST, "ghost use Rattle.std.specs.Prelude.{◌≡◌};", "ghost use Rattle.st_rules.specs.Generator.{draw, state_after};"]
    for name, seed in SEEDS.items():
        numbers = Draws(seed)
        clauses = []
        for place, bound in enumerate((16, 20, 3, 256), 1):
            clauses.append(f"    ensures draw_{place} {{ draw {place} {bound} {seed} ≡ {numbers.below(bound)} }}")
        clauses.append(f"    ensures state {{ state_after 4 {seed} ≡ {numbers.state} }}")
        lines += ["", f"/// The first four draws from {seed}, below 16, 20, 3 and 256, and the state after them.", OPEN, f"pub fn {name}()", *clauses, "{}"]
    return file("draws", lines)


class Counted:
    """A world of which only the numbers of messages and commands are asked."""
    def __init__(self, sent, commands):
        self.messages, self.origins = [None] * sent, [None] * commands


def candidate(seed, sent, commands):
    generator = Generator(seed)
    generator.world = Counted(sent, commands)
    event = generator.candidate()
    return event, generator.draws.state


def seed_of(name, kind, sent, commands):
    """The first seed whose first candidate is of this kind."""
    for seed in range(10**6):
        if Draws(seed).below(16) == kind:
            event, _ = candidate(seed, sent, commands)
            if event is not None and event_line(event).split()[0] == WORDS.get(name, name):
                return seed
    raise ValueError(name)


def candidates():
    lines = [
        FIRST,
        "ghost use Rattle.std.specs.Prelude.{◌≡◌, None, Some, codes};",
        "ghost use Rattle.st_rules.specs.Generator.{candidate};",
        "ghost use Rattle.st_rows_world.specs.GeneratedWords.{line_of};",
    ]
    for name, kind in KINDS.items():
        seed = seed_of(name, kind, 30, 4)
        clauses = []
        for which, (sent, commands) in {"full": (30, 4), "first": (1, 1), "none": (0, 0)}.items():
            event, state = candidate(seed, sent, commands)
            text = "None" if event is None else f'Some (codes "{event_line(event)}\\n")'
            clauses.append(f"    ensures {which} {{ line_of (candidate {sent} {commands} {seed}).0 ≡ {text} }}")
            clauses.append(f"    ensures {which}_state {{ (candidate {sent} {commands} {seed}).1 ≡ {state} }}")
        word = name.replace("_", " ")
        lines += ["", f"/// A candidate from {seed} (kind {kind}, {word}): after 30 messages and 4 commands, after one of each, and at the start.", OPEN, f"pub fn {name}()", *clauses, "{}"]
    return file("candidates", lines) | answers("candidates.write", ["full", "first", "none"])


def text(n, seed):
    parts = []
    generate(n, seed, parts.append)
    return "".join(parts).replace("\n", "\\n")


ANSWERS = """use Rattle.std.proofs.Common.{{refl}}
use Rattle.st_base.specs.Page.{{filled}}
use Rattle.st_rows_world.specs.GeneratedWords.{{rows_open}}
use Rattle.st_rows_world.proofs.{path}.Goals as goal
"""
ANSWER = """
pub returns-clause-{clause} : goal.returns-clause-{clause}
unfolding rows_open filled
returns-clause-{clause} c = refl
"""


def answers(path, clauses):
    """The proofs of clauses, by the path of their function."""
    text = ANSWERS.format(path=f"generated_{path}") + "".join(ANSWER.format(clause=c) for c in clauses)
    return {f"{CRATE}/proofs/generated_{path.replace('.', '/')}/Answers.antt": text}


def texts():
    lines = [FIRST, "ghost use Rattle.std.specs.Prelude.{◌≡◌, codes};", "ghost use Rattle.st_generate.specs.GeneratedText.{generate_text, work_text};"]
    for name, (n, seed) in TEXTS.items():
        lines += [
            "",
            f"/// The schedule of {n} events from {seed}, and what its run counts.",
            OPEN,
            f"pub fn {name}()",
            f'    ensures schedule {{ generate_text {n} {seed} ≡ codes "{text(n, seed)}" }}',
            f'    ensures counts {{ work_text {n} {seed} ≡ codes "{work_text(n, seed)}\\n" }}',
            "{}",
        ]
    proofs = [answers(f"texts.{name}", ["schedule"]) for name, (n, _) in TEXTS.items() if n]
    return dict(item for of in [file("texts", lines), *proofs] for item in of.items())


def files():
    """Each file that has worked rows of generated schedules, and its text."""
    return draws() | candidates() | texts()
