"""The calls of crates/tank_c and the structures that they take, as its sources declare them. The
structures of frames are those of crates/st_host_frames, and that of events is in crates/st_embed.
"""
import pathlib
import re

CRATES = pathlib.Path(__file__).resolve().parents[2] / "crates"
SOURCES = CRATES / "tank_c/src"
BELOW = ("st_embed", "st_host_frames")  # crates below it with structures that it takes
NUMBERS = ("u16", "u32", "u64", "usize", "bool")


def calls():
    """By the name of each call for C: its parameters, each a name and a type, and the type of its
    result, or none.
    """
    text = (SOURCES / "lib.rt").read_text()
    found = re.findall(r'#\[unsafe\(no_mangle\)\]\npub extern "C" fn (\w+)\(([^)]*)\)(?: -> (\w+))?', text)
    return {name: ([tuple(it.strip().split(": ", 1)) for it in words.replace("\n", " ").split(",") if it.strip()], result or None) for name, words, result in found}


def reads_only():
    """The calls whose contracts say that they leave the node of their handle as it is."""
    text = (SOURCES / "lib.rt").read_text()
    each = re.findall(r'pub extern "C" fn (\w+)\((\w+): &mut Tank(?:Client|Server),(.*?)\n\{\n', text.replace("(\n    ", "("), re.S)
    return {name for name, handle, clauses in each if f"ensures same {{ {handle}.new.slot.value ≡ {handle}.old.slot.value }}" in clauses}


def structures():
    """By the name of each structure for C: its fields, each a name and a type. A slot is the
    pointer that it holds.
    """
    found = {}
    for path in sorted(it for crate in ("tank_c", *BELOW) for it in (CRATES / crate / "src").glob("*.rt")):
        for name, body in re.findall(r"#\[repr\(C\)\]\n(?:#\[derive\([^)]*\)\]\n)?pub struct (\w+) \{\n(.*?)\n\}", path.read_text(), re.S):
            lines = [re.sub(r"^(pub )?", "", line.strip()).rstrip(",") for line in body.split("\n") if "ghost " not in line and "///" not in line]
            found[name] = [tuple(line.split(": ", 1)) for line in lines]
    slots = {name: fields for name, fields in found.items() if name.endswith("Slot")}
    return {name: [held for field in fields for held in slots.get(field[1], [field])] for name, fields in found.items()}


def made_of(name, made):
    """An expression for a structure whose fields are all 0."""
    values = []
    for field, kind in made[name]:
        array = re.fullmatch(r"\[\w+; (\d+)\]", kind)
        values.append(f"{field}: {made_of(kind, made) if kind in made else f'[0; {array[1]}]' if array else 0}")
    crates = [crate for crate in BELOW if any(f"pub struct {name} " in it.read_text() for it in (CRATES / crate / "src").glob("*.rt"))]
    return f"{''.join(it + '::' for it in crates)}{name} {{ {', '.join(values)} }}"


def main_text(named):
    """A main that makes each of these calls once, to go after the crate's sources."""
    lines, made = [], structures()
    lines += ["    let mut bytes: [u8; 1] = [0; 1];", "    let input: [u8; 1] = [0; 1];", "    let numbers: [u64; 1] = [0; 1];"]
    lines += [f"    let mut a_{kind}: {kind} = 0;" for kind in ("u32", "u64", "usize")]
    for name in made:
        if name.startswith("Tank") and name not in ("TankClient", "TankServer"):
            lines += [f"    let mut a_{name} = {made_of(name, made)};", f"    let mut some_{name} = [{made_of(name, made)}; 1];"]
    for kind in ("Client", "Server"):
        lines.append(f"    let mut a_Tank{kind} = Tank{kind} {{ slot: {kind}Slot::empty(), full: false }};")
    for name, (parameters, _) in named.items():
        lines.append(f"    let _ = {name}({', '.join(value_of(kind) for _, kind in parameters)});")
    top = "\nuse std::process::ExitCode;\nuse std::rt::HostRuntime;\n\nfn main(rt: HostRuntime) -> ExitCode {\n"
    return top + "\n".join(lines) + "\n    ExitCode::from(0)\n}\n"


def value_of(kind):
    """Some value of a parameter's type."""
    known = {"Global": "rt.alloc()", "&[u8]": "&input", "&[u64]": "&numbers", "&mut [u8]": "&mut bytes"}
    if kind in known:
        return known[kind]
    if kind in NUMBERS:
        return "0"
    items = re.fullmatch(r"&mut \[(\w+)\]", kind)
    if items:
        return f"&mut some_{items[1]}"
    return re.sub(r"^(&mut |&)(\w+)$", r"\1a_\2", kind)
