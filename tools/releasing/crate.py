"""The crate for Rust as a folder, with the archive inside."""

import re
from pathlib import Path

from common.faults import DATA, ToolFault
from common.version import version
from common.plan import Entry
from releasing.contents import TABLES, Built
from sources.crates import ROOT

BINDING = ROOT / "bindings" / "rust"
TEXT = Path(__file__).parent / "crate.md"
# The examples that take nothing of the repository.
EXAMPLES = ("words.rs",)
OUTSIDE = re.compile(r"\n\[\[example\]\]\n(?:[^\[]+\n)*?(?=\n\[|\Z)")


def crate_files(built: Built) -> dict[str, Entry]:
    """The files by their paths below the folder. build.rs tells of an archive below lib/unproved that it is unproved."""
    kept = "" if built.is_proved else "unproved/"
    names = ["build.rs", *(f"src/{path.name}" for path in sorted((BINDING / "src").glob("*.rs")))]
    names += [f"examples/{name}" for name in EXAMPLES]
    return {
        "Cargo.toml": Entry(manifest(built).encode()),
        "README.md": Entry(TEXT.read_bytes()),
        "LICENSE": Entry(built.licences),
        Path(TABLES).name: Entry(built.tables),
        f"lib/{kept}libkuspveli.a": Entry(built.archive.file.read_bytes()),
        **{name: Entry((BINDING / name).read_bytes()) for name in names},
    }


def manifest(built: Built) -> str:
    """The binding's manifest with this version, and without the example that stands elsewhere in the repository."""
    text = OUTSIDE.sub("", (BINDING / "Cargo.toml").read_text(encoding="utf-8"))
    line = f'version = "{version()}"\n'
    if text.count(line) != 1 or "../" in text:
        raise ToolFault(DATA, f"{BINDING / 'Cargo.toml'} has another version than VERSION, or a path out of its folder")
    return text.replace(line, f'version = "{built.name}"\n').rstrip("\n") + "\n"
