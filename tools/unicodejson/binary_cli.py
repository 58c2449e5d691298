"""The command line of default_tables."""

import json
from pathlib import Path

from common.documents import add_modes, deliver
from common.parsing import Words
from unicodejson.binary import binary_tables

NAME = "default_tables"
ROOT = Path(__file__).resolve().parents[2]
TABLES = ROOT / "data" / "tables.json"
TARGET = ROOT / "crates" / "shell_default_tables" / "src" / "bytes.rt"
ABOUT = """Makes crates/shell_default_tables/src/bytes.rt, the default tables in binary form, from data/tables.json, which
unicode_to_json makes of the Unicode Character Database."""
# How many bytes a line has, of four letters each.
LINE = 29


def main(words: list[str]) -> int:
    """Writes the module, or tells what differs; its status is 1 where it does."""
    parser = Words(prog=NAME, description=ABOUT)
    add_modes(parser)
    options = parser.parse_args(words)
    return deliver(NAME, TARGET, module(TABLES), options)


def module(path: Path) -> str:
    """The module with the bytes of the tables in a file."""
    tables = json.loads(path.read_text(encoding="utf-8"))
    data, version = binary_tables(tables), tables["unicode"]["version"]
    lines = (data[start : start + LINE] for start in range(0, len(data), LINE))
    text = "\\\n".join("".join(f"\\x{byte:02x}" for byte in line) for line in lines)
    return f"""//! The default tables: those of Unicode {version} in binary form, made by `tools/default_tables`.

/// The tables in binary form (`specs/Sections.antt`, `specs/Records.antt`).
#[rattlefmt::skip]
pub static TABLES: &[u8; {len(data)}] = b"\\
{text}";
"""
