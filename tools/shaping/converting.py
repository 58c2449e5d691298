"""Fonts and tables as JSON, for what the program kuspveli doesn't shape by itself: made once, and kept."""

import hashlib
from pathlib import Path
from typing import Any

from building.places import KUSPVELI
from building.ready import ready_program
from common.faults import DATA, ToolFault
from common.notes import Notes, Progress
from common.printing import tell
from fontjson.cli import instance_of, read_font
from fontjson.keep import Kept
from fontjson.variations import Place
from formats.named import FONT, KEY, format_fault
from formats.where import font_fault, tables_fault
from shaping.cache import TOOLS, cache_folder, cached, fingerprint, font_name
from shaping.options import NAME, Given
from shaping.sources import TOLD, Converted, is_json, key_of
from unicodejson.cli import DEBIAN, MAKERS, make_tables

__all__ = ["cache_folder", "font_file", "font_value", "heal", "tables_file", "tell_place", "whence"]

# What is made of a font and, where Debian's unicode-data is there, of the Unicode Character Database.
FONT_READ = Kept()
TABLES_READ = list(MAKERS) if (DEBIAN / "UnicodeData.txt").is_file() else []
# The tables that come with the tools, for machines without that package.
SHIPPED = TOOLS.parent / "data" / "tables.json"


def tell_place(given: Given) -> Place | None:
    """Where the wanted instance of a variable font is; tells which coordinates are outside their axis."""
    place, outside = instance_of(str(given.font), given.font_index, given.instance, not given.has("no-limits"))
    for line in outside:
        tell(NAME, f"{given.font}: {line}")
    return place


def font_file(folder: Path, given: Given, place: Place | None = None) -> Path:
    """The font's value as a file: the file itself where it is one."""
    if is_json(given.font):
        check_format(given.font)
        return given.font
    return font_value(folder, given.font, given.font_index, not given.has("no-limits"), place)


def check_format(font: Path) -> None:
    """Refuses a value of another format, whose keys the program would pass over."""
    other = format_fault({KEY: key_of(font, KEY, FONT)}, FONT)
    if other is not None:
        raise ToolFault(DATA, f"{font}: {other}")


def font_value(folder: Path, path: Path, index: int, is_limited: bool = True, place: Place | None = None) -> Path:
    """A font file's value as a file, of a variable font at a place."""
    program, status = ready_program(NAME, target=KUSPVELI), path.stat()
    of = (str(path.resolve()), status.st_size, status.st_mtime_ns, index, FONT_READ, place, sum_of(program))
    return cached(
        folder / font_name(path, index, place), fingerprint(*of), lambda: convert(program, path, index, is_limited, place)
    )


def sum_of(program: Path) -> str:
    return hashlib.sha256(program.read_bytes()).hexdigest()


def convert(program: Path, path: Path, index: int, is_limited: bool, place: Place | None) -> dict[str, Any]:
    """The value of a font; what it leaves out is told, but for what each run tells."""
    notes = Notes()
    value = read_font(str(path), index, FONT_READ, notes, is_limited, place, program)
    for line in notes.others():
        tell(NAME, f"{path}: {line}")
    return {**value, TOLD: notes.told}


def tables_file(folder: Path) -> Path:
    """The tables as a file: of Debian's unicode-data where that is there, else those that come with the tools."""
    if not TABLES_READ:
        SHIPPED.stat()
        return SHIPPED
    return cached(folder / "tables.json", fingerprint(TABLES_READ), make_read_tables)


def whence(tables: Path) -> str:
    """Where tables come from."""
    if tables == SHIPPED:
        return "which come with the tools: Debian's unicode-data is not there"
    return f"made of {DEBIAN}"


def make_read_tables() -> dict[str, Any]:
    progress = Progress(NAME)
    try:
        return make_tables(DEBIAN, TABLES_READ, progress)
    finally:
        progress.end()


def heal(folder: Path, given: Given, place: Place | None, source: Converted) -> bool:
    """Makes kept files anew that the program refuses, as by a fault of the disk; whether there were such."""
    finders = ((source.tables, tables_fault), (source.font, font_fault))
    refused = [path for path, find in finders if find(path) is not None] or [source.tables, source.font]
    kept = [path for path in refused if path.parent == folder]
    for path in kept:
        path.unlink(missing_ok=True)
    if kept:
        tables_file(folder)
        font_file(folder, given, place)
    return bool(kept)
