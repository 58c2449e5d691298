"""Why a program refused its words or files: its own lines are fixed; those of hb_shape name neither a file nor a place
in it, and those of kuspveli no word."""

import json
import mmap
import os
import stat
from pathlib import Path
from typing import Any, BinaryIO, Callable, Sequence

from common.faults import DATA, FILES, TEXT, WORDS, ToolFault
from fontjson.check_packed import is_packed
from formats.named import FONT, KEY, TABLES
from formats.sfnt import check_file, is_font_file
from shaping.program_words import FILES as ROLES
from shaping.program_words import KUSPVELI, USAGE, files_of, word_fault

# The text of this name is standard input; tables and fonts are files.
STANDARD_INPUT = "-"
# The key of a font's units, which each font has, and no tables.
UNITS = "upem"
# The key of TABLES that has no rows.
SYLLABLES = "syllables"
# Files of JSON above this are not read for a reason, in bytes.
MOST = 256 << 20
PIECE = 1 << 20


def hb_shape_reasons(status: int, words: list[str]) -> list[str]:
    """What the program's status is about, and whether its files seem to be swapped, also without a fault."""
    found = reason_of(status, words), None if word_fault(words) else swapped(files_of(words))
    return [line for line in found if line is not None]


def kuspveli_reasons(status: int, words: list[str]) -> list[str]:
    """The word that is wrong, or why the font file can't be read, or is none. Of other faults the program's own line says
    where."""
    if status == WORDS:
        return [word_fault(words, KUSPVELI) or f"these words are refused: {KUSPVELI.usage} (tools/kuspveli --help)"]
    if status not in (DATA, FILES) or word_fault(words, KUSPVELI):
        return []
    files = files_of(words, KUSPVELI)[:1]
    reason = reading_reason(files, KUSPVELI.files) if status == FILES else font_reason(*files, face_of(words))
    return [] if reason is None else [reason]


def face_of(words: list[str]) -> int:
    """The index of the font in its file, of words that are right."""
    for word, after in zip(words, [*words[1:], ""]):
        name, _, value = word.partition("=")
        if name == "--face":
            return int(value or after)
        if word == "--":
            break
    return 0


def font_reason(name: str, index: int) -> str | None:
    """Why a file has no font that the program reads; None where it has one, which is damaged."""
    role = KUSPVELI.files[0]
    try:
        if is_packed(name):
            return f"{role}: {name}: a packed font (WOFF): tools/shape reads it"
        check_file(name, index)
    except (OSError, ToolFault) as fault:
        return f"{role}: {fault}"
    return None if is_font_file(Path(name)) else f"{role}: {name}: no TrueType or OpenType font"


def reason_of(status: int, words: list[str]) -> str | None:
    """What the program's status is about: the word, or the file and where in it; None where none is found."""
    if status == WORDS:
        return word_fault(words) or f"these words are refused: {USAGE} (tools/hb_shape --help)"
    find = {DATA: data_reason, TEXT: text_reason, FILES: of_reading}.get(status)
    try:
        return find(files_of(words)) if find else None
    except (OSError, ValueError):
        return None


def of_reading(files: list[str]) -> str | None:
    *_, text = files
    return reading_reason(files if text != STANDARD_INPUT else files[:-1], ROLES)


def reading_reason(files: list[str], roles: Sequence[str]) -> str | None:
    """The first file that can't be read."""
    for role, name in zip(roles, files):
        try:
            # A pipe is not waited for.
            with open(os.open(name, os.O_RDONLY | os.O_NONBLOCK), "rb") as file:
                file.read(1)
        except OSError as error:
            return f"{role}: {name}: {error.strerror}"
    return None


def data_reason(files: list[str]) -> str | None:
    """Where tables or font break their format; the program reads the tables first."""
    from formats.where import font_fault, tables_fault  # it takes a while to read in, and few runs need it

    finders: tuple[Callable[[Path], str | None], ...] = (tables_fault, font_fault)
    for role, name, find in zip(ROLES, files, finders):
        if os.stat(name).st_size == 0:
            return f"{role}: {name}: nothing can be read from it"
        if is_looked_into(name) and (found := find(Path(name))):
            return f"{role}: {name}: {found}"
    return None


def text_reason(files: list[str]) -> str | None:
    """The byte at which the text is no UTF-8."""
    *_, name = files
    if name == STANDARD_INPUT or not stat.S_ISREG(os.stat(name).st_mode):
        return None
    with open(name, "rb") as file:
        at = first_other(file)
    return None if at is None else f"{ROLES[-1]}: {name}: no UTF-8 at byte {at}"


def first_other(file: BinaryIO) -> int | None:
    """The index of the first byte that is no UTF-8; the file is read in pieces."""
    before, rest, piece = 0, b"", b"-"
    while piece:
        piece = file.read(PIECE)
        rest += piece
        try:
            rest.decode("utf-8")
            before, rest = before + len(rest), b""
        except UnicodeDecodeError as error:
            if not piece or error.reason != "unexpected end of data":
                return before + error.start
            before, rest = before + error.start, rest[error.start :]
    return None


def swapped(files: list[str]) -> str | None:
    """Whether font and tables seem to stand for each other: the program skips keys that it doesn't know, so it may give
    a line all the same."""
    tables, font, _ = files
    try:
        if all(map(is_looked_into, (tables, font))) and may_be_swapped(tables, font):
            return told_swap(tables, font)
    except (OSError, RecursionError, ValueError):
        # The program says what is wrong with them.
        pass
    return None


def may_be_swapped(tables: str, font: str) -> bool:
    """A first look at both, which doesn't read them as JSON."""
    return has_text(tables, UNITS) or not has_text(font, UNITS) or has_text(tables, FONT) or has_text(font, TABLES)


def told_swap(tables: str, font: str) -> str | None:
    from formats.rules import TABLE_ROWS

    known = {SYLLABLES, *(key for key, *_ in TABLE_ROWS)}
    of_font, of_tables = object_of(font), object_of(tables)
    if of_font.get(KEY) == TABLES:
        what = f"FONT ({font}) has {TABLES} as its {KEY}"
    elif of_tables.get(KEY) == FONT:
        what = f"TABLES ({tables}) has {FONT} as its {KEY}"
    elif UNITS not in of_font and of_font.keys() & known:
        what = f"FONT ({font}) has no {UNITS} and has {min(of_font.keys() & known)}, a key of TABLES"
    elif UNITS in of_tables and not of_tables.keys() & known:
        what = f"TABLES ({tables}) has {UNITS}, a key of FONT, and none of TABLES"
    else:
        return None
    return f"{what}: are the two swapped? {USAGE}"


def object_of(name: str) -> dict[str, Any]:
    value = json.loads(Path(name).read_bytes())
    return value if isinstance(value, dict) else {}


def has_text(name: str, text: str) -> bool:
    """Whether a file has a text of JSON somewhere in it."""
    with open(name, "rb") as file, mmap.mmap(file.fileno(), 0, access=mmap.ACCESS_READ) as content:
        return content.find(json.dumps(text).encode()) >= 0


def is_looked_into(name: str) -> bool:
    """Whether a file is one that is read for a reason: no pipe, not empty, and not very large."""
    found = os.stat(name)
    return stat.S_ISREG(found.st_mode) and 0 < found.st_size <= MOST
