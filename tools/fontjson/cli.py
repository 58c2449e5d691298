"""The command line of font_to_json."""

import argparse
import json
from pathlib import Path
from typing import Any

from common.faults import WORDS, ToolFault
from common.notes import Notes, Progress
from common.parsing import Words
from common.printing import emit, tell
from common.writing import object_text, printable
from fontjson.keep import KEYS, Kept, kept_keys, kept_value, listed
from fontjson.limits import reading
from fontjson.program import NAME, font_text
from fontjson.variations import Place, Wanted, place_of, read_variations

ABOUT = """Writes a TrueType or OpenType font as the JSON value that hb_shape reads as FONT, on standard output, as
the program kuspveli reads it (kuspveli FONT --json). Tables of which nothing is read are named on standard error.
Instances of variable fonts, WOFF and WOFF2 need fontTools: Debian's python3-fonttools, under /usr/bin/python3."""


def parser() -> argparse.ArgumentParser:
    words = Words(prog=NAME, description=ABOUT)
    words.add_argument("font", metavar="FONT", help="a .ttf, .otf, .ttc, .otc, .woff or .woff2 file")
    words.add_argument("--index", type=int, default=0, metavar="N", help="the font of a collection, from 0 on")
    words.add_argument("--variations", metavar="LIST", help="of a variable font, as wght=700,wdth=80")
    words.add_argument(
        "--named-instance", metavar="NAME", help="an instance of a variable font, or its number from 0 on"
    )
    words.add_argument("--only", metavar="KEYS", help=f"these keys alone, with commas: {','.join(KEYS)}")
    words.add_argument("--features", metavar="TAGS", help="of gsub and gpos these features alone, with commas")
    words.add_argument(
        "--plain-lookups", metavar="TYPES", help="of gsub and gpos lookups of these types without flags alone"
    )
    words.add_argument("--quiet", action="store_true", help="don't tell what was left out")
    about_sizes = "print how far the font is below each limit of what fontTools reads, and no value"
    words.add_argument("--sizes", action="store_true", help=about_sizes)
    words.add_argument("--no-limits", action="store_true", help="lift the limits of memory and of processor time")
    return words


def main(words: list[str]) -> int:
    """Converts a font; its status is 0."""
    options = parser().parse_args(words)
    if options.sizes:
        emit(sizes_of(options.font, options.index, not options.no_limits))
        return 0
    kept = Kept(kept_keys(options.only), listed(options.features), listed(options.plain_lookups))
    notes, is_limited = Notes(), not options.no_limits
    wanted = Wanted(options.named_instance, coordinates(options.variations))
    place, outside = instance_of(options.font, options.index, wanted, is_limited)
    if kept == Kept():
        emit(printable(font_text(options.font, options.index, notes, is_limited, place).decode()))
    else:
        emit(object_text(read_font(options.font, options.index, kept, notes, is_limited, place)))
    for line in outside + notes.lines() if not options.quiet else []:
        tell(NAME, f"{options.font}: {line}")
    return 0


def sizes_of(path: str, index: int, is_limited: bool) -> str:
    """A line for each thing that is limited: what it is, how much of it the font has, and the limit."""
    from fontjson.source import open_font  # first: it says where fontTools is missing
    from fontjson.drawing import sizes_of_cff

    with reading(path, is_limited):
        source = open_font(path, index, Progress(NAME))
        sizes = source.sizes | sizes_of_cff(source.font)
    return "".join(f"{what}\t{found}\t{most}\n" for what, (found, most) in sizes.items())


def coordinates(text: str | None) -> tuple[tuple[str, float], ...]:
    try:
        return () if text is None else read_variations(text)
    except ValueError as error:
        raise ToolFault(WORDS, f"--variations: {error}") from error


def instance_of(path: str, index: int, wanted: Wanted, is_limited: bool = True) -> tuple[Place | None, list[str]]:
    """Where the wanted instance is, None where none is wanted, and what is told of its coordinates."""
    if not wanted:
        return None, []
    from fontjson.source import open_font  # first: it says where fontTools is missing

    with reading(path, is_limited), open_font(path, index, Progress(NAME)).font as font:
        return place_of(path, font, wanted)


def read_font(
    path: str,
    index: int,
    kept: Kept,
    notes: Notes,
    is_limited: bool = True,
    place: Place | None = None,
    program: Path | None = None,
) -> dict[str, Any]:
    """The value of a font of a file, of a variable font at a place, with the keys that stay."""
    text = font_text(path, index, notes, is_limited, place, program)
    with reading(path, is_limited):
        return kept_value(json.loads(text), kept, notes)
