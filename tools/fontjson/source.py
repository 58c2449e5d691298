"""A font by fontTools: its outlines, its instances, and what a packed file has."""

import logging
import os
import struct
from dataclasses import dataclass
from typing import Any, BinaryIO

from common.faults import DATA, FILES, ToolFault
from common.notes import Progress
from fontjson.limits import MOST_BYTES
from fontjson.variations import Place, instantiate
from formats.sfnt import check_file

try:
    from fontTools.ttLib import TTFont, TTLibError
except ImportError as missing:
    raise ToolFault(
        FILES, "fontTools is missing: apt-get install python3-fonttools, and run this by Debian's /usr/bin/python3"
    ) from missing

GLYPH_LIMIT = 0x10000


@dataclass
class Source:
    """A font that fontTools reads."""

    path: str
    font: Any
    progress: Progress
    # What the font has of what is limited, each with its limit.
    sizes: dict[str, tuple[int, int]]

    def take_instance(self, place: Place) -> None:
        """Makes a variable font its instance at a place."""
        self.progress.step("variations")
        instantiate(self.font, place)


def open_font(path: str, index: int, progress: Progress) -> Source:
    """Opens the font of a file, or the font at an index of a collection, within the limits."""
    from fontjson.check import check_sizes  # it needs fontTools, and here it is known to be there

    font = opened(path, index)
    try:
        sizes = {"bytes": (os.path.getsize(path), MOST_BYTES), **check_sizes(font)}
        return Source(path, font, progress, sizes)
    except TTLibError as error:
        raise unreadable(path, error) from error


def opened(path: str, index: int) -> Any:
    """A font of a file, of whose tables none is read yet."""
    from fontjson.check_packed import check_packed

    logging.getLogger("fontTools").setLevel(logging.CRITICAL)
    check_file(path, index)
    check_packed(path)
    try:
        # Of a table that is read and written again the numbers stay.
        font = TTFont(path, fontNumber=index, lazy=True, recalcBBoxes=False, recalcTimestamp=False)
        check_tables(path, font)
        return font
    except TTLibError as error:
        raise unreadable(path, error) from error
    except struct.error as error:
        raise ToolFault(DATA, f"{path}: the font is cut short: its list of tables ends too early") from error


def unreadable(path: str, error: Exception) -> ToolFault:
    return ToolFault(DATA, f"{path}: no font that can be read: {error}")


def write_plain(file: BinaryIO, path: str, index: int, progress: Progress, place: Place | None) -> None:
    """Writes a font as a plain file, of a variable font the instance at a place."""
    if place is None:
        font = opened(path, index)
    else:
        source = open_font(path, index, progress)
        source.take_instance(place)
        font = source.font
    with font:
        font.flavor = None
        progress.step("tables")
        font.save(file, reorderTables=None)
    file.flush()


def check_tables(path: str, font: Any) -> None:
    """Refuses a font whose tables run past the end of the file, or that lacks the tables of every font."""
    size = os.path.getsize(path)
    for tag, entry in font.reader.tables.items():
        if entry.offset + entry.length > size and font.flavor != "woff2":
            raise ToolFault(DATA, f"{path}: the font is cut short: table {tag} runs past the end of the file")
    for tag in ("head", "maxp"):
        if tag not in font:
            raise ToolFault(DATA, f"{path}: no font that can be read: table {tag} is missing")
    if font["maxp"].numGlyphs >= GLYPH_LIMIT:
        raise ToolFault(DATA, f"{path}: more than {GLYPH_LIMIT - 1} glyphs")
