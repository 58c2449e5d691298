"""What is read of a font file without fontTools: which tables it has, and of which characters it has a glyph (OpenType,
chapter 4, table directory, and chapter 5, cmap). What is damaged is taken for missing: the program says what is wrong."""

import struct
from bisect import bisect_left
from dataclasses import dataclass, field
from functools import cached_property
from pathlib import Path

from common.faults import DATA, ToolFault
from common.files import check_regular

COLLECTION = b"ttcf"
# 1.0, Apple's name for it, and outlines of CFF.
VERSIONS = (b"\0\1\0\0", b"true", b"OTTO")
# Bytes before the offsets of a collection's fonts.
START = 12
# Subtables of cmap by platform and encoding, the best first: all characters of Unicode, those of the first plane,
# symbols.
ENCODINGS = ((3, 10), (0, 6), (0, 4), (3, 1), (0, 3), (0, 2), (0, 1), (0, 0), (3, 0))
SYMBOLS, SYMBOL_START = (3, 0), 0xF000
# Tables of which the program reads nothing: those by which other shapers change or move glyphs, and the others.
TABLES_THAT_CHANGE = ("kerx", "mort", "morx", "trak", "Silf")
TABLES_LEFT_OUT = (
    "BASE", "JSTF", "MATH",
    "ankr", "bsln", "feat", "just", "lcar", "ltag", "opbd", "prop",
    "CBDT", "COLR", "EBDT", "SVG ", "sbix",
)  # fmt: skip
VARIATIONS = "fvar"
# The program's names of what is wrong with a font, each with why.
FAULTS = {
    "F1 Short": "a table, or the file, ends too early",
    "F2 Kind": "a version or format that is not known, or no font",
    "F3 Order": "numbers that fall where they may not",
    "F4 Index": "the file has no font with this index",
    "F5 Missing": "the font lacks head or maxp",
    "F6 TooLarge": "more rows than a font may have",
}


def explained(fault: str) -> str:
    """A fault of a font as the program names it, with why."""
    why = next((why for name, why in FAULTS.items() if fault.startswith(name)), "")
    return f"{fault}: {why}" if why else fault


def is_font_file(path: Path) -> bool:
    """Whether a file begins as a font or a collection of fonts, uncompressed."""
    try:
        with open(path, "rb") as file:
            return file.read(4) in (COLLECTION, *VERSIONS)
    except OSError:
        return False


def check_file(path: str, index: int) -> None:
    """Refuses a folder, an empty file, and an index that a collection has no font for."""
    check_regular(Path(path), "font")
    with open(path, "rb") as file:
        head = file.read(START)
    if not head:
        raise ToolFault(DATA, f"{path}: no font: the file is empty")
    if head[:4] == COLLECTION and len(head) == START:
        [count] = struct.unpack(">L", head[8:])
        if not 0 <= index < count:
            raise ToolFault(DATA, f"{path}: no font at index {index}: the collection has {count}, from index 0 on")
    elif index != 0:
        raise ToolFault(DATA, f"{path}: no font at index {index}: the file is no collection")


@dataclass(frozen=True)
class FontTables:
    """The tables of a font of a file."""

    path: Path
    index: int = 0

    @cached_property
    def places(self) -> dict[str, tuple[int, int]]:
        """The offset and the length of each table by its tag."""
        try:
            with open(self.path, "rb") as file:
                start = 0
                if file.read(START)[:4] == COLLECTION:
                    file.seek(START + 4 * self.index)
                    [start] = struct.unpack(">L", file.read(4))
                file.seek(start + 4)
                [count] = struct.unpack(">H6x", file.read(8))
                records = struct.iter_unpack(">4s4xLL", file.read(16 * count))
                return {tag.decode("latin-1"): (offset, length) for tag, offset, length in records}
        except (OSError, struct.error):
            return {}

    def bytes_of(self, tag: str) -> bytes:
        """The bytes of a table, none without it."""
        offset, length = self.places.get(tag, (0, 0))
        with open(self.path, "rb") as file:
            file.seek(offset)
            return file.read(length)

    @property
    def that_change(self) -> list[str]:
        """Those of which nothing is read though they change or move glyphs."""
        return [tag for tag in TABLES_THAT_CHANGE if tag in self.places]

    @property
    def left_out(self) -> list[str]:
        """The others of which nothing is read."""
        return [tag for tag in TABLES_LEFT_OUT if tag in self.places]

    @property
    def axis_count(self) -> int:
        """The number of axes of a variable font (OpenType, chapter 7, fvar), 0 of another."""
        return int.from_bytes(self.bytes_of(VARIATIONS)[8:10], "big")

    @cached_property
    def characters(self) -> "Characters":
        return Characters(self.bytes_of("cmap"))


@dataclass(frozen=True)
class Characters:
    """The characters that a table cmap has a glyph for; all where its format isn't known."""

    table: bytes
    met: dict[int, bool] = field(default_factory=dict)

    def __contains__(self, character: object) -> bool:
        if not isinstance(character, int):
            return False
        if character not in self.met:
            self.met[character] = self.has(character) or (self.is_of_symbols and self.has(SYMBOL_START + character))
        return self.met[character]

    def has(self, character: int) -> bool:
        try:
            return self.glyph_of(character) != 0
        except (IndexError, struct.error):
            return False

    @cached_property
    def subtable(self) -> tuple[tuple[int, int], int]:
        """The platform and encoding of the subtable, and its offset; 0 where there is none."""
        try:
            [count] = struct.unpack_from(">H", self.table, 2)
            records = [struct.unpack_from(">HHL", self.table, 4 + 8 * at) for at in range(count)]
        except struct.error:
            return (0, 0), 0
        by_encoding = {(platform, encoding): offset for platform, encoding, offset in records}
        found = [(wanted, by_encoding[wanted]) for wanted in ENCODINGS if wanted in by_encoding]
        return found[0] if found else ((0, 0), 0)

    @property
    def is_of_symbols(self) -> bool:
        return self.subtable[0] == SYMBOLS

    def glyph_of(self, character: int) -> int:
        """The glyph of a character, 0 where it has none."""
        at = self.subtable[1]
        if at == 0:
            return 0
        [kind] = struct.unpack_from(">H", self.table, at)
        if kind == 0:
            return self.table[at + 6 + character] if character < 256 else 0
        if kind == 4:
            return self.glyph_by_segment(at, character)
        if kind in (6, 10):
            shown, first_at, width = (">HH", at + 6, 2) if kind == 6 else (">LL", at + 12, 4)
            first, count = struct.unpack_from(shown, self.table, first_at)
            if not first <= character < first + count:
                return 0
            return int(struct.unpack_from(">H", self.table, first_at + 2 * width + 2 * (character - first))[0])
        if kind in (12, 13):
            return self.glyph_by_group(at, character, kind == 12)
        return 1

    @cached_property
    def segments(self) -> tuple[int, ...]:
        """The last characters of the segments of format 4."""
        at = self.subtable[1]
        [double] = struct.unpack_from(">H", self.table, at + 6)
        return struct.unpack_from(f">{double // 2}H", self.table, at + 14)

    def glyph_by_segment(self, at: int, character: int) -> int:
        ends = self.segments
        segment = bisect_left(ends, character)
        if segment == len(ends):
            return 0
        starts_at = at + 16 + 2 * len(ends) + 2 * segment
        deltas_at, ranges_at = starts_at + 2 * len(ends), starts_at + 4 * len(ends)
        [first], [delta], [offset] = (
            struct.unpack_from(">H", self.table, place) for place in (starts_at, deltas_at, ranges_at)
        )
        if character < first:
            return 0
        if offset == 0:
            return int((character + delta) % 0x10000)
        [glyph] = struct.unpack_from(">H", self.table, ranges_at + offset + 2 * (character - first))
        return int((glyph + delta) % 0x10000) if glyph else 0

    @cached_property
    def groups(self) -> list[tuple[int, int, int]]:
        """The groups of formats 12 and 13: first and last character, and a glyph."""
        at = self.subtable[1]
        [count] = struct.unpack_from(">L", self.table, at + 12)
        return list(struct.iter_unpack(">LLL", self.table[at + 16 : at + 16 + 12 * count]))

    def glyph_by_group(self, at: int, character: int, is_rising: bool) -> int:
        found = bisect_left(self.groups, character, key=lambda group: group[1])
        if found == len(self.groups) or character < self.groups[found][0]:
            return 0
        first, _, glyph = self.groups[found]
        return glyph + (character - first if is_rising else 0)
