"""Damage to the bytes of a font file: to its bytes, counts and offsets, and to its list of tables."""

from random import Random
from typing import Callable

HEADER, ENTRY = 12, 16
COLLECTION = b"ttcf"
# Numbers at the edges of 8, 16 and 32 bits, and those that formats and counts often are.
EDGES = (0, 1, 2, 3, 4, 5, 6, 8, 10, 12, 14, 127, 128, 255)
WORDS = (*EDGES, 256, 0x7FFF, 0x8000, 0xFFFE, 0xFFFF)
LONGS = (*WORDS, 0x10000, 0x10FFFF, 0x110000, 0x7FFFFFFF, 0x80000000, 0xFFFFFFFE, 0xFFFFFFFF)
# Tables that are read, those of layout more often; the others may be swapped or moved all the same.
KINDS_OF_FILE = (0x00010000, 0x4F54544F)
READ = (
    b"GSUB", b"GSUB", b"GSUB", b"GPOS", b"GPOS", b"GPOS", b"GDEF", b"GDEF", b"cmap", b"cmap", b"CFF ", b"CFF ", b"CFF2",
    b"kern", b"glyf", b"loca", b"hmtx", b"hhea", b"vmtx", b"vhea", b"VORG", b"OS/2", b"head", b"maxp", b"post",
)  # fmt: skip
TIMES = (1, 1, 1, 1, 2, 2, 3, 5, 12)
# Counts, formats and first offsets stand at a table's beginning.
FRONT = 64


class DamagedFont:
    """A font that is being damaged."""

    def __init__(self, draw: Random, font: bytes) -> None:
        self.draw = draw
        self.bytes = bytearray(font)
        self.index = 0
        # Where the list of tables begins.
        self.list = 0
        if self.bytes[:4] == COLLECTION:
            self.index = draw.randrange(2)
            self.list = self.number(HEADER + 4 * self.index, 4)
        self.count = self.number(self.list + 4, 2)
        tags = self.tags()
        self.wanted = [tag for tag in READ if tag in tags]

    # ---- what it has

    def number(self, at: int, width: int) -> int:
        return int.from_bytes(self.bytes[at : at + width], "big")

    def put(self, at: int, width: int, value: int) -> None:
        if at + width <= len(self.bytes):
            self.bytes[at : at + width] = (value & ((1 << 8 * width) - 1)).to_bytes(width, "big")

    def entry(self, number: int) -> int:
        """Where the entry of a table begins."""
        return self.list + HEADER + ENTRY * number

    def tags(self) -> list[bytes]:
        return [bytes(self.bytes[self.entry(n) : self.entry(n) + 4]) for n in range(self.count)]

    def table(self) -> tuple[int, int]:
        """Where a table that is read begins, and its length; those that damage has made are cut to the file."""
        tags, tag = self.tags(), self.draw.choice(self.wanted)
        at = self.entry(tags.index(tag) if tag in tags else self.draw.randrange(self.count))
        start = min(self.number(at + 8, 4), len(self.bytes))
        return start, min(self.number(at + 12, 4), len(self.bytes) - start)

    def place(self, width: int) -> int:
        """Where a number of a table stands, an even one, more often near the table's beginning."""
        start, length = self.table()
        length = max(length - width + 1, 1)
        within = self.draw.randrange(min(length, FRONT) if self.draw.random() < 0.5 else length)
        return start + within - within % min(width, 2)

    # ---- damage

    def change_byte(self) -> None:
        at = self.place(1)
        is_bit = self.draw.random() < 0.5
        self.put(at, 1, self.number(at, 1) ^ 1 << self.draw.randrange(8) if is_bit else self.draw.randrange(256))

    def change_count(self) -> None:
        """A number of two bytes becomes one at an edge, a neighbour, or any."""
        at = self.place(2)
        before, kind = self.number(at, 2), self.draw.randrange(4)
        near = (before + 1, before - 1, before * 2, before ^ 1 << self.draw.randrange(16), before + 0x100)
        value = self.draw.randrange(1 << 16) if kind == 1 else self.draw.choice(WORDS if kind == 0 else near)
        self.put(at, 2, value)

    def change_long(self) -> None:
        at = self.place(4)
        before = self.number(at, 4)
        near = (before + 1, before - 1, before + 0x10000, self.draw.randrange(1 << 32))
        self.put(at, 4, self.draw.choice((*LONGS, *near)))

    def share_offset(self) -> None:
        """A number of two bytes becomes another one of its table, so that two offsets lead to one table or into it."""
        self.put(self.place(2), 2, self.number(self.place(2), 2) + self.draw.choice((0, 0, 0, 2, -2, 1, 4)))

    def share_numbers(self) -> None:
        """Some numbers in a row become the first of them, as of offsets that many records share."""
        at, width = self.place(2), self.draw.choice((2, 2, 4))
        given, step = self.number(at, width), self.draw.choice((width, width, 4, 6, 8))
        for part in range(1, self.draw.choice((2, 4, 16, 64))):
            self.put(at + step * part, width, given)

    def copy_bytes(self) -> None:
        """Bytes of one place stand at another too."""
        start, end, size = self.place(1), self.place(1), self.draw.choice((2, 4, 8, 32, 128))
        part = self.bytes[start : start + size]
        self.bytes[end : end + len(part)] = part

    def move_bytes(self) -> None:
        """Bytes are inserted or deleted, so that what follows stands at other offsets."""
        at, size = self.place(1), self.draw.choice((1, 2, 2, 4, 32))
        if self.draw.random() < 0.5:
            del self.bytes[at : at + size]
        else:
            self.bytes[at:at] = self.bytes[at : at + size]

    def swap_tables(self) -> None:
        """Two tables exchange tags, or places, or lengths."""
        first, second = (self.entry(self.draw.randrange(self.count)) for _ in range(2))
        begin, end = self.draw.choice(((0, 4), (8, 16), (8, 12), (12, 16)))
        part = bytes(self.bytes[first + begin : first + end])
        self.bytes[first + begin : first + end] = self.bytes[second + begin : second + end]
        self.bytes[second + begin : second + end] = part

    def share_table(self) -> None:
        """Two tables have the same bytes."""
        first, second = (self.entry(self.draw.randrange(self.count)) for _ in range(2))
        self.bytes[first + 8 : first + 16] = self.bytes[second + 8 : second + 16]

    def move_table(self) -> None:
        """A table begins elsewhere, or is longer or shorter, and so overlaps another one or the end."""
        at = self.entry(self.draw.randrange(self.count)) + self.draw.choice((8, 12))
        before, size = self.number(at, 4), len(self.bytes)
        near = (before + 1, before + 2, before - 2, before // 2, before * 2)
        self.put(at, 4, self.draw.choice((*near, size, size - 1, 0, 4, self.draw.randrange(size + 1), 0xFFFFFFFF)))

    def rename_table(self) -> None:
        """A table has another's tag, or one that none has."""
        at = self.entry(self.draw.randrange(self.count))
        self.bytes[at : at + 4] = self.draw.choice((*READ, b"none"))

    def change_list(self) -> None:
        """The number of tables, the kind of the file, or the offset of a collection's font."""
        at, width = self.draw.choice(((4, 2), (0, 4), (self.list + 4, 2), (self.list, 4), (8, 4), (HEADER, 4)))
        before = self.number(at, width)
        self.put(at, width, self.draw.choice((0, 1, before + 1, before - 1, self.draw.choice(LONGS), *KINDS_OF_FILE)))

    def cut(self) -> None:
        """The file ends early."""
        del self.bytes[self.draw.randrange(len(self.bytes)) :]


KINDS: tuple[tuple[Callable[[DamagedFont], None], int], ...] = (
    (DamagedFont.change_byte, 6),
    (DamagedFont.change_count, 10),
    (DamagedFont.change_long, 4),
    (DamagedFont.share_offset, 6),
    (DamagedFont.share_numbers, 3),
    (DamagedFont.copy_bytes, 3),
    (DamagedFont.move_bytes, 2),
    (DamagedFont.swap_tables, 1),
    (DamagedFont.share_table, 1),
    (DamagedFont.move_table, 1),
    (DamagedFont.rename_table, 1),
    (DamagedFont.change_list, 1),
    (DamagedFont.cut, 1),
)
DRAWN = [kind for kind, times in KINDS for _ in range(times)]


def damaged_font(draw: Random, given: bytes) -> tuple[bytes, int]:
    """A font file with damage, and the index of its font that is wanted."""
    font = DamagedFont(draw, given)
    for _ in range(draw.choice(TIMES)):
        # What is cut to nothing has nothing more to damage.
        if len(font.bytes) > HEADER + ENTRY:
            draw.choice(DRAWN)(font)
    return bytes(font.bytes), font.index
