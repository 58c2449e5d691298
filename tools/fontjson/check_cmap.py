"""How many rows the subtables of cmap make, and that their ranges follow the format."""

import struct
from typing import Iterable

from fontjson.limits import MOST_CHARACTERS, MOST_SUBTABLES_OF_CMAP, refuse

# The first and the last of some characters that follow one another.
Range = tuple[int, int]
LONG_LENGTHS = (8, 10, 12, 13)


def check_cmap(data: bytes) -> tuple[int, int]:
    """The number of subtables, and the rows of all; refuses what is beyond the limits, and ranges that overlap."""
    count = number(data, 2)
    if count > MOST_SUBTABLES_OF_CMAP:
        raise refuse(f"table cmap: more than {MOST_SUBTABLES_OF_CMAP} subtables")
    offsets = {number(data, 8 + 8 * record, 4) for record in range(count)}
    return count, within(sum(subtable(data, offset) for offset in offsets))


def subtable(data: bytes, at: int) -> int:
    """The rows of a subtable. One of the other formats has at most as many as bytes."""
    form = number(data, at)
    if form == 2:
        return high_bytes(data, at)
    if form == 4:
        return within(apart(segments(data, at), form))
    if form in (12, 13):
        groups = rows_at(data, at + 16, number(data, at + 12, 4), ">LLL")
        return within(apart([(first, last) for first, last, _ in groups], form))
    if form == 14:
        return variants(data, at)
    return within(number(data, at + 4, 4) if form in LONG_LENGTHS else number(data, at + 2))


def within(rows: int) -> int:
    if rows > MOST_CHARACTERS:
        raise refuse(f"table cmap: more than {MOST_CHARACTERS:,} characters and variants")
    return rows


def number(data: bytes, at: int, length: int = 2) -> int:
    """An unsigned number; what is past the end is refused by fontTools."""
    return int.from_bytes(data[at : at + length], "big")


def rows_at(data: bytes, at: int, count: int, form: str) -> Iterable[tuple[int, ...]]:
    """So many rows of a form from a place on, or those that are there."""
    size = struct.calcsize(form)
    count = within(min(count, max(len(data) - at, 0) // size))
    return struct.iter_unpack(form, data[at : at + count * size])


def apart(ranges: list[Range], form: int) -> int:
    """How many characters are in ranges, which rise and don't overlap."""
    before = -1
    for first, last in ranges:
        if not before < first <= last:
            raise refuse(f"table cmap: ranges of format {form} overlap or fall at {first:#x}")
        before = last
    return sum(last - first + 1 for first, last in ranges)


def high_bytes(data: bytes, at: int) -> int:
    """Format 2: each high byte has a range of low bytes, by a key that is eight times the index of it."""
    for high in range(256):
        header = at + 518 + number(data, at + 6 + 2 * high) // 8 * 8
        if number(data, header) + number(data, header + 2) > 256:
            raise refuse(f"table cmap: low bytes of format 2 past 255 at high byte {high}")
    return 1 << 16


def segments(data: bytes, at: int) -> list[Range]:
    """Format 4: the last characters of all segments, two bytes, and the first ones. The last segment is an end mark."""
    count = number(data, at + 6) // 2
    lasts = rows_at(data, at + 14, count, ">H")
    firsts = rows_at(data, at + 16 + 2 * count, count, ">H")
    return [(first, last) for (first,), (last,) in zip(firsts, lasts)][:-1]


def variants(data: bytes, at: int) -> int:
    """Format 14: selectors, each with characters that keep their usual glyph, and some that have another."""
    known: dict[tuple[int, bool], int] = {}
    selectors = list(rows_at(data, at + 10, number(data, at + 6, 4), ">HBLL"))
    rows = apart([(high << 8 | low,) * 2 for high, low, _, _ in selectors], 14)
    for _, _, *offsets in selectors:
        for offset, is_usual in zip(offsets, (True, False)):
            if offset and (offset, is_usual) not in known:
                known[offset, is_usual] = varied(data, at + offset, is_usual)
            rows = within(rows + known.get((offset, is_usual), 0))
    return rows


def varied(data: bytes, at: int, is_usual: bool) -> int:
    """The characters of a selector: ranges of those with their usual glyph, or single ones with another."""
    rows = rows_at(data, at + 4, number(data, at, 4), ">HBB" if is_usual else ">HBH")
    starts = [(high << 8 | low, more) for high, low, more in rows]
    return apart([(first, first + (more if is_usual else 0)) for first, more in starts], 14)
