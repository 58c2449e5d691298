"""Tables in the binary form that the library holds (crates/shell_default_tables)."""

from collections.abc import Iterable, Iterator
from typing import Any

from unicodejson.lists import (
    CATEGORIES,
    INDIC_CATEGORIES,
    INDIC_POSITIONS,
    JOINING_TYPES,
    KINDS,
    THAI_ACTIONS,
    UNIVERSAL_CATEGORIES,
)

SECTIONS = 19
PLANE = 0x10000
MOST_OF_A_RUN = 0xFFFF
TEXT_ROOM = 12
MOST_TAGS = 3
# The machines in the order of the header.
SHAPERS = ("indic", "khmer", "myanmar", "universal")


def big(number: int, width: int) -> bytes:
    return number.to_bytes(width, "big")


def character(number: int) -> bytes:
    return big(number, 3)


def characters(rows: Iterable[list[int]]) -> list[bytes]:
    """A record of the characters of each row."""
    return [b"".join(map(character, row)) for row in rows]


def runs(rows: Iterable[tuple[int, int]]) -> list[bytes]:
    """A record of each run of characters that have one number: the first one, how many there are, the number."""
    return [character(first) + big(count, 2) + big(number, 1) for first, count, number in runs_of(rows)]


def runs_of(rows: Iterable[tuple[int, int]]) -> Iterator[tuple[int, int, int]]:
    """Runs within a plane: their first characters, how many they have, their numbers."""
    first, count, number = 0, 0, 0
    for at, value in rows:
        if count and at == first + count and value == number and at % PLANE and count < MOST_OF_A_RUN:
            count += 1
            continue
        if count:
            yield first, count, number
        first, count, number = at, 1, value
    if count:
        yield first, count, number


def numbered(rows: Iterable[list[Any]], names: list[str]) -> Iterator[tuple[int, int]]:
    return ((row[0], names.index(row[1])) for row in rows)


def indic(row: list[Any]) -> bytes:
    numbers = [INDIC_CATEGORIES.index(row[1]), INDIC_POSITIONS.index(row[2])]
    return character(row[0]) + bytes(numbers)


def thai(row: list[Any]) -> bytes:
    return character(row[0]) + bytes([THAI_ACTIONS.index(row[1])]) + character(row[2]) + character(row[3])


def language(row: list[Any]) -> bytes:
    """The length of the text, the text, the number of tags, the tags."""
    text, tags = row[0].encode(), "".join(row[1]).encode("ascii")
    if len(text) > TEXT_ROOM or len(row[1]) > MOST_TAGS:
        raise ValueError(f"{row}: a language has at most {TEXT_ROOM} bytes and {MOST_TAGS} tags")
    return bytes([len(text)]) + text.ljust(TEXT_ROOM, b"\0") + bytes([len(row[1])]) + tags.ljust(4 * MOST_TAGS, b"\0")


def machine(shaper: str, value: dict[str, Any]) -> list[list[bytes]]:
    """The transitions and the accepting states, whose states are below 256."""
    categories, kinds = CATEGORIES[shaper], KINDS[shaper]
    steps = [bytes([state, categories.index(name), after]) for state, name, after in value["next"]]
    return [steps, [bytes([state, kinds.index(name)]) for state, name in value["accept"]]]


def sections_of(tables: dict[str, Any]) -> list[list[bytes]]:
    """The records of each section."""
    return [
        characters(tables["splits"]),
        characters(tables["pairs"]),
        runs((row[0], row[1]) for row in tables["classes"]),
        characters(tables["mirrored"]),
        characters(tables["vertical"]),
        characters(tables["pictographic"]),
        runs(numbered(tables["joining"], JOINING_TYPES)),
        [indic(row) for row in tables["indic"]],
        runs(numbered(tables["universal"], UNIVERSAL_CATEGORIES)),
        [thai(row) for row in tables["thai"]],
        [language(row) for row in tables["languages"]],
        *(records for shaper in SHAPERS for records in machine(shaper, tables["syllables"][shaper])),
    ]


def binary_tables(tables: dict[str, Any]) -> bytes:
    """The header (the offset and the count of each section, the states of each machine), then the sections."""
    sections = sections_of(tables)
    states = b"".join(big(tables["syllables"][shaper]["states"], 2) for shaper in SHAPERS)
    start = 8 * SECTIONS + len(states)
    header = b""
    for records in sections:
        header += big(start, 4) + big(len(records), 4)
        start += sum(map(len, records))
    return header + states + b"".join(record for records in sections for record in records)
