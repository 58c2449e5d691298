"""Tables for a text: none, those of the Unicode Character Database for its characters, or random rows of the format."""

import json
import unicodedata
from functools import cache
from random import Random
from typing import Any, Callable

from formats.named import KEY
from fuzzing.alphabets import Alphabet
from sources.crates import ROOT
from unicodejson.lists import (
    CATEGORIES,
    INDIC_CATEGORIES,
    INDIC_POSITIONS,
    JOINING_TYPES,
    KINDS,
    THAI_ACTIONS,
    UNIVERSAL_CATEGORIES,
    machine_value,
)

Row = list[Any]
# They come with the repository, so that a case is the same on each machine, whichever version Debian's unicode-data has.
SHIPPED = ROOT / "data" / "tables.json"
# Classes that some rule names, and others.
CLASSES = [0, 1, 7, 9, 10, 14, 17, 18, 22, 26, 84, 91, 103, 122, 129, 130, 200, 202, 214, 216, 220, 222, 228, 230, 232, 233]
CLASSES += [234, 240, 254, 255]
LAWFUL_TOGETHER = ("splits", "pairs", "classes")
# So many of the random tables with lawful rows keep the premises of safe breaks.
KEEPING = 0.5


@cache
def whole_tables() -> dict[str, Any]:
    """The tables of the Unicode Character Database."""
    return dict(json.loads(SHIPPED.read_bytes()))


@cache
def machines() -> dict[str, Any]:
    """The machines of the grammars of tools/machines."""
    return {shaper: machine_value(shaper) for shaper in KINDS}


@cache
def rows_by_character() -> dict[str, dict[int, list[Row]]]:
    """The rows of the whole tables by their first character, for each key."""
    found: dict[str, dict[int, list[Row]]] = {}
    for key, rows in whole_tables().items():
        if key not in (KEY, "unicode", "syllables", "languages", "pictographic"):
            by_first = found.setdefault(key, {})
            for row in rows:
                by_first.setdefault(row[0], []).append(row)
    return found


def draw_tables(draw: Random, alphabet: Alphabet, lawful: float = 0.7) -> tuple[dict[str, Any], bool]:
    """Tables that follow the format, and whether they are lawful for sure; so many of the random ones have lawful rows."""
    kind = draw.random()
    if kind < 0.1:
        return {}, True
    if kind < 0.65:
        return {**cut_tables(alphabet), "syllables": machines_of(alphabet)}, False
    value = random_tables(draw, alphabet, lawful)
    value["syllables"] = machines_of(alphabet) if draw.random() < 0.5 else random_machines(draw, alphabet)
    return value, False


def machines_of(alphabet: Alphabet) -> dict[str, Any]:
    return {shaper: machines()[shaper] for shaper in alphabet.shapers()}


def cut_tables(alphabet: Alphabet) -> dict[str, Any]:
    """The rows of the whole tables whose first character is of the alphabet, and pairs that give one of it."""
    value = {
        key: [row for character in alphabet.characters for row in by_first.get(character, [])]
        for key, by_first in rows_by_character().items()
    }
    value["pairs"] = [row for row in value["pairs"] if row[2] in alphabet.characters]
    whole = whole_tables()
    value["pictographic"] = whole["pictographic"]
    value["languages"] = whole["languages"][::16]
    return value


def random_tables(draw: Random, alphabet: Alphabet, lawful: float) -> dict[str, Any]:
    """Rows of every key over the alphabet; some keys are missing."""
    characters = alphabet.characters
    is_lawful = draw.random() < lawful

    def rows(part: float, rest: Callable[[], Row]) -> list[Row]:
        return [[u, *rest()] for u in characters if draw.random() < part]

    def letter() -> int:
        return draw.choice(characters)

    value = {
        **(lawful_rows(draw, alphabet) if is_lawful else any_rows(draw, alphabet)),
        "mirrored": rows(0.2, lambda: [letter()]),
        "vertical": rows(0.2, lambda: [letter()]),
        "joining": rows(0.7, lambda: [draw.choice(JOINING_TYPES)]),
        "indic": rows(0.8, lambda: [draw.choice(INDIC_CATEGORIES), draw.choice(INDIC_POSITIONS)]),
        "universal": rows(0.8, lambda: [draw.choice(UNIVERSAL_CATEGORIES)]),
        "thai": [[u, a, letter(), letter()] for u in characters for a in THAI_ACTIONS if draw.random() < 0.2],
        "pictographic": [[u, u] for u in characters if draw.random() < 0.2],
        "languages": [["de", ["DEU "]], ["ro", ["ROM ", "MOL "]], ["und", []]],
    }
    value = {key: part for key, part in value.items() if key in LAWFUL_TOGETHER or draw.random() < 0.8}
    if is_lawful and draw.random() < KEEPING:
        keep_premises(value)
    return value


def keep_premises(value: dict[str, Any]) -> None:
    """Changes random tables with lawful rows so that most keep the premises of safe breaks, which
    docs/TOOLS_FOR_DEVELOPERS.md lists: marks are transparent, a letter has the joining type of its first half, Hangul has
    none, and only counterparts that are alike and joiners that continue a grapheme are left."""
    types = {row[0]: row[1] for row in value.get("joining", []) if not is_hangul(row[0])}
    types |= {row[0]: "T" for row in [*value["classes"], *([row[2]] for row in value["splits"] if row[2])]}

    def type_of(character: int) -> str:
        return types.get(character, "T" if unicodedata.category(chr(character)) in ("Mn", "Me", "Cf") else "U")

    for character, first, _ in value["splits"]:
        types[character] = types[first] = type_of(first)

    def is_alike(row: Row) -> bool:
        return type_of(row[0]) == type_of(row[1]) and continues(row[0]) == continues(row[1])

    for key in filter(value.__contains__, ("mirrored", "vertical")):
        value[key] = list(filter(is_alike, value[key]))
        types |= {character: type_of(character) for row in value[key] for character in row}
    value["joining"] = [list(row) for row in sorted(types.items())]
    if "universal" in value:
        value["universal"] = [row for row in value["universal"] if row[1] != "CGJ" or continues(row[0])]


def is_hangul(character: int) -> bool:
    return 0x1100 <= character < 0x1200 or 0xAC00 <= character < 0xD7A4


def continues(character: int) -> bool:
    """Whether a character continues a grapheme, as a mark or ZERO WIDTH JOINER."""
    return is_mark(character) or character == 0x200D


def is_mark(character: int) -> bool:
    return unicodedata.category(chr(character)).startswith("M")


def lawful_rows(draw: Random, alphabet: Alphabet) -> dict[str, list[Row]]:
    """Splits of letters into a lower letter and a mark, their pairs, and classes of marks: these are lawful."""
    marks = [u for u in alphabet.characters if is_mark(u)]
    letters = [u for u in alphabet.characters if not is_mark(u) and not 0xAC00 <= u < 0xD7A4]
    splits = [
        [u, draw.choice(letters[:at]), draw.choice([0, *marks])]
        for at, u in enumerate(letters)
        if at and draw.random() < 0.3
    ]
    by_pair = {(a, b): u for u, a, b in splits if b and draw.random() < 0.8}
    return {
        "splits": splits,
        "pairs": [[a, b, u] for (a, b), u in sorted(by_pair.items())],
        "classes": [[u, draw.choice(CLASSES)] for u in marks if draw.random() < 0.8],
    }


def any_rows(draw: Random, alphabet: Alphabet) -> dict[str, list[Row]]:
    """Splits, pairs and classes of any characters: mostly they break a law."""
    characters = alphabet.characters
    splits = [[u, draw.choice(characters), draw.choice([0, *characters])] for u in characters if draw.random() < 0.1]
    by_pair = {(draw.choice(characters), draw.choice(characters)): draw.choice(characters) for _ in range(2)}
    return {
        "splits": splits,
        "pairs": [[a, b, u] for (a, b), u in sorted(by_pair.items())],
        "classes": [[u, draw.choice(CLASSES)] for u in characters if draw.random() < 0.1],
    }


def random_machines(draw: Random, alphabet: Alphabet) -> dict[str, Any]:
    """Machines of a few states with random steps; some accept nothing, some shapers have none."""
    shapers = [shaper for shaper in KINDS if draw.random() < (0.8 if shaper in alphabet.shapers() else 0.1)]
    return {shaper: random_machine(draw, shaper) for shaper in shapers}


def random_machine(draw: Random, shaper: str) -> dict[str, Any]:
    states = draw.choice([1, 2, 3, 8])
    part = draw.choice([0.1, 0.5, 1.0])
    steps = [
        [state, category, draw.randrange(states)]
        for state in range(states)
        for category in CATEGORIES[shaper]
        if draw.random() < part
    ]
    ends = [[state, draw.choice(KINDS[shaper])] for state in range(states) if draw.random() < 0.6]
    return {"states": states, "next": steps, "accept": ends}
