"""Runs whose answers are known, with their files."""

import json
from dataclasses import dataclass
from typing import Any

Value = dict[str, Any]
NUMBERS = "--no-glyph-names"


@dataclass(frozen=True)
class Row:
    """A run: the files in the order of the command line, options, the lines that are printed, else a fault and a status."""

    name: str
    tables: bytes
    font: bytes
    text: bytes
    line: bytes
    options: tuple[str, ...] = (NUMBERS,)
    fault: bytes = b""
    status: int = 0

    def files(self) -> tuple[bytes, bytes, bytes]:
        return self.tables, self.font, self.text


def as_json(value: Value) -> bytes:
    return json.dumps(value, separators=(",", ":")).encode()


def table(feature: str, *lookups: Value, script: str = "DFLT", used: tuple[int, ...] = (0,)) -> Value:
    features = [[feature, list(used)]]
    return {"scripts": [[script, {"features": [0]}, []]], "features": features, "lookups": list(lookups)}


def lookup(kind: str, subtable: Any) -> Value:
    return {"type": kind, "subtables": [subtable]}


LETTERS = [[97, 1], [98, 2], [102, 3], [105, 4]]
WIDTHS = [[1, 500], [2, 600], [3, 300], [4, 250], [7, 520]]
A = {"upem": 1000, "ascender": 800, "cmap": LETTERS, "h": WIDTHS}
LIGATURE = {**A, "gsub": table("liga", lookup("ligature", [[3, [[[4], 7]]]]))}
TABLES = {
    "splits": [[0xE1, 0x61, 0x301]],
    "pairs": [[0x61, 0x301, 0xE1]],
    "classes": [[0x301, 230], [0x323, 220]],
    "mirrored": [[0x28, 0x29]],
    "joining": [[0x628, "D"]],
    "languages": [["en", ["ENG "]]],
}
BALINESE = {
    "splits": [[0x1B06, 0x1B05, 0x1B35]],
    "pairs": [[0x1B05, 0x1B35, 0x1B06]],
    "universal": [[0x1B05, "B"], [0x1B35, "VPst"], [0x1B36, "VAbv"]],
    "syllables": {
        "universal": {
            "states": 2,
            "next": [[0, "B", 1], [1, "VAbv", 1], [1, "VPst", 1]],
            "accept": [[1, "standard"]],
        }
    },
}
ACUTE = {"upem": 1000, "ascender": 800, "cmap": [[0x61, 1], [0x301, 9]], "h": [[1, 500], [9, 200]]}
MARKS = {"marks": [[9, 0, [100, 0]]], "bases": [[1, [[250, 480]]]]}
SELF = {"format": "glyphs", "rules": [[[], [1], [], [[0, 0], [0, 0]]]]}
ARABIC = {
    "upem": 1000,
    "cmap": [[0x628, 20]],
    "h": [[20, 400], [21, 400], [22, 400], [23, 400]],
    "gsub": {
        "scripts": [["arab", {"features": [0, 1, 2]}, []]],
        "features": [["fina", [2]], ["init", [0]], ["medi", [1]]],
        "lookups": [lookup("single", [[20, 20 + at]]) for at in (1, 2, 3)],
    },
}


def row() -> Row:
    """The row of the files that fail: f and i become a ligature."""
    options = (NUMBERS, "--slices")
    return Row("a ligature", as_json(TABLES), as_json(LIGATURE), b"afi", b"1=0+500|7=1+520\n0 1\n1 3\n", options)


def long_row() -> Row:
    """The same with white space, so that each of the two JSON files is read by several calls."""
    short = row()
    tables, font = short.tables + b" " * 9000, b" " * 9000 + short.font
    return Row(short.name, tables, font, short.text, short.line, short.options)


def made(name: str, tables: Value, font: Value, text: str, line: str, *options: str) -> Row:
    return Row(name, as_json(tables), as_json(font), text.encode(), f"{line}\n".encode(), (NUMBERS, *options))


def letter(number: int) -> Value:
    """A font with one letter."""
    return {"upem": 1000, "cmap": [[number, 1]], "h": [[1, 500]]}


def many(count: int) -> str:
    """The line of a text of letters a."""
    return "|".join(f"1={at}+500" for at in range(count))


def features(count: int) -> str:
    """An option that requests so many features that no font here has."""
    return "--features=" + ",".join(f"ss{number:02}" for number in range(1, count + 1))


def rows() -> list[Row]:
    """A run of each part that asks for memory."""
    bali = {"upem": 1000, "cmap": [[0x1B05, 1], [0x1B35, 2], [0x1B36, 3]], "h": [[1, 500], [2, 200], [3, 100]]}
    bali["gsub"] = {"scripts": [["bali", None, []]]}
    hangul = {"upem": 1000, "cmap": [[0xAC00, 19]], "h": [[19, 900]]}
    growth = table("ccmp", lookup("multiple", [[1, [2] * 200]]), lookup("multiple", [[2, [1] * 200]]), used=(0, 1))
    pair = table("kern", lookup("pair", [[1, 2, [0, 0, -50, 0], None]]))
    too_long = Row("growth", b"{}", as_json({**A, "gsub": growth}), b"a", b"", fault=b"hb_shape: S2 TooLong\n", status=5)
    return [
        row(),
        made("two letters, and a language", TABLES, A, "ab", "1=0+500|2=1+600", "--language=en", "--features=liga,-kern"),
        made("three hundred letters", {}, A, "a" * 300, many(300)),
        made("Arabic letters", TABLES, ARABIC, "\u0628" * 3, "23=4+400|22=2+400|21=0+400"),
        made("a syllable", BALINESE, bali, "\u1b06\u1b36", "1=0+500|2=0+200|3=0@-100,0+0"),
        made("a split", TABLES, ACUTE, "\u00e1", "1=0+500|9=0@-200,0+0"),
        made("a Hangul syllable", {}, hangul, "\u1100\u1161", "19=0+900"),
        # With so many features the list of requests grows where the shaper adds its own, or in those of the user.
        made("a Hangul syllable, three features", {}, hangul, "\u1100\u1161", "19=0+900", features(3)),
        made("a Hangul syllable, four features", {}, hangul, "\u1100\u1161", "19=0+900", features(4)),
        made("a Khmer letter, 26 features", {}, letter(0x1780), "\u1780", "1=0+500", features(26)),
        made("a Devanagari letter, 19 features", {}, letter(0x915), "\u0915", "1=0+500", features(19)),
        too_long,
        made("a context that calls itself", {}, {**A, "gsub": table("calt", lookup("context", SELF))}, "a", "1=0+500"),
        made("a mark", TABLES, {**ACUTE, "gpos": table("mark", lookup("markbase", MARKS))}, "a\u0301", MARK_LINE),
        made("a pair", {}, {**A, "gpos": pair}, "ab", "1=0+450|2=1+600"),
        made("two directions", TABLES, A, "ab", "2=1+600|1=0+500", "--direction=rtl"),
    ]


MARK_LINE = "1=0+500|9=0@-350,480+0"
