"""The library's default tables: the module is what the tool makes, and its bytes are the rows of data/tables.json."""

import json
import re
import unittest
from typing import Any, Iterator

from support import TOOLS, run

from unicodejson.binary import binary_tables, runs_of
from unicodejson.cli import MAKERS
from unicodejson.lists import (
    CATEGORIES,
    INDIC_CATEGORIES,
    INDIC_POSITIONS,
    JOINING_TYPES,
    KINDS,
    THAI_ACTIONS,
    UNIVERSAL_CATEGORIES,
)

ROOT = TOOLS.parent
MODULE = ROOT / "crates" / "shell_default_tables" / "src" / "bytes.rt"
BYTE = re.compile(r"\\x([0-9a-f]{2})")
HEADER = 160


class Reader:
    """Rows of tables in binary form, as specs/Sections.antt and specs/Records.antt of the crate have them."""

    def __init__(self, data: bytes) -> None:
        self.data = data

    def number(self, at: int, width: int) -> int:
        return int.from_bytes(self.data[at : at + width], "big")

    def places(self, section: int, width: int) -> range:
        """Where the records of a section are."""
        start, count = self.number(8 * section, 4), self.number(8 * section + 4, 4)
        end = start + width * count
        assert HEADER <= start and end <= len(self.data), section
        return range(start, end, width)

    def characters(self, section: int, many: int) -> list[list[int]]:
        return [[self.number(at + 3 * i, 3) for i in range(many)] for at in self.places(section, 3 * many)]

    def runs(self, section: int) -> Iterator[tuple[int, int]]:
        for at in self.places(section, 6):
            first = self.data[at] * 65536 + self.number(at + 1, 2)
            for index in range(self.number(at + 3, 2)):
                yield first + index, self.data[at + 5]

    def named(self, section: int, names: list[str]) -> list[list[Any]]:
        return [[character, names[number]] for character, number in self.runs(section)]

    def language(self, at: int) -> list[Any]:
        text = self.data[at + 1 : at + 1 + self.data[at]].decode()
        tags = [self.data[at + 14 + 4 * i : at + 18 + 4 * i].decode("ascii") for i in range(self.data[at + 13])]
        return [text, tags]

    def machine(self, index: int, shaper: str) -> dict[str, Any]:
        steps, accepts = self.places(11 + 2 * index, 3), self.places(12 + 2 * index, 2)
        categories, kinds = CATEGORIES[shaper], KINDS[shaper]
        return {
            "states": self.number(152 + 2 * index, 2),
            "next": [[self.data[at], categories[self.data[at + 1]], self.data[at + 2]] for at in steps],
            "accept": [[self.data[at], kinds[self.data[at + 1]]] for at in accepts],
        }

    def tables(self) -> dict[str, Any]:
        data = self.data
        indic = [
            [self.number(at, 3), INDIC_CATEGORIES[data[at + 3]], INDIC_POSITIONS[data[at + 4]]]
            for at in self.places(7, 5)
        ]
        thai = [
            [self.number(at, 3), THAI_ACTIONS[data[at + 3]], self.number(at + 4, 3), self.number(at + 7, 3)]
            for at in self.places(9, 10)
        ]
        return {
            "splits": self.characters(0, 3),
            "pairs": self.characters(1, 3),
            "classes": [list(row) for row in self.runs(2)],
            "mirrored": self.characters(3, 2),
            "vertical": self.characters(4, 2),
            "pictographic": self.characters(5, 2),
            "joining": self.named(6, JOINING_TYPES),
            "indic": indic,
            "universal": self.named(8, UNIVERSAL_CATEGORIES),
            "thai": thai,
            "languages": [self.language(at) for at in self.places(10, 26)],
            "syllables": {shaper: self.machine(index, shaper) for index, shaper in enumerate(KINDS)},
        }


def bytes_of_module() -> bytes:
    return bytes(int(digits, 16) for digits in BYTE.findall(MODULE.read_text(encoding="utf-8")))


class DefaultTables(unittest.TestCase):
    def test_made_anew(self) -> None:
        checked = run("default_tables", "--check")
        self.assertEqual(checked.returncode, 0, checked.stdout + checked.stderr)

    def test_rows(self) -> None:
        """Row by row the tables of data/tables.json."""
        wanted = json.loads((ROOT / "data" / "tables.json").read_text(encoding="utf-8"))
        found = Reader(bytes_of_module()).tables()
        self.assertEqual(list(found), [key for key in wanted if key in MAKERS])
        for key, rows in found.items():
            self.assertTrue(rows == wanted[key], key)


class Runs(unittest.TestCase):
    def test_ends(self) -> None:
        """A run ends before a gap, another number, another plane, and after 65,535 characters."""
        cases = [
            ([], []),
            ([(5, 1), (6, 1), (8, 1)], [(5, 2, 1), (8, 1, 1)]),
            ([(5, 1), (6, 2)], [(5, 1, 1), (6, 1, 2)]),
            ([(0xFFFF, 1), (0x10000, 1)], [(0xFFFF, 1, 1), (0x10000, 1, 1)]),
            ([(0, 3), (1, 0), (2, 0)], [(0, 1, 3), (1, 2, 0)]),
            ([(at, 1) for at in range(0x10000)], [(0, 0xFFFF, 1), (0xFFFF, 1, 1)]),
        ]
        for rows, expected in cases:
            self.assertEqual(list(runs_of(rows)), expected)

    def test_too_large(self) -> None:
        """A language or a machine that has no room is refused."""
        tables = json.loads((ROOT / "data" / "tables.json").read_text(encoding="utf-8"))
        tables["languages"].append(["zzz-zzzzzzzzz", ["ZZZ "]])
        with self.assertRaises(ValueError):
            binary_tables(tables)
        tables["languages"].pop()
        tables["syllables"]["khmer"]["next"].append([256, "C", 0])
        with self.assertRaises(ValueError):
            binary_tables(tables)


if __name__ == "__main__":
    unittest.main()
