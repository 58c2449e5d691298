"""Tables of Unicode: valid by the format's rules, lawful, and with rows that the standard and HarfBuzz name."""

import copy
import unicodedata
import unittest
from pathlib import Path

from support import json_of, needs_unicode

from formats.rules import tables_faults
from unicodejson.cli import CRATE_VERSION, DEBIAN
from unicodejson.lawful import Tables, law_fault
from unicodejson.ucd import Ucd, version_of


# UAX 15, ArabicShaping.txt, BidiMirroring.txt, and HarfBuzz's classes, categories and vertical forms.
KNOWN_ROWS = [
    ("splits", [0xE1, 0x61, 0x301]),
    ("splits", [0x2126, 0x3A9, 0]),
    ("pairs", [0x61, 0x301, 0xE1]),
    ("pairs", [0x1B05, 0x1B35, 0x1B06]),
    ("classes", [0x301, 230]),
    ("classes", [0x5B0, 22]),
    ("classes", [0x5BC, 12]),
    ("classes", [0x651, 27]),
    ("classes", [0x64E, 31]),
    ("classes", [0xE38, 3]),
    ("classes", [0xF74, 131]),
    ("classes", [0x1A60, 254]),
    ("classes", [0xF39, 127]),
    ("mirrored", [0x28, 0x29]),
    ("vertical", [0x2026, 0xFE19]),
    ("vertical", [0xFF08, 0xFE35]),
    ("vertical", [0xFE4F, 0xFE34]),
    ("pictographic", [0xA9, 0xA9]),
    ("joining", [0x628, "D"]),
    ("joining", [0x640, "D"]),
    ("joining", [0x710, "ALAPH"]),
    ("joining", [0x715, "DALATH_RISH"]),
    ("indic", [0x915, "C", "BASE_C"]),
    ("indic", [0x930, "Ra", "BASE_C"]),
    ("indic", [0x93F, "M", "PRE_M"]),
    ("indic", [0x94D, "H", "BELOW_C"]),
    ("indic", [0xB01, "SM", "BEFORE_SUB"]),
    ("indic", [0x17C1, "VPre", "PRE_C"]),
    ("indic", [0x1031, "VPre", "PRE_C"]),
    ("indic", [0x1CE2, "A", "SMVD"]),
    ("indic", [0x1CF1, "Symbol", "SMVD"]),
    ("indic", [0xA8F7, "Symbol", "SMVD"]),
    ("universal", [0x1B13, "B"]),
    ("universal", [0x1B44, "H"]),
    ("universal", [0x1B3E, "VPre"]),
    ("universal", [0x1B03, "FAbv"]),
    ("universal", [0x11F02, "R"]),
    ("universal", [0x2D7F, "H"]),
    ("universal", [0x111DA, "B"]),
    ("universal", [0x13430, "J"]),
    ("universal", [0x13431, "J"]),
    ("thai", [0xE48, "SD", 0xF70A, 0xF88B]),
    ("languages", ["en", ["ENG "]]),
]

# Categories by which HarfBuzz puts its dotted circles, where the two files of the UCD alone would give another one.
CIRCLED = {
    "VMAbv": "07F2 07FD 193A 1CF8 1CF9 1E4EE",
    "CMAbv": (
        "0859 085A 085B 10AE6 10D27 10F46 10F47 10F48 10F49 10F4A 10F4B 10F4C 10F4D 10F4E 10F4F 10F50 "
        "10F82 10F83 10F84 10F85"
    ),
    "VBlw": "0F72 0F7A 0F7B 0F7C 0F7D 0F80 11127 11128 11129 1112D 11130",
    "VAbv": "0F74 18A9 1A18 1112A 1112B 11131 11132",
    "FMBlw": "0FC6",
    "GB": "1880 1881 1882 1883 1884",
    "MPst": "A9BE 11942",
    "MAbv": "AA35",
    "VPst": "10A0C",
    "VMBlw": "10A0D",
    "CMBlw": "10A38",
}


@needs_unicode
class TheTables(unittest.TestCase):
    @classmethod
    def setUpClass(cls) -> None:
        cls.tables = json_of("unicode_to_json")
        cls.ucd = Ucd(Path(DEBIAN), version_of(CRATE_VERSION))

    def test_format(self) -> None:
        self.assertEqual(list(tables_faults(self.tables)), [])

    def test_format_is_checked(self) -> None:
        """The checker sees what is wrong."""
        for key, row in (("pairs", [65, 768, 55296]), ("classes", [0x300, 256]), ("joining", [0x628, "X"])):
            damaged = {**self.tables, key: [*self.tables[key], row]}
            self.assertEqual(len(list(tables_faults(damaged))), 1, key)
        turned = {**self.tables, "splits": self.tables["splits"][::-1]}
        self.assertGreater(len(list(tables_faults(turned))), 0)

    def test_lawful(self) -> None:
        self.assertIsNone(law_fault(self.tables, self.ucd.category))

    def test_laws_are_checked(self) -> None:
        """Each law is seen to fail."""
        cases = {
            "SplitDepth": ("splits", [0x41, 0x41, 0x300]),
            "SecondPartSplits": ("splits", [0x2FFF0, 0x61, 0xE1]),
            "PairNotEquivalent": ("pairs", [0x61, 0x301, 0xE0]),
            "ClassOnNonMark": ("classes", [0x61, 230]),
            "SplitLosesClass": ("splits", [0x315, 0x300, 0x301]),
        }
        for name, (key, row) in cases.items():
            tables = copy.deepcopy(self.tables)
            tables[key].append(row)
            self.assertTrue(str(law_fault(tables, self.ucd.category)).startswith(name), name)
        self.assertTrue(str(law_fault(self.tables, lambda u: "Mn")).startswith("AsciiMark"))

    def test_known_rows(self) -> None:
        for key, row in KNOWN_ROWS:
            with self.subTest(key=key, row=row):
                self.assertIn(row, self.tables[key])

    def test_circled(self) -> None:
        universal = dict(self.tables["universal"])
        for category, characters in CIRCLED.items():
            for code in characters.split():
                self.assertEqual(universal.get(int(code, 16), "O"), category, code)

    def test_excluded(self) -> None:
        """No pair composes to a character that composition leaves out; Telugu's length marks have no class."""
        composed = {whole for _, _, whole in self.tables["pairs"]}
        self.assertFalse(composed & {0x958, 0xFB1D, 0x344, 0x2ADC})
        self.assertFalse({0xC55, 0xC56} & {u for u, _ in self.tables["classes"]})

    def test_all_of_normalization(self) -> None:
        """Full expansions are the canonical decompositions of Python's own Unicode, where that knows a character."""
        tables = Tables(self.tables)
        for number in range(0x110000):
            if unicodedata.category(chr(number)) not in ("Cn", "Cs"):
                decomposed = [ord(c) for c in unicodedata.normalize("NFD", chr(number))]
                self.assertEqual(sorted(tables.expansion(number)), sorted(decomposed), hex(number))

    def test_version(self) -> None:
        """The name of the format, then what the tables were made of, stand before the rows."""
        self.assertEqual(list(self.tables)[:3], ["format", "unicode", "splits"])
        self.assertEqual(self.tables["format"], "kuspveli-tables")
        about = self.tables["unicode"]
        self.assertEqual(about["crate"], CRATE_VERSION)
        self.assertIn(about["version"], about["lost"][0])


if __name__ == "__main__":
    unittest.main()
