"""A font that is written for the test: every kind of subtable and key, with rows that are worked out by hand."""

import subprocess
import tempfile
import unittest
from pathlib import Path
from typing import Any

from support import json_of, needs_kuspveli, run, told_lines

from building.places import KUSPVELI, standing
from fontTools.feaLib.builder import addOpenTypeFeaturesFromString
from fontTools.fontBuilder import FontBuilder
from fontTools.pens.ttGlyphPen import TTGlyphPen
from fontTools.ttLib import TTFont
from fontTools.ttLib.tables._c_m_a_p import CmapSubtable
from fontTools.ttLib.tables.DefaultTable import DefaultTable
from formats.rules import font_faults

# Glyphs from 0 on.
GLYPHS = [".notdef", "a", "b", "c", "f", "i", "f_i", "acute", "grave", "a.alt", "x"]
A, B, C, F, I, F_I, ACUTE, GRAVE, A_ALT, X = range(1, 11)

FEATURES = """
languagesystem DFLT dflt;
languagesystem latn dflt;
languagesystem latn DEU;
@marks = [acute grave];
markClass acute <anchor 50 100> @top;
markClass grave <anchor 60 -10> @bottom;

lookup single useExtension { sub a by a.alt; } single;
lookup multiple { sub b by b c; } multiple;
lookup alternate { sub a from [b c]; } alternate;
lookup ligature { lookupflag IgnoreMarks; sub f i by f_i; sub f f i by x; sub f f by c; } ligature;
lookup chain { sub c' lookup single a b; sub [a b] c' lookup alternate x'; } chain;
lookup reverse { rsub a b c' x by a.alt; } reverse;
lookup filtered { lookupflag UseMarkFilteringSet @marks; sub c by a; } filtered;
feature ccmp { lookup multiple; lookup filtered; } ccmp;
feature liga { lookup ligature; } liga;
feature calt { lookup chain; lookup reverse; } calt;
feature salt { lookup single; lookup alternate; } salt;

lookup moved {
    pos a <1 2 3 4>; pos b 5;
    pos c <0 0 6 0 <device NULL> <device NULL> <device 11 -1> <device NULL>>;
} moved;
lookup pairs { pos a b -50; pos a <1 0 -20 0> c <0 0 7 0>; enum pos [b c] x 9; } pairs;
lookup classes { pos [a b] [c x] -30; pos [f i] [c x] 12; } classes;
lookup joined { pos cursive a <anchor 0 10> <anchor 500 20>; pos cursive b <anchor NULL> <anchor 400 0>; } joined;
lookup bases { pos base a <anchor 250 500> mark @top <anchor 250 0> mark @bottom; } bases;
lookup ligatures {
    pos ligature f_i <anchor 100 600> mark @top ligComponent <anchor 300 610> mark @top <anchor 300 -5> mark @bottom;
} ligatures;
lookup marks { pos mark acute <anchor 55 200> mark @top; } marks;
lookup near { pos a' lookup moved b; } near;
feature kern { lookup pairs; lookup classes; lookup moved; lookup near; } kern;
feature curs { lookup joined; } curs;
feature mark { lookup bases; lookup ligatures; } mark;
feature mkmk { lookup marks; } mkmk;
"""


def write_font(path: Path) -> None:
    font = FontBuilder(1000, isTTF=True)
    font.setupGlyphOrder(GLYPHS)
    cmap = {ord("a"): "a", ord("b"): "b", ord("c"): "c", ord("f"): "f", ord("i"): "i", 0x301: "acute", 0x1F600: "x"}
    font.setupCharacterMap(cmap, uvs=[(ord("a"), 0xFE00, "a.alt"), (ord("b"), 0xFE01, None)])
    font.setupGlyf({name: outline(name) for name in GLYPHS})
    font.setupHorizontalMetrics({name: (0 if name in ("acute", "grave") else 500, 0) for name in GLYPHS})
    font.setupHorizontalHeader(ascent=800, descent=-200)
    font.setupVerticalMetrics({name: (900, 30) for name in GLYPHS})
    font.setupVerticalHeader()
    font.setupOS2(sTypoAscender=750, fsSelection=1 << 7, version=4)
    font.setupNameTable({"familyName": "Written"})
    font.setupPost()
    addOpenTypeFeaturesFromString(font.font, FEATURES)
    font.save(path)


def outline(name: str) -> Any:
    """A box from (10, -20) to (110, 480); the glyph x has none."""
    pen = TTGlyphPen(None)
    if name != "x":
        pen.moveTo((10, -20))
        for point in ((10, 480), (110, 480), (110, -20)):
            pen.lineTo(point)
        pen.closePath()
    return pen.glyph()


def subtable(platform: int, encoding: int, cmap: dict[int, str]) -> CmapSubtable:
    table = CmapSubtable.newSubtable(4 if platform == 3 else 0)
    table.platformID, table.platEncID, table.language, table.cmap = platform, encoding, 0, cmap
    return table


@needs_kuspveli
class WrittenFont(unittest.TestCase):
    @classmethod
    def setUpClass(cls) -> None:
        folder = tempfile.TemporaryDirectory()
        cls.addClassCleanup(folder.cleanup)
        cls.path = str(Path(folder.name) / "written.ttf")
        write_font(Path(cls.path))
        cls.font = json_of("font_to_json", cls.path)

    def test_format(self) -> None:
        self.assertEqual(list(font_faults(self.font)), [])

    def test_metrics(self) -> None:
        boxed = [glyph for glyph in range(len(GLYPHS)) if glyph != X]
        expected = {
            "upem": 1000,
            "ascender": 750,
            "cmap": [[97, A], [98, B], [99, C], [102, F], [105, I], [0x301, ACUTE], [0x1F600, X]],
            "variants": [[97, 0xFE00, A_ALT], [98, 0xFE01, B]],
            "h": [[glyph, 0 if glyph in (ACUTE, GRAVE) else 500] for glyph in range(len(GLYPHS))],
            "v": [[glyph, 900] for glyph in range(len(GLYPHS))],
            # The last glyph has no outline: its box is empty, and its origin stands at its bearing.
            "origins": [*([glyph, 510] for glyph in boxed), [X, 30]],
            # The outlines begin at 10, and are drawn at the bearing in hmtx.
            "extents": [*([glyph, 0, 480, 100, -500] for glyph in boxed), [X, 0, 0, 0, 0]],
            "names": [[glyph, name] for glyph, name in enumerate(GLYPHS)],
        }
        for key, value in expected.items():
            self.assertEqual(self.font[key], value, key)

    def test_gdef(self) -> None:
        self.assertEqual(dict(self.font["gdef"]["classes"])[ACUTE], 3)
        self.assertEqual(dict(self.font["gdef"]["classes"])[F_I], 2)
        self.assertEqual(self.font["gdef"]["sets"], [[ACUTE, GRAVE]])

    def by_type(self, table: str) -> dict[str, list[dict[str, Any]]]:
        found: dict[str, list[dict[str, Any]]] = {}
        for lookup in self.font[table]["lookups"]:
            found.setdefault(lookup["type"], []).append(lookup)
        return found

    def test_substitutions(self) -> None:
        lookups = self.by_type("gsub")
        self.assertEqual(lookups["single"][0], {"type": "single", "flags": 0, "subtables": [[[A, A_ALT]]]})
        self.assertEqual(lookups["single"][1], {"flags": 16, "set": 0, "type": "single", "subtables": [[[C, A]]]})
        self.assertEqual(lookups["multiple"][0]["subtables"], [[[B, [B, C]]]])
        self.assertEqual(lookups["alternate"][0]["subtables"], [[[A, [B, C]]]])
        self.assertEqual(lookups["ligature"][0]["flags"], 8)
        self.assertEqual(lookups["ligature"][0]["subtables"], [[[F, [[[F, I], X], [[F], C], [[I], F_I]]]]])
        self.assertEqual(lookups["reverse"][0]["subtables"], [[[[B], [A]], [[X]], [[C, A_ALT]]]])

    def test_chain(self) -> None:
        """The rule with something before it comes second in the feature file; nearest glyphs come first in `back`."""
        rules = [rule for s in self.by_type("gsub")["chain"][0]["subtables"] for rule in s["rules"]]
        self.assertEqual(rules[0], [[], [[C]], [[A], [B]], [[0, 0]]])
        self.assertEqual(rules[1], [[[A, B]], [[C], [X]], [], [[0, 2]]])

    def test_positions(self) -> None:
        lookups = self.by_type("gpos")
        moved = sorted(row for subtable in lookups["single"][0]["subtables"] for row in subtable)
        self.assertEqual(moved, [[A, [1, 2, 3, 4]], [B, [0, 0, 5, 0]], [C, [0, 0, 6, 0]]])
        self.assertEqual(lookups["cursive"][0]["subtables"], [[[A, [0, 10], [500, 20]], [B, None, [400, 0]]]])
        bases = lookups["markbase"][0]["subtables"][0]
        self.assertEqual(bases["marks"], [[ACUTE, 0, [50, 100]], [GRAVE, 1, [60, -10]]])
        self.assertEqual(bases["bases"], [[A, [[250, 500], [250, 0]]]])
        ligatures = lookups["marklig"][0]["subtables"][0]
        self.assertEqual(ligatures["bases"], [[F_I, [[[100, 600], None], [[300, 610], [300, -5]]]]])
        marks = lookups["markmark"][0]["subtables"][0]
        self.assertEqual(marks, {"marks": [[ACUTE, 0, [50, 100]]], "bases": [[ACUTE, [[55, 200]]]]})

    def test_pairs(self) -> None:
        """Single pairs with one record or two, and classes."""
        rows, classes = (lookup["subtables"] for lookup in self.by_type("gpos")["pair"])
        given = {(row[0], row[1]): row[2:] for subtable in rows for row in subtable}
        self.assertEqual(given[A, B][0], [0, 0, -50, 0])
        self.assertEqual(given[A, C], [[1, 0, -20, 0], [0, 0, 7, 0]])
        self.assertEqual(given[B, X], [[0, 0, 9, 0], None])
        table = classes[0]
        class1, class2 = dict(table["class1"]), dict(table["class2"])
        self.assertEqual(table["first"], [A, B, F, I])
        self.assertEqual(table["records"][class1.get(A, 0)][class2[X]], [[0, 0, -30, 0], None])
        self.assertEqual(table["records"][class1.get(I, 0)][class2[C]], [[0, 0, 12, 0], None])

    def test_scripts(self) -> None:
        tags = [tag for tag, _ in self.font["gsub"]["features"]]
        scripts = self.font["gsub"]["scripts"]
        self.assertEqual([row[0] for row in scripts], ["DFLT", "latn"])
        self.assertEqual([row[0] for row in scripts[1][2]], ["DEU "])
        asked = [tags[index] for index in scripts[0][1]["features"]]
        self.assertEqual(sorted(asked), ["calt", "ccmp", "liga", "salt"])

    def test_part(self) -> None:
        """A part of the keys, features and lookups, with indices anew."""
        font = json_of("font_to_json", "--only", "gsub,upem", "--features", "calt,liga", self.path)
        self.assertEqual(list(font), ["format", "upem", "gsub"])
        self.assertEqual(list(font_faults(font)), [])
        kept = [lookup["type"] for lookup in font["gsub"]["lookups"]]
        self.assertEqual(sorted(kept), ["alternate", "chain", "ligature", "reverse", "single"])
        plain = json_of("font_to_json", "--only", "gsub", "--plain-lookups", "multiple", self.path)
        self.assertEqual([lookup["type"] for lookup in plain["gsub"]["lookups"]], ["multiple"])

    def test_other_characters(self) -> None:
        """A symbol font's private characters stand for those below U+0100; a font of Mac Roman alone is read by it."""
        for platform, encoding, cmap, expected in (
            (3, 0, {0xF061: "a", 0x62: "b", 0xF062: "c"}, [[0x61, A], [0x62, B], [0xF061, A], [0xF062, C]]),
            (1, 0, {0x61: "a", 0x80: "b"}, [[0x61, A], [0xC4, B]]),
        ):
            with tempfile.TemporaryDirectory() as folder:
                path = str(Path(folder) / "other.ttf")
                font = TTFont(self.path)
                font["cmap"].tables = [subtable(platform, encoding, cmap)]
                font.save(path)
                self.assertEqual(json_of("font_to_json", "--only", "cmap", path)["cmap"], expected)

    def test_left_out(self) -> None:
        """Tables that the format has no word for are named, first those that change glyphs or positions."""
        with tempfile.NamedTemporaryFile(suffix=".ttf") as file:
            font = TTFont(self.path)
            for tag in ("MATH", "morx"):
                font[tag] = DefaultTable(tag)
                font[tag].data = bytes(4)
            font.save(file.name)
            lines = (
                "left out, and it changes glyphs or positions: table morx (1)",
                "what is left out below changes neither glyphs nor positions",
                "left out: table MATH (1)",
            )
            told = "".join(f"font_to_json: {file.name}: {line}\n" for line in lines)
            self.assertEqual(told_lines(run("font_to_json", file.name).stderr), told)
            self.assertEqual(told_lines(run("font_to_json", "--quiet", file.name).stderr), "")

    def test_printed(self) -> None:
        """It prints what the program does, also of a packed file, in which each table is as it was."""
        place = standing(KUSPVELI)
        printed = subprocess.run([place.file, self.path, "--json"], capture_output=True, check=True).stdout
        for flavor in (None, "woff", "woff2"):
            with tempfile.NamedTemporaryFile() as file:
                font = TTFont(self.path)
                font.flavor = flavor
                font.save(file.name)
                self.assertEqual(run("font_to_json", file.name).stdout, printed, flavor)


if __name__ == "__main__":
    unittest.main()
