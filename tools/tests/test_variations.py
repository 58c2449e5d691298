"""Instances of a variable font that is written for the test: words, faults, rows, and lines beside hb-shape."""

import shutil
import subprocess
import tempfile
import unittest
from pathlib import Path
from typing import Any

from support import DEJAVU, json_of, needs_kuspveli, run, told_lines

from building.places import PROGRAM, standing
from common.faults import ToolFault
from fontTools.feaLib.builder import addOpenTypeFeaturesFromString
from fontTools.fontBuilder import FontBuilder
from fontTools.pens.ttGlyphPen import TTGlyphPen
from fontTools.misc.psCharStrings import T2CharString
from fontTools.ttLib import newTable
from fontTools.ttLib.tables import otTables as ot
from fontTools.ttLib.tables.TupleVariation import TupleVariation
from fontTools.varLib.builder import buildVarData, buildVarRegionList, buildVarStore
from fontTools.varLib.featureVars import addFeatureVariations
from fontjson.variations import read_variations
from shaping import cli, converting

GLYPHS = [".notdef", "a", "b", "heavy", "usual"]
# The pair's distance is -10 at 100, -50 at 400 and -110 at 900.
FEATURES = "feature kern { pos a b (wght=100:-10 wght=400:-50 wght=900:-110); pos heavy b -7; } kern;"
# From 700 to 900 heavy stands for a, and from 300 to 500 usual for b: of the axis from -1 over 0 at 400 to 1.
SUBSTITUTIONS = [([{"wght": (0.6, 1)}], {"a": "heavy"}), ([{"wght": (-1 / 3, 0.2)}], {"b": "usual"})]


def write_font(path: Path) -> str:
    """At 400 an advance of 500; 80 more at 900, 30 less at 100, on straight lines between these."""
    font = FontBuilder(1000, isTTF=True)
    font.setupGlyphOrder(GLYPHS)
    font.setupCharacterMap({ord("a"): "a", ord("b"): "b"})
    font.setupGlyf({name: box() for name in GLYPHS})
    font.setupHorizontalMetrics({name: (500, 10) for name in GLYPHS})
    font.setupHorizontalHeader(ascent=800, descent=-200)
    font.setupOS2()
    names = [("Thin", 100), ("Extra Bold", 800)]
    instances = [{"location": {"wght": value}, "stylename": name} for name, value in names]
    font.setupNameTable({"familyName": "Varied"})
    font.setupFvar([("wght", 100, 400, 900, "Weight")], instances)
    # Four points of the outline, then the phantom points, of which the second one is the advance.
    heavier = [(0, 0), (0, 0), (60, 0), (60, 0), (0, 0), (80, 0), (0, 0), (0, 0)]
    lighter = [(0, 0), (0, 0), (-20, 0), (-20, 0), (0, 0), (-30, 0), (0, 0), (0, 0)]
    varied = [TupleVariation({"wght": (0, 1, 1)}, heavier), TupleVariation({"wght": (-1, -1, 0)}, lighter)]
    font.setupGvar({name: varied for name in GLYPHS})
    font.setupPost()
    addOpenTypeFeaturesFromString(font.font, FEATURES)
    addFeatureVariations(font.font, SUBSTITUTIONS)
    font.save(path)
    return str(path)


def box() -> Any:
    pen = TTGlyphPen(None)
    pen.moveTo((10, 0))
    for point in ((10, 500), (110, 500), (110, 0)):
        pen.lineTo(point)
    pen.closePath()
    return pen.glyph()


def write_cff_font(path: Path) -> str:
    """The same axis and advances, with outlines of CFF2: a box that is 60 wider at 900."""
    font = FontBuilder(1000, isTTF=False)
    font.setupGlyphOrder([".notdef", "a"])
    font.setupCharacterMap({ord("a"): "a"})
    font.setupNameTable({"familyName": "Varied", "styleName": "Regular"})
    font.setupFvar([("wght", 100, 400, 900, "Weight")], [])
    right, left = ([sign * 100, sign * 60, 1, "blend", "hlineto"] for sign in (1, -1))
    outlines = {".notdef": [0, 0, "rmoveto"], "a": [10, 0, "rmoveto", *right, 500, "vlineto", *left]}
    heavier = [{"wght": (0, 1, 1)}]
    font.setupCFF2({name: T2CharString(program=program) for name, program in outlines.items()}, regions=heavier)
    font.setupHorizontalMetrics({name: (500, 10) for name in outlines})
    font.setupHorizontalHeader(ascent=800, descent=-200)
    font.setupOS2()
    font.setupPost()
    advances = ot.HVAR()
    data = buildVarData([0], [[0], [80]], optimize=False)
    advances.Version, advances.VarStore = 0x10000, buildVarStore(buildVarRegionList(heavier, ["wght"]), [data])
    advances.AdvWidthMap = advances.LsbMap = advances.RsbMap = None
    font.font["HVAR"] = newTable("HVAR")
    font.font["HVAR"].table = advances
    font.save(path)
    return str(path)


@needs_kuspveli
class Instances(unittest.TestCase):
    @classmethod
    def setUpClass(cls) -> None:
        folder = tempfile.TemporaryDirectory()
        cls.addClassCleanup(folder.cleanup)
        cls.folder = Path(folder.name)
        cls.path = write_font(cls.folder / "varied.ttf")

    def test_words(self) -> None:
        cases = {
            "wght=700,wdth=80": (("wght", 700), ("wdth", 80)),
            " 'slnt' -7.5 , \"opsz\"=.5": (("slnt", -7.5), ("opsz", 0.5)),
            "wght=1,wght=2": (("wght", 2),),
            "abc=3": (("abc ", 3),),
        }
        for text, expected in cases.items():
            self.assertEqual(read_variations(text), expected)
        for text in ("", "wght", "wght700", "toolong=1", "wght=x", "wght=1e3", "wght=1;wdth=2"):
            self.assertRaises(ValueError, read_variations, text)

    def test_rows(self) -> None:
        """Advances, boxes, distances and features of instances, and of the default one."""
        cases = {
            "400": (500, 100, -50, "usual"),
            "650": (540, 130, -80, None),
            "100": (470, 80, -10, None),
            "900": (580, 160, -110, "heavy"),
        }
        for weight, (advance, width, distance, substitute) in cases.items():
            words = [f"--variations=wght={weight}"] if weight != "400" else []
            font = json_of("font_to_json", *words, self.path)
            self.assertEqual(dict(font["h"])[1], advance)
            self.assertEqual(next(row for row in font["extents"] if row[0] == 1)[3], width)
            [lookup] = font["gpos"]["lookups"]
            pairs = {(first, second): one for subtable in lookup["subtables"] for first, second, one, _ in subtable}
            self.assertEqual(pairs[1, 2], [0, 0, distance, 0])
            reached = [index for _, lookups in font["gsub"]["features"] for index in lookups]
            rows = [row for index in reached for row in font["gsub"]["lookups"][index]["subtables"][0]]
            self.assertEqual([new for _, new in rows], [GLYPHS.index(substitute)] if substitute else [], weight)

    def test_cff(self) -> None:
        path = write_cff_font(self.folder / "varied.otf")
        for words, advance, width in (([], 500, 100), (["--variations=wght=650"], 540, 130)):
            font = json_of("font_to_json", *words, path)
            self.assertEqual((dict(font["h"])[1], font["extents"][1]), (advance, [1, 10, 500, width, -500]))

    def test_instances(self) -> None:
        """By name or number; coordinates beside it change it."""
        for words, advance in (
            (["--named-instance=thin"], 470),
            (["--named-instance=1"], 564),
            (["--named-instance=Extra Bold", "--variations=wght=900"], 580),
        ):
            self.assertEqual(dict(json_of("font_to_json", *words, self.path)["h"])[1], advance, words)

    def test_outside(self) -> None:
        """A value outside the axis is clamped and told."""
        ran = run("font_to_json", "--only", "h", "--variations=wght=901", self.path)
        self.assertEqual(ran.returncode, 0)
        line = f"font_to_json: {self.path}: wght=901 is outside wght from 100 to 900: 900 is taken\n"
        self.assertEqual(told_lines(ran.stderr), line)

    def test_faults(self) -> None:
        cases = [
            (["--variations=wdth=80", self.path], "no axis 'wdth': the axes are wght from 100 to 900"),
            (["--variations=wght", self.path], "--variations: no variation: 'wght'"),
            (["--named-instance=Black", self.path], "no instance 'Black': the instances are 0 Thin, 1 Extra Bold"),
            (["--named-instance=2", self.path], "no instance '2'"),
            (["--variations=wght=700", DEJAVU], "no instances: the font has no variations"),
        ]
        for words, says in cases:
            for tool, more in (("font_to_json", []), ("shape", ["a"])):
                ran = run(tool, *words, *more)
                self.assertEqual((ran.returncode, ran.stdout, ran.stderr.count(b"\n")), (2, b"", 1), words)
                self.assertIn(says, ran.stderr.decode())
        with tempfile.NamedTemporaryFile(suffix=".json") as file:
            self.assertRaisesRegex(ToolFault, "no variations", cli.main, [file.name, "a", "--variations=wght=1"])

    def test_kept(self) -> None:
        """An instance is kept under its coordinates, however it is named."""
        place = {"wght": 800.0}
        first = converting.font_value(self.folder, Path(self.path), 0, True, place)
        self.assertTrue(first.name.endswith("-varied.ttf.0.wght=800.json"))
        made = first.stat().st_ino
        self.assertEqual(converting.font_value(self.folder, Path(self.path), 0, True, place).stat().st_ino, made)
        self.assertNotEqual(converting.font_value(self.folder, Path(self.path), 0), first)

    @unittest.skipUnless(standing(PROGRAM).is_current(), "needs the program (tools/build)")
    @unittest.skipUnless(shutil.which("hb-shape"), "needs hb-shape (libharfbuzz-bin)")
    def test_lines(self) -> None:
        for weight in (100, 250, 400, 433, 700, 900, 2000):
            options = [
                "--no-glyph-names",
                "--show-extents",
                *([f"--variations=wght={weight}"] if weight != 400 else []),
            ]
            theirs = subprocess.run(
                ["hb-shape", *options, self.path, "ababb"], capture_output=True, text=True, check=True
            )
            ran = run("shape", *options, self.path, "ababb")
            self.assertEqual(ran.stdout.decode().strip(), theirs.stdout.strip().strip("[]"), weight)
            told = f"shape: {self.path}: wght={weight} is outside wght from 100 to 900: 900 is taken\n"
            self.assertEqual(told in ran.stderr.decode(), weight == 2000)


if __name__ == "__main__":
    unittest.main()
