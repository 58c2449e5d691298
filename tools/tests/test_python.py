"""The binding for Python: words that are refused before a call, and, where a library is built, its answers."""

import copy
import importlib.util
import inspect
import os
import pickle
import re
import resource
import shutil
import signal
import subprocess
import sys
import tempfile
import threading
import unittest
from array import array
from pathlib import Path
from types import ModuleType
from typing import Any
from unittest import mock

import support  # noqa: F401

from building.places import LIBRARY, Place
from sources.crates import ROOT

FOLDER = ROOT / "bindings" / "python"
TABLES = b"{}"
NUMBER = int.from_bytes(bytes(map(int, (ROOT / "VERSION").read_text(encoding="utf-8").strip().split("."))), "big")
# The letters f and i are a ligature; b is named, and a has a box.
FONT = b"""{"upem":1000,"ascender":800,"cmap":[[97,1],[98,2],[102,3],[105,4],[233,5],[1575,6]],
"h":[[1,500],[2,600],[3,300],[4,250],[5,510],[6,400],[7,520]],"extents":[[1,10,20,30,-40]],"names":[[2,"bee"]],
"gsub":{"scripts":[["DFLT",{"features":[0]},[]]],"features":[["liga",[0]]],
"lookups":[{"type":"ligature","subtables":[[[3,[[[4],7]]]]]}]}}"""

# A font file of the tables cmap (format 4), head, hhea, hmtx and maxp: a and b are the glyphs 1 and 2, 500 and 600 units
# wide. hb-shape prints 1=0+500|2=1+600 of it for ab.
FILE = bytes.fromhex(
    "000100000005004000020010636d6170000000000000005c0000002c686561640000000000000088000000366868656100000000000000c0"
    "00000024686d747800000000000000e40000000c6d61787000000000000000f00000000600000001000300010000000c0004002000000004"
    "0004000100000062ffff00000061ffffffa00001000000000001000000010000000000005f0f3cf5000003e8000000000000000000000000"
    "000000000000000000000000000000080002000000000000000100000320ff38000002580000000000000001000000000000000000000000"
    "000000030190000001f40000025800000000500000030000"
)


def module(library: Path | None) -> ModuleType:
    """The binding over a library, or over none that answers."""
    spec = importlib.util.spec_from_file_location("kuspveli_tested", FOLDER / "kuspveli.py")
    assert spec and spec.loader
    found = importlib.util.module_from_spec(spec)
    with mock.patch.object(sys, "path", [str(FOLDER), *sys.path]):
        if library is None:
            environment = {"KUSPVELI_LIBRARY": __file__}
            loaded = mock.patch("ctypes.CDLL", return_value=mock.MagicMock(**{"kus_version.return_value": NUMBER}))
        else:
            environment, loaded = {"KUSPVELI_LIBRARY": str(library)}, mock.patch.object(found, "unused", None, create=True)
        with mock.patch.dict(os.environ, environment), loaded:
            spec.loader.exec_module(found)
    return found


def built() -> Path | None:
    places = (Place(LIBRARY, is_proved) for is_proved in (True, False))
    return next((place.folder / "libkuspveli.so" for place in places if (place.folder / "libkuspveli.so").is_file()), None)


class Checked(unittest.TestCase):
    """What is refused before a call. Features are read as hb_feature_from_string reads them."""

    def setUp(self) -> None:
        self.binding = module(None)

    def test_features(self) -> None:
        """Text, a dict, features and texts; numbers and ranges as HarfBuzz has them."""
        feature = self.binding.Feature
        end = 0xFFFF_FFFF
        rows = {
            "kern": [("kern", 1, 0, end)],
            "+kern": [("kern", 1, 0, end)],
            "-kern, liga=0": [("kern", 0, 0, end), ("liga", 0, 0, end)],
            "kern[]": [("kern", 1, 0, end)],
            "kern[5:]": [("kern", 1, 5, end)],
            "kern[:5]": [("kern", 1, 0, 5)],
            "aalt[3:5]=2": [("aalt", 2, 3, 5)],
            "kern[3]": [("kern", 1, 3, 4)],
            "": [],
        }
        for text, wanted in rows.items():
            self.assertEqual(self.binding.features_of(text), wanted, text)
        self.assertEqual(self.binding.features_of({"liga": 0, "aalt": 2}), [("liga", 0, 0, end), ("aalt", 2, 0, end)])
        self.assertEqual(self.binding.features_of([feature("liga", 0), "kern=0"]), [("liga", 0, 0, end), ("kern", 0, 0, end)])

    def test_refused(self) -> None:
        """One error that names the word, whatever it is of."""
        rows = (
            ({"direction": "RTL"}, "direction: 'RTL' is none of ltr, rtl, ttb, btt"),
            ({"script": "abcdefghi"}, "script: 'abcdefghi' is no tag of one to four printed ASCII characters"),
            ({"script": "Aräb"}, "script: 'Aräb' is no tag of one to four printed ASCII characters"),
            ({"flags": 1 << 40}, "flags: 1099511627776 is not from 0 to 4294967295"),
            ({"flags": 32}, "flags: 0x20 has a bit that no flag has"),
            ({"flags": -1}, "flags: -1 is not from 0 to 4294967295"),
            ({"cluster_level": 4}, "cluster_level: 4 is not from 0 to 3"),
            ({"features": "ligature"}, "feature: 'ligature' is no tag of one to four printed ASCII characters"),
            ({"features": "liga=x"}, "feature: 'liga=x' is not of the form liga, -liga, liga=0 or liga[0:3]=0"),
            ({"features": "-liga=1"}, "feature: '-liga=1' is not of the form liga, -liga, liga=0 or liga[0:3]=0"),
            ({"features": {"liga": 1 << 32}}, "feature 'liga': 4294967296 is not from 0 to 4294967295"),
            ({"features": {"": 1}}, "feature: a tag is empty"),
            ({"before": "\ud800"}, "before: the surrogate at 0 is no character"),
        )
        for settings, wanted in rows:
            with self.assertRaises(ValueError) as caught:
                self.binding.raw_text("a", **settings)
            self.assertEqual(str(caught.exception), wanted)
        for settings in ({"features": {"liga": "x"}}, {"script": 3}, {"language": 3}, {"flags": "BOT"}):
            with self.assertRaises(TypeError):
                self.binding.raw_text("a", **settings)

    def test_named(self) -> None:
        """Each setting stands by its name where help and editors show it."""
        file = ("index", "tables", "extents", "names")
        around = ("features", "direction", "script", "language", "before", "after", "flags", "cluster_level")
        font = self.binding.Font
        for call, names in (
            (font, file), (font.open, file[1:]), (font.shape, (*around, "clusters")), (font.shape_slices, around),
        ):  # fmt: skip
            parameters = inspect.signature(call).parameters.values()
            self.assertEqual(tuple(each.name for each in parameters if each.kind == each.KEYWORD_ONLY), names)
            self.assertEqual([each.name for each in parameters if each.kind in (each.VAR_KEYWORD, each.VAR_POSITIONAL)], [])

    @unittest.skipUnless(shutil.which("mypy"), "needs mypy")
    def test_types(self) -> None:
        """A checker of types takes the module, and knows what each call answers, also of copies and of a font in `with`."""
        answers = {
            "font": "kuspveli.Font", "font.another()": "kuspveli.Font", "copy.copy(font)": "kuspveli.Font",
            "Tables().another()": "kuspveli.Tables", "font.shape('a')[0].x_advance": "builtins.int",
            "font.upem()": "builtins.int", "font.glyph_name(1)": "Union[builtins.str, None]",
        }  # fmt: skip
        with tempfile.TemporaryDirectory() as folder:
            given = Path(folder) / "own.py"
            head = "import copy\nfrom kuspveli import Font, Tables\nwith Font.open('a', names=False) as font:\n"
            given.write_text(head + "".join(f"    reveal_type({each})\n" for each in answers), encoding="utf-8")
            words = ["mypy", "--strict", "--python-version=3.9", "--cache-dir=/dev/null", given, FOLDER / "kuspveli.py"]
            environment = {**os.environ, "MYPYPATH": str(FOLDER)}
            ran = subprocess.run(words, capture_output=True, text=True, check=False, env=environment)
        self.assertEqual(ran.returncode, 0, ran.stdout)
        self.assertEqual(re.findall('Revealed type is "(.*)"', ran.stdout), list(answers.values()))

    def test_interface(self) -> None:
        """A library with another first number of the version is refused, and one with a lower second number: it lacks calls."""
        with mock.patch.object(self.binding, "__version__", "1.2.3+unproved"):
            for found in ((1, 2, 0), (1, 2, 9), (1, 3, 0)):
                self.binding.check_version(found)
            for found in ((0, 9, 9), (1, 1, 9), (2, 0, 0)):
                with self.assertRaisesRegex(ImportError, rf"of version {'.'.join(map(str, found))}, and kuspveli.py of 1.2.3"):
                    self.binding.check_version(found)

    def test_copied(self) -> None:
        """A fault keeps its status where it is copied or pickled, as by another process."""
        again = copy.copy(self.binding.Fault(23))
        self.assertEqual((str(again), again.status), ("F4 Index", 23))

    def test_characters(self) -> None:
        """Of each byte the character that it is a part of."""
        self.assertEqual(self.binding.character_indices("aé€😀b".encode()), array("I", [0, 1, 1, 2, 2, 2, 3, 3, 3, 3, 4]))
        self.assertIsNone(self.binding.character_indices(b"ab"))

    def test_texts(self) -> None:
        for text in ("é", "é".encode(), bytearray("é".encode()), memoryview("é".encode())):
            self.assertEqual(self.binding.utf8(text, "text"), b"\xc3\xa9")


@unittest.skipUnless(built(), "no library is built: tools/build_library, or tools/build_library --unproved")
class Answered(unittest.TestCase):
    def setUp(self) -> None:
        library = built()
        assert library
        self.binding = module(library)
        self.font = self.binding.Font(self.binding.Tables(TABLES), FONT)
        self.addCleanup(self.font.close)

    def test_glyphs(self) -> None:
        """Numbers, clusters by bytes and by characters, and advances; a feature turns the ligature off."""

        def rows(**settings: object) -> list[tuple[int, int, int, int]]:
            found = self.font.shape("éfi", **settings)
            return [(glyph.number, glyph.cluster, glyph.character, glyph.x_advance) for glyph in found]

        self.assertEqual(rows(), [(5, 0, 0, 510), (7, 2, 1, 520)])
        for features in ("liga=0", {"liga": 0}, [self.binding.Feature("liga", 0)]):
            self.assertEqual(rows(features=features), [(5, 0, 0, 510), (3, 2, 1, 300), (4, 3, 2, 250)])
        arrays = self.font.shape_arrays("éfi")
        self.assertEqual((arrays.numbers, arrays.clusters, arrays.characters), (array("I", [5, 7]), array("I", [0, 2]), array("I", [0, 1])))
        self.assertEqual(self.font.shape(""), [])
        self.assertEqual(len(self.font.shape("ab" * 5000)), 10000)

    def test_room(self) -> None:
        """Texts that just fit the arrays that a font keeps, and longer ones; shrinking leaves the last text's glyphs."""
        for count in (self.binding.KEPT + more for more in (-1, 0, 1, 3583, 3584, 3585, 9000, -2)):
            arrays = self.font.shape_arrays("a" * (count - 1) + "b")
            self.assertEqual(arrays.numbers, array("I", [1] * (count - 1) + [2]))
            self.assertEqual(arrays.clusters, array("I", range(count)))
            self.assertEqual(arrays.x_advances, array("i", [500] * (count - 1) + [600]))
            lines = self.font.cut_lines([count], 1)
            self.font.shrink()
            self.assertEqual(self.font.cut_lines([count], 1), lines)
        self.font.close()
        self.font.shrink()

    def test_clusters(self) -> None:
        """Clusters and the ranges of features count bytes of UTF-8, units of UTF-16 or characters."""
        font, text = self.binding.Font(TABLES, FONT), "b\U0001f600fi"
        for clusters, wanted in (("bytes", [0, 1, 5]), ("utf16", [0, 1, 3]), ("characters", [0, 1, 2])):
            glyphs = font.shape(text, clusters=clusters)
            self.assertEqual([glyph.number for glyph in glyphs], [2, 0, 7])
            self.assertEqual([glyph.cluster for glyph in glyphs], wanted)
            self.assertEqual([glyph.character for glyph in glyphs], [0, 1, 2])
            last = wanted[-1]
            off = font.shape(text, clusters=clusters, features=f"liga[{last}:{last + 1}]=0", before="a", after="b")
            self.assertEqual([glyph.number for glyph in off], [2, 0, 3, 4])
        self.assertEqual(font.shape("", clusters="utf16"), [])
        for given, clusters, fault in ((b"a", "utf16", TypeError), ("a", "words", ValueError), ("\ud800", "utf16", ValueError)):
            with self.assertRaises(fault):
                font.shape(given, clusters=clusters)

    def test_slices(self) -> None:
        slices = self.font.shape_slices("éfib")
        rows = [(len(one.glyphs), one.start, one.end, one.first_character, one.end_character) for one in slices]
        self.assertEqual(rows, [(1, 0, 2, 0, 1), (1, 2, 4, 1, 3), (1, 4, 5, 3, 4)])
        backwards = self.font.shape_slices("ab", direction="rtl")
        self.assertEqual([(one.start, one.end) for one in backwards], [(1, 2), (0, 1)])
        self.assertEqual(self.font.shape_slices(""), [])

    def test_lines(self) -> None:
        """An a of 500 units, a ligature of 520 and a b of 600; indices count what clusters count in."""
        font, line = self.binding.Font(TABLES, FONT), self.binding.Line
        self.assertEqual(font.cut_lines([], 1), [])
        for clusters, at in (("bytes", (0, 4, 6, 7)), ("utf16", (0, 2, 4, 5)), ("characters", (0, 1, 3, 4))):
            font.shape("\U0001f600fib", clusters=clusters, flags=self.binding.Flags.PRODUCE_SAFE_BREAKS)
            whole = [line(0, at[2], 520, range(2)), line(at[2], at[3], 600, range(2, 3))]
            self.assertEqual(font.cut_lines(at[1:3], 600), whole)
            inside = [line(0, at[2] - 1, 520, None), line(at[2] - 1, at[3], 600, None)]
            self.assertEqual(font.cut_lines([at[2] - 1, at[2]], 600, first_width=519), inside)
            rows = [(0, 0), (at[1], 0), (at[2], 520), (at[3], 1120)]
            self.assertEqual(font.carets(), rows)
            self.assertEqual(font.carets([at[2] - 1]), [*rows[:2], (at[2] - 1, 260), *rows[2:]])
        font.shape("ab", direction="rtl")
        self.assertEqual(font.carets(), [(0, 1100), (1, 600), (2, 0)])
        font.shape("")
        self.assertEqual((font.carets(), font.cut_lines([], 9)), ([(0, 0)], []))

    def test_lawful_lines(self) -> None:
        """By the law's premises: letters alone; a mark after the first letter of each line; a mark in one line alone, or
        U+034F before a cut; each in all units. A font that draws a variation sequence of U+034F keeps no premise."""
        font = self.binding.Font(TABLES, FONT)
        rows = (("ab", 1, True), ("a\u0301ba\u0301", 2, True), ("a\u0301b", 2, False), ("\U0001f600\u0301bb\u0301", 3, True), ("a\u0301\u034fba\u0301", 3, False))
        for text, at, is_own in rows:
            for clusters, coding in (("bytes", "utf-8"), ("utf16", "utf-16-le"), ("characters", "utf-32-le")):
                unit = len(text[:at].encode(coding)) // {"bytes": 1, "utf16": 2, "characters": 4}[clusters]
                font.shape(text, clusters=clusters, flags=self.binding.Flags.PRODUCE_SAFE_BREAKS)
                lines = font.cut_lines([unit], 0, lawful=True)
                self.assertEqual([one.glyphs is not None for one in lines], [is_own, is_own], (text, clusters))
                self.assertEqual([one.end for one in lines], [one.end for one in font.cut_lines([unit], 0)])
        font.shape("ab")
        self.assertEqual(len([one for one in font.cut_lines([1], 0, lawful=True) if one.glyphs]), 2)
        font.set_glyphs({"\u034f\ufe00": 1})
        font.shape("ab")
        self.assertEqual([one.glyphs for one in font.cut_lines([1], 0, lawful=True)], [None, None])

    def test_refused_lines(self) -> None:
        """Indices that don't rise or are past the end of the text, and what are no indices and no widths."""
        self.font.shape("ab")
        for breaks in ([0], [1, 1], [2, 1], [3]):
            with self.assertRaisesRegex(self.binding.Fault, "InvalidBreaks"):
                self.font.cut_lines(breaks, 9)
            with self.assertRaisesRegex(self.binding.Fault, "InvalidStops"):
                self.font.carets(breaks)
        for breaks, width, fault in (([-1], 9, ValueError), ([1 << 64], 9, ValueError), (["a"], 9, TypeError), ([], 1 << 63, ValueError), ([], 0.5, TypeError)):
            with self.assertRaises(fault):
                self.font.cut_lines(breaks, width)
        with self.binding.Font(TABLES, FONT) as font:
            pass
        for call in (font.carets, lambda: font.cut_lines([], 9)):
            with self.assertRaisesRegex(self.binding.Fault, "NoFont"):
                call()

    def test_segment(self) -> None:
        self.assertEqual((self.font.direction(), self.font.script()), ("", ""))
        self.font.shape("ا")
        self.assertEqual((self.font.direction(), self.font.script()), ("rtl", "Arab"))
        self.font.shape("ab", direction="ttb", script="latn")
        self.assertEqual((self.font.direction(), self.font.script()), ("ttb", "Latn"))

    def test_queries(self) -> None:
        self.assertEqual((self.font.upem(), self.font.ascender()), (1000, 800))
        self.assertEqual((self.font.nominal_glyph("b"), self.font.nominal_glyph("c")), (2, None))
        self.assertEqual((self.font.glyph_name(2), self.font.glyph_name(1), self.font.glyph_name(1 << 20)), ("bee", None, None))
        self.assertEqual((self.font.glyph_extents(1), self.font.glyph_extents(2)), ((10, 20, 30, -40), None))
        self.assertEqual((self.font.feature_tags("GSUB"), self.font.script_tags("GSUB")), (["liga"], ["DFLT"]))
        self.assertEqual(self.font.feature_tags("GPOS"), [])
        with self.assertRaises(ValueError):
            self.font.feature_tags("GDEF")

    def test_advances(self) -> None:
        """A font takes a caller's advances, unless one of them is refused or another handle shares it."""
        faults = (({1: 700, 99: 1}, "NoGlyph"), ({1: 700, 2: 65536}, "AdvanceRange"))
        for given, wanted in faults:
            with self.assertRaises(self.binding.Fault) as caught:
                self.font.set_advances(given)
            self.assertEqual(str(caught.exception), wanted)
        self.assertEqual([glyph.x_advance for glyph in self.font.shape("ab")], [500, 600])
        self.font.set_advances({})
        self.font.set_advances({1: 900, 7: 0})
        self.assertEqual([glyph.x_advance for glyph in self.font.shape("abfi")], [900, 600, 0])
        self.assertEqual(self.font.glyph_h_advance(1), 900)
        self.assertRaises(ValueError, lambda: self.font.set_advances({1: -1}))
        self.assertRaises(TypeError, lambda: self.font.set_advances({"a": 1}))
        other = copy.copy(self.font)
        with self.assertRaises(self.binding.Fault) as caught:
            self.font.set_advances({1: 1})
        self.assertEqual(str(caught.exception), "SharedFont")
        other.close()
        self.font.set_advances({1: 1})
        self.assertEqual([glyph.x_advance for glyph in self.font.shape("ab")], [1, 600])

    def test_advance_function(self) -> None:
        """A function is asked once for each glyph, text by text, also again where what it answered was refused."""
        asked: list[int] = []

        def advance(glyph: int) -> int:
            asked.append(glyph)
            return 65536 if len(asked) == 1 else glyph * 100

        self.font.set_advance_function(advance)
        with self.assertRaises(self.binding.Fault) as caught:
            self.font.shape("a")
        self.assertEqual(str(caught.exception), "AdvanceRange")
        rows = (("ab", [100, 200]), ("bb", [200, 200]), ("fib", [700, 200]))
        for text, wanted in rows:
            self.assertEqual([glyph.x_advance for glyph in self.font.shape(text)], wanted)
        self.assertEqual(list(self.font.shape_arrays("fi").x_advances), [700])
        self.assertEqual((asked[0], sorted(asked[1:])), (1, [1, 2, 7]))
        self.font.set_advance_function(None)
        self.font.set_advances({1: 5})
        self.assertEqual([glyph.x_advance for glyph in self.font.shape("ab")], [5, 200])

    def test_scale(self) -> None:
        """Advances in a scale, as HarfBuzz rounds them, and y offsets by a scale of their own; a copy has the same."""
        rows = ((2001, (1000, 1201)), (-499, (-249, -299)), (1000, (500, 600)), (0, (500, 600)))
        for scale, wanted in rows:
            self.font.set_scale(scale)
            self.assertEqual(tuple(glyph.x_advance for glyph in self.font.shape("ab")), wanted)
        self.font.set_scale(1000, -2000)
        self.assertEqual([glyph.y_advance for glyph in copy.copy(self.font).shape("a", direction="ttb")], [2000])
        for refused in (1 << 31, -(1 << 31) - 1):
            self.assertRaises(ValueError, self.font.set_scale, refused)
        self.assertRaises(TypeError, self.font.set_scale, 1.5)

    def test_line_metrics(self) -> None:
        self.assertIsNone(self.font.line_metrics())
        self.assertEqual(self.binding.Font(FILE).line_metrics(), (800, -200, 0))

    def test_version(self) -> None:
        """The library's, the header's and that of VERSION are one."""
        numbers = tuple(map(int, (ROOT / "VERSION").read_text(encoding="utf-8").strip().split(".")))
        self.assertEqual(self.binding.version(), numbers)
        header = (ROOT / "include" / "kuspveli.h").read_text(encoding="utf-8")
        for name, number in zip(("MAJOR", "MINOR", "MICRO"), numbers, strict=True):
            self.assertIn(f"#define KUS_VERSION_{name} {number}\n", header)

    def test_handles(self) -> None:
        """A copy is another handle; closed ones are refused; none is pickled."""
        with self.binding.Font(TABLES, FONT) as font:
            others = (copy.copy(font), copy.deepcopy(font), font.another())
            with self.assertRaises(TypeError):
                pickle.dumps(font)
        with self.assertRaises(self.binding.Fault) as caught:
            font.shape("a")
        self.assertEqual(str(caught.exception), "NoFont")
        for other in others:
            self.assertEqual(len(other.shape("ab")), 2)
        with self.binding.Tables(TABLES) as tables:
            pass
        with self.assertRaises(self.binding.Fault) as caught:
            self.binding.Font(tables, FONT)
        self.assertEqual(str(caught.exception), "NoTables")

    def test_files(self) -> None:
        """A font is read from bytes or by its path, over its own tables and over others; an index past the count is told."""
        rows = [(1, 0, 500), (2, 1, 600)]

        def shaped(font: Any) -> list[tuple[int, int, int]]:
            return [(glyph.number, glyph.cluster, glyph.x_advance) for glyph in font.shape("ab")]

        with tempfile.TemporaryDirectory() as folder, self.binding.Tables() as tables:
            path = Path(folder) / "font.ttf"
            path.write_bytes(FILE)
            fonts = [self.binding.Font(given) for given in (FILE, bytearray(FILE), memoryview(FILE))]
            fonts += [self.binding.Font.open(path), self.binding.Font.open(str(path), 0, tables=tables, names=False)]
            fonts += [self.binding.Font(FILE, tables=self.binding.Tables(TABLES), extents=False)]
            with self.assertRaises(self.binding.Fault) as caught:
                self.binding.Font.open(path, 1)
        self.assertEqual((str(caught.exception), caught.exception.status), (f"{path}: F4 Index", 23))
        again = copy.copy(caught.exception)
        self.assertEqual((str(again), again.status), (f"{path}: F4 Index", 23))
        self.assertEqual([shaped(font) for font in fonts], [rows] * len(fonts))
        self.assertEqual([font.upem() for font in fonts], [1000] * len(fonts))
        counts = [self.binding.count_fonts(given) for given in (FILE, b"ttcf\0\1\0\0\0\0\0\3", FONT, b"")]
        self.assertEqual(counts, [1, 3, 0, 0])

    def test_other_files(self) -> None:
        """What is no font file is told, with the table and the offset that are at fault (OpenType, chapter 4), and what is no
        bytes is refused before the call."""
        rows = (
            (FILE[:8], "F1 Short at 0"),
            (FONT, "F2 Kind at 0"),
            (FILE[:12], "F1 Short at 12"),
            (FILE[:12].replace(b"\5", b"\0", 1), "F5 Missing in head"),
            (FILE.replace(b"maxp", b"maxq", 1), "F5 Missing in maxp"),
        )
        for given, wanted in rows:
            with self.assertRaises(self.binding.Fault) as caught:
                self.binding.Font(given)
            self.assertEqual(str(caught.exception), wanted)
        refused = (
            lambda: self.binding.Font("font.ttf"),
            lambda: self.binding.Font(FILE, index="0"),
            lambda: self.binding.Font(FILE, tables=TABLES),
            lambda: self.binding.Font(TABLES, FONT, index=1),
            lambda: self.binding.Font(TABLES, FONT, extents=False),
            lambda: self.binding.Font(FILE, none=0),
            lambda: self.binding.count_fonts("font.ttf"),
        )
        for call in refused:
            self.assertRaises(TypeError, call)
        self.assertRaises(ValueError, lambda: self.binding.Font(FILE, index=-1))
        with self.binding.Tables() as tables:
            pass
        with self.assertRaises(self.binding.Fault) as caught:
            self.binding.Font(FILE, tables=tables)
        self.assertEqual(str(caught.exception), "NoTables")

    def test_formats(self) -> None:
        """JSON whose first key says that it is the other of tables and fonts is told."""
        font, tables = b'{"format":"kuspveli-font",' + FONT[1:], b'{ "format" : "kuspveli-tables" }'
        self.assertEqual(len(self.binding.Font(tables, font).shape("ab")), 2)
        refused = (
            lambda: self.binding.Tables(font),
            lambda: self.binding.Font(font, font),
            lambda: self.binding.Font(tables, tables),
            lambda: self.binding.Font(self.binding.Tables(tables), tables),
        )
        for call in refused:
            with self.assertRaises(self.binding.Fault) as caught:
                call()
            self.assertEqual((str(caught.exception), caught.exception.status), ("OtherFormat", 19))

    def test_faults(self) -> None:
        rows = ((TABLES, b"{", "J1 NotJson"), (b'{"splits":[[97,97,98]]}', FONT, "U3 SplitDepth"), (TABLES, b'{"upem":1.5}', "J3 FloatNumber"))
        for tables, font, wanted in rows:
            with self.assertRaises(self.binding.Fault) as caught:
                self.binding.Font(tables, font)
            self.assertEqual(str(caught.exception), wanted)
        with self.assertRaises(self.binding.Fault) as caught:
            self.font.shape(b"\xc3(")
        self.assertEqual(str(caught.exception), "NotUtf8")

    def test_bytes(self) -> None:
        """A subclass of bytes or str that tells another length or other bytes has its own bytes shaped."""

        class Long(bytes):
            def __len__(self) -> int:
                return 4000

        class Other(str):
            def encode(self, *_: object) -> bytes:
                return Long(b"b")

        for text in (Long(b"aa"), Other("aa"), memoryview(Long(b"aa"))):
            self.assertEqual([glyph.number for glyph in self.font.shape(text, before=text, after=text, language=Long(b"de"))], [1, 1])
        self.assertEqual(self.binding.Font(Long(TABLES), Long(FONT)).upem(), 1000)

    def test_again(self) -> None:
        """A second __init__ reads into the same handle, and frees what it had; a fault leaves it."""
        taken = []
        for _ in range(3):
            for _ in range(200):
                self.font.__init__(TABLES, FONT)
            taken.append(resource.getrusage(resource.RUSAGE_SELF).ru_maxrss)
        self.assertLess(taken[2] - taken[1], 1024)
        self.assertRaises(self.binding.Fault, self.font.__init__, TABLES, b"{")
        self.assertEqual(len(self.font.shape("ab")), 2)

    def test_stack(self) -> None:
        """A thread with a small stack is told, and one with as much as is named has enough for the deepest files."""
        told: list[str] = []
        deep = b'{"upem":9,"x":' + b'{"a":' * 126 + b"1" + b"}" * 127

        def work() -> None:
            for call in (lambda: self.binding.Font(TABLES, FONT), lambda: self.font.shape("a"), lambda: self.binding.Font(deep, deep)):
                try:
                    call()
                    told.append("")
                except RuntimeError as error:
                    told.append(str(error))

        need = "the stack of this thread has 64 KiB, and the call needs"
        for size, wanted in ((64, [f"{need} 448", f"{need} 192", f"{need} 448"]), (448, ["", "", ""])):
            before = threading.stack_size(size << 10)
            try:
                thread = threading.Thread(target=work)
                thread.start()
                thread.join()
            finally:
                threading.stack_size(before)
            self.assertEqual([each.partition(":")[0] for each in told], wanted)
            told.clear()

    def test_fork(self) -> None:
        """A child that is forked while other threads work on a font may work on it too."""
        done = threading.Event()

        def work() -> None:
            while not done.is_set():
                self.font.shape("ab" * 2000)

        threads = [threading.Thread(target=work) for _ in range(2)]
        for thread in threads:
            thread.start()
        try:
            for _ in range(30):
                child = os.fork()
                if not child:
                    signal.alarm(20)
                    os._exit(0 if len(self.font.shape("ab")) == 2 else 1)
                self.assertEqual(os.waitpid(child, 0)[1], 0)
        finally:
            done.set()
            for thread in threads:
                thread.join()

    def test_threads(self) -> None:
        """Four threads share one font, and each gets the glyphs of its own text."""
        wrong: list[object] = []

        def shape(count: int) -> None:
            for _ in range(500):
                try:
                    found = self.font.shape("a" * count)
                    wrong.extend([found] if len(found) != count else [])
                except self.binding.Fault as fault:
                    wrong.append(fault)

        threads = [threading.Thread(target=shape, args=(count,)) for count in range(1, 5)]
        for thread in threads:
            thread.start()
        for thread in threads:
            thread.join()
        self.assertEqual(wrong, [])


if __name__ == "__main__":
    unittest.main()
