"""The table `kern` as lookups of GPOS: rows worked out by hand, and lines beside hb-shape where the program is built."""

import re
import shutil
import struct
import subprocess
import tempfile
import unittest
from pathlib import Path
from typing import Any

from support import json_of, needs_kuspveli, run, told_lines

from building.places import PROGRAM, standing
from fontTools import unicodedata
from fontTools.feaLib.builder import addOpenTypeFeaturesFromString
from fontTools.fontBuilder import FontBuilder
from fontTools.pens.ttGlyphPen import TTGlyphPen
from fontTools.ttLib import TTFont, newTable
from fontTools.ttLib.tables._k_e_r_n import KernTable_format_0, KernTable_format_unkown
from fontTools.unicodedata import Scripts as ScriptNames
from formats.rules import font_faults
from sources.crates import ROOT

CHARACTERS = "AVT.\u0301\u0632\u0627\u05d0\u05d1\u0391"
NAMES = [".notdef", *(f"g{ord(character):04X}" for character in CHARACTERS)]
A, V, T, STOP, ACUTE, ZAIN, ALEF = range(1, 8)
HORIZONTAL, MINIMUM, CROSS_STREAM = 1, 2, 4
# Odd distances have unlike halves; A stands before itself.
PAIRS = {(A, V): -75, (V, A): -75, (A, A): 21, (T, STOP): -101, (ZAIN, ALEF): -33, (ALEF, ZAIN): 10, (ACUTE, V): 7}


def pairs(coverage: int = HORIZONTAL, given: dict[tuple[int, int], int] | None = None) -> Any:
    table = KernTable_format_0()
    table.coverage = coverage
    table.kernTable = {(NAMES[a], NAMES[b]): value for (a, b), value in (given or PAIRS).items()}
    return table


def classes(is_apple: bool = False, coverage: int = HORIZONTAL) -> Any:
    """Left A and T, right V and stop: A before V -50, before others 0; T before V 4, before stop -60."""
    head = 8 if is_apple else 6
    left_at, width = head + 8, 6
    right_at = left_at + 4 + 2 * 3
    array_at = right_at + 4 + 2 * 3
    # Glyphs 1 to 3 at the left, of which V has the row of zeros; 2 to 4 at the right, of which T is in column 0.
    left = struct.pack(">5H", A, 3, array_at + width, array_at, array_at + 2 * width)
    right = struct.pack(">5H", V, 3, 2, 0, 4)
    array = struct.pack(">9h", 0, 0, 0, 0, -50, 0, 0, 4, -60)
    body = struct.pack(">4H", width, left_at, right_at, array_at) + left + right + array
    table = KernTable_format_unkown(2)
    length = head + len(body)
    header = struct.pack(">LBBH", length, coverage, 2, 0) if is_apple else struct.pack(">HHBB", 0, length, 2, coverage)
    table.data = header + body
    return table


def write_font(path: Path, subtables: list[Any], features: str = "", version: float = 0) -> str:
    font = FontBuilder(1000, isTTF=True)
    font.setupGlyphOrder(NAMES)
    font.setupCharacterMap({ord(character): name for character, name in zip(CHARACTERS, NAMES[1:])})
    font.setupGlyf({name: TTGlyphPen(None).glyph() for name in NAMES})
    font.setupHorizontalMetrics({name: (500, 0) for name in NAMES})
    font.setupHorizontalHeader(ascent=800, descent=-200)
    font.setupOS2()
    font.setupNameTable({"familyName": "Kerned"})
    font.setupPost()
    if features:
        addOpenTypeFeaturesFromString(font.font, features)
    kern = newTable("kern")
    kern.version, kern.kernTables = version, subtables
    font.font["kern"] = kern
    font.save(path)
    return str(path)


def backward(script: str) -> bool:
    """Whether texts of a script run from right to left alone, as Hungarian runes don't."""
    return script != "Hung" and bool(unicodedata.script_horizontal_direction(script, "LTR") == "RTL")


class Scripts(unittest.TestCase):
    """The scripts from right to left that crates/font_kern knows are Unicode's, by fontTools, but Hebrew."""

    def test_scripts(self) -> None:
        text = (ROOT / "crates/font_kern/src/scripts.rt").read_text()
        rows = re.findall(r"script::([A-Z_]+),[^}]*?Tag\(0x([0-9a-f]{8})\)", text)
        known = {name: bytes.fromhex(tag).decode() for name, tag in rows}
        self.assertEqual(len(known), 34)
        wanted = {
            unicodedata.script_name(script).upper().replace(" ", "_"): unicodedata.ot_tags_from_script(script)[0]
            for script in ScriptNames.NAMES
            if backward(script) and script != "Hebr"
        }
        # Scripts that are newer than fontTools' tables have no name there.
        self.assertEqual({**known, **wanted}, known)
        self.assertLessEqual(set(known) - set(wanted), {"GARAY"})

    def test_blocks(self) -> None:
        """Each character of such a script is of the blocks that the crate looks at."""
        blocks = (range(0x590, 0x900), range(0xFB1D, 0xFF00), range(0x10800, 0x11000), range(0x1E800, 0x1F000))
        for number in range(0x110000):
            if backward(unicodedata.script(chr(number))):
                self.assertTrue(any(number in block for block in blocks), hex(number))


@needs_kuspveli
class Rows(unittest.TestCase):
    def setUp(self) -> None:
        folder = tempfile.TemporaryDirectory()
        self.addCleanup(folder.cleanup)
        self.path = Path(folder.name) / "kerned.ttf"

    def gpos(self, *subtables: Any, features: str = "", version: float = 0) -> dict[str, Any]:
        value = json_of("font_to_json", write_font(self.path, list(subtables), features, version))
        self.assertEqual(list(font_faults(value)), [])
        return value.get("gpos", {})

    def test_pairs(self) -> None:
        """The half that is rounded down is the left glyph's, and the rest moves the right glyph."""
        gpos = self.gpos(pairs(given={(A, V): -75, (T, STOP): -101}))
        [called], [called_by] = [0], gpos["features"][0][1]
        rows = [
            [A, V, [0, 0, -38, 0], [-37, 0, -37, 0]],
            [T, STOP, [0, 0, -51, 0], [-50, 0, -50, 0]],
        ]
        self.assertEqual(gpos["lookups"][called], {"flags": 8, "type": "pair", "subtables": [rows]})
        context = {"format": "coverage", "rules": [[[], [[A, T]], [], [[0, called]]]]}
        self.assertEqual(gpos["lookups"][called_by], {"flags": 8, "type": "context", "subtables": [context]})

    def test_classes(self) -> None:
        """A row of the array is a class of left glyphs, a column one of right glyphs; column 0 is that of the others."""
        for is_apple, version in ((False, 0), (True, 1.0)):
            gpos = self.gpos(classes(is_apple, 0 if is_apple else HORIZONTAL), version=version)
            forward, _, backward, _ = (lookup["subtables"][0] for lookup in gpos["lookups"])
            self.assertEqual(forward["first"], [A, V, T])
            self.assertEqual(forward["class1"], [[A, 1], [V, 0], [T, 2]])
            self.assertEqual(forward["class2"], [[V, 1], [T, 0], [STOP, 2]])
            distances = [[0, 0, 0], [0, -50, 0], [0, 4, -60]]
            halved = [[[[0, 0, each // 2, 0], [each // 2, 0, each // 2, 0]] for each in row] for row in distances]
            self.assertEqual(forward["records"], halved)
            self.assertEqual(backward["first"], list(range(1 << 16)))
            self.assertEqual((backward["class1"], backward["class2"]), (forward["class2"], forward["class1"]))
            self.assertEqual(backward["records"], [[cell[::-1] for cell in row] for row in zip(*halved)])

    def test_order(self) -> None:
        """Pairs in another order are sorted, and of those that are alike the first one counts."""
        table = pairs(given={(A, V): -75, (T, STOP): -101, (V, A): 6})
        path = write_font(self.path, [table])
        data = bytearray(Path(path).read_bytes())
        at = data.index(struct.pack(">2Hh", A, V, -75))
        data[at : at + 18] = struct.pack(">2Hh2Hh2Hh", T, STOP, -100, A, V, -50, T, STOP, 4)
        Path(path).write_bytes(data)
        pair = json_of("font_to_json", path)["gpos"]["lookups"][0]["subtables"][0]
        self.assertEqual([[a, b, record[2]] for a, b, record, _ in pair], [[A, V, -25], [T, STOP, -50]])

    def test_systems(self) -> None:
        """The feature is added where a system lacks it; right-to-left scripts have their own, Hebrew has none."""
        features = """
            languagesystem DFLT dflt; languagesystem grek dflt; languagesystem latn dflt; languagesystem latn TRK;
            feature kern { script latn; language TRK exclude_dflt; pos g0041 g0056 -5; } kern;
            feature mark { pos g0041 1; } mark;
        """
        gpos = self.gpos(pairs(), features=features)
        tags = [tag for tag, _ in gpos["features"]]
        scripts = {tag: (default, dict(systems)) for tag, default, systems in gpos["scripts"]}
        self.assertEqual(list(scripts), ["DFLT", "arab", "grek", "latn"])
        for tag in ("DFLT", "grek", "latn"):
            self.assertEqual([tags[index] for index in scripts[tag][0]["features"]], ["mark", "kern"])
        forward, backward = scripts["latn"][0]["features"][-1], scripts["arab"][0]["features"][-1]
        self.assertNotEqual(forward, backward)
        self.assertNotIn(forward, scripts["latn"][1]["TRK "]["features"])
        pair = gpos["lookups"][gpos["features"][backward][1][0] - 1]["subtables"][0]
        self.assertIn([ALEF, ZAIN, [-16, 0, -16, 0], [0, 0, -17, 0]], pair)

    def test_beside_gpos(self) -> None:
        """Where each system has the feature nothing is added."""
        features = "feature kern { pos g0041 g0056 -5; } kern;"
        gpos = self.gpos(pairs(), features=features)
        self.assertEqual(len(gpos["lookups"]), 1)

    def test_left_out(self) -> None:
        """What is left out: lines downwards, across the line, least distances, other formats."""
        other = KernTable_format_unkown(3)
        other.data = struct.pack(">HHBB", 0, 6, 3, HORIZONTAL)
        crossing, least = pairs(HORIZONTAL | CROSS_STREAM), pairs(HORIZONTAL | MINIMUM)
        self.assertEqual(self.gpos(pairs(0), crossing, least, other), {})
        self.assertEqual(self.gpos(pairs(), crossing), self.gpos(pairs()))

    def test_marks(self) -> None:
        """A font without GPOS that has Arabic vowels keeps the positions of its marks, and isn't kerned."""
        path = write_font(self.path, [pairs()])
        font = TTFont(path)
        for table in font["cmap"].tables:
            table.cmap[0x64E] = NAMES[ACUTE]
        font.save(path)
        self.assertNotIn("gpos", json_of("font_to_json", path))

    def test_damaged(self) -> None:
        """A table that is cut, or has more rows than the limit, is refused in one line."""
        cut = classes()
        cut.data = cut.data[:20]
        # Subtables of no length share their bytes.
        shared = KernTable_format_unkown(0)
        shared.data = struct.pack(">2H2B", 0, 0, 0, HORIZONTAL) + struct.pack(">4H", 5000, 0, 0, 0) + bytes(30000)
        for table, count, says in ((cut, 1, "F1 Short in kern at "), (shared, 1000, "F6 TooLarge in kern")):
            path = write_font(self.path, [table])
            data = bytearray(Path(path).read_bytes())
            at = data.index(table.data) - 2
            data[at : at + 2] = struct.pack(">H", count)
            Path(path).write_bytes(data)
            ran = run("font_to_json", path)
            self.assertEqual((ran.returncode, ran.stdout), (3, b""))
            told = told_lines(ran.stderr)
            self.assertIn(says, told)
            self.assertEqual(told.count("\n"), 1)


@unittest.skipUnless(standing(PROGRAM).is_current(), "needs the program (tools/build)")
@unittest.skipUnless(shutil.which("hb-shape"), "needs hb-shape (libharfbuzz-bin)")
class BesideHarfBuzz(unittest.TestCase):
    def test_lines(self) -> None:
        """Pairs and classes, one after the other, with marks between, backwards, and with the feature off."""
        texts = ["AVAVA", "AAAA", "T.TV.", "\u0632\u0627\u0632", "\u0391A", "\u05d0A", "VA.AV"]
        fonts = {"pairs": [pairs()], "classes": [classes()], "both": [pairs(), classes()]}
        with tempfile.TemporaryDirectory() as folder:
            for name, subtables in fonts.items():
                path = write_font(Path(folder) / f"{name}.ttf", subtables)
                for words in ([], ["--features=-kern"]):
                    self.assert_alike(path, texts, words)
            marked = write_font(Path(folder) / "marked.ttf", [pairs()], "feature ss01 { pos g0041 1; } ss01;")
            self.assert_alike(marked, ["A\u0301VA", "AA\u0301\u0301A"], [])
            apple = write_font(Path(folder) / "apple.ttf", [classes(True, 0)], version=1.0)
            self.assert_alike(apple, texts, [])

    def assert_alike(self, path: str, texts: list[str], words: list[str]) -> None:
        listed = Path(path).with_suffix(".txt")
        listed.write_text("".join(f"{text}\n" for text in texts))
        options = ["--utf8-clusters", "--no-glyph-names", f"--text-file={listed}", *words, path]
        theirs = subprocess.run(["hb-shape", *options], capture_output=True, text=True, check=True).stdout.splitlines()
        own = run("shape", *options).stdout.decode().splitlines()
        for text, mine, line in zip(texts, own, theirs, strict=True):
            self.assertEqual(mine, line.strip("[]"), (path, text, words))


if __name__ == "__main__":
    unittest.main()
