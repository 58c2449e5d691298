"""Lines and carets of texts: the calls from C, and the paragraphs of examples/ in three languages."""

import os
import re
import shutil
import struct
import subprocess
import tempfile
import unittest
from itertools import groupby
from pathlib import Path

from support import FONTS, FONTS_NEED, HAS_FONTS

from building.places import LIBRARY, Place
from library_tests.drivers import INCLUDE, SOURCES, VALGRIND, WARNINGS
from sources.crates import ROOT

EXAMPLES = ROOT / "examples"
# An a, the letters f and i, which are a ligature, and a b: 500, 300, 250, 520 and 600 units.
FONT = b"""{"upem":1000,"cmap":[[97,1],[98,2],[102,3],[105,4]],"h":[[1,500],[2,600],[3,300],[4,250],[7,520]],
"gsub":{"scripts":[["DFLT",{"features":[0]},[]]],"features":[["liga",[0]]],
"lookups":[{"type":"ligature","subtables":[[[3,[[[4],7]]]]]}]}}"""
# Of a character of two units without a glyph, a, f, i and b: lines that may end before a, before i, and before b. With the
# piece "af" a line has 500 + 520 units, since the ligature is of its f.
CUT = """\
NoFont 0:
NoFont 0:
OK 3: 0-2@0=0-1 2-5@1020=1-3 5-6@600=3-4
OK 2: 0-5@1020=0-3 5-6@600=3-4
OK 4: 0-2@0=0-1
InvalidBreaks 0:
InvalidBreaks 0:
OK 5: 0@0 2@0 3@500 5@1020 6@1620
OK 6: 0@0 2@0 3@500 4@760 5@1020 6@1620
OK 6: 0@0 2@0
InvalidStops 0:
NoSlices 0:
OK 5: 0@0 2@0 3@500 5@1020 4611686018427387904@1620
"""
# The paragraph's texts with their fonts, the units of an em of each font, and what the examples set them by.
TEXTS = (
    (0, "Kuspveli sets the words of an office, "),
    (1, "السلام عليكم ورحمة الله وبركاته،"),
    (0, " and between them "),
    (2, "हिन्दी में नमस्ते और स्त्री शक्ति, "),
    (0, "in lines that end where a break is safe."),
)
UNITS = (2048, 1000, 1000)
SIZE, WIDTH, MARGIN, LEADING = 30, 640, 24, 54
ROW = re.compile(r"(\d+): (\d+) to (\d+), (\d+) units(, shaped again)?")
HAS_CAIRO = shutil.which("pkg-config") is not None and subprocess.run(["pkg-config", "--exists", "cairo", "freetype2"], check=False).returncode == 0


def built() -> Place | None:
    places = (Place(LIBRARY, is_proved) for is_proved in (True, False))
    return next((place for place in places if all(file.is_file() for file in place.files)), None)


def printed(words: list[object], **environment: str) -> str:
    """What a command prints; it has to succeed."""
    ran = subprocess.run(
        list(map(str, words)), capture_output=True, encoding="utf-8", check=False, env={**os.environ, **environment}
    )
    if ran.returncode:
        raise AssertionError(f"{words}: status {ran.returncode}: {ran.stderr[-2000:]}")
    return ran.stdout


@unittest.skipUnless(built(), "no library is built: tools/build_library, or tools/build_library --unproved")
class Lines(unittest.TestCase):
    def setUp(self) -> None:
        folder = tempfile.TemporaryDirectory()
        self.addCleanup(folder.cleanup)
        self.folder = Path(folder.name)
        place = built()
        assert place
        self.place = place

    @unittest.skipUnless(shutil.which("gcc") and shutil.which("valgrind"), "needs gcc and valgrind")
    def test_calls(self) -> None:
        """In C, without a leak; arrays are written as far as there is room."""
        program, font = self.folder / "cuts", self.folder / "font.json"
        font.write_bytes(FONT)
        words = ["gcc", "-std=gnu11", "-O2", *WARNINGS, f"-I{INCLUDE}", "-o", program, SOURCES / "cuts.c"]
        printed([*words, self.place.file])
        self.assertEqual(printed([*VALGRIND, program, font]), CUT)

    def lines_of_c(self) -> str:
        flags = printed(["pkg-config", "--cflags", "--libs", "cairo", "freetype2"]).split()
        program = self.folder / "paragraph"
        printed(["gcc", *WARNINGS, f"-I{INCLUDE}", EXAMPLES / "paragraph.c", self.place.file, *flags, "-o", program])
        found = printed([program, *FONTS, self.folder / "c.png"])
        # IHDR: the width and the height (PNG, 11.2.2).
        size = struct.unpack_from(">II", (self.folder / "c.png").read_bytes(), 16)
        last = int(found.splitlines()[-1].split(":")[0])
        self.assertEqual(size, (WIDTH, MARGIN + LEADING * (last + 1)))
        return found

    def lines_of_python(self) -> str:
        shared = self.place.folder / "libkuspveli.so"
        words = ["/usr/bin/python3", EXAMPLES / "paragraph.py", *FONTS, self.folder / "python.png"]
        return printed(words, KUSPVELI_LIBRARY=str(shared))

    def lines_of_rust(self) -> str:
        """Its indices are of bytes of UTF-8."""
        target, manifest = self.folder / "rust", ROOT / "bindings" / "rust" / "Cargo.toml"
        words = ["cargo", "build", "--quiet", "--offline", "--example", "paragraph", "--target-dir", target]
        printed([*words, "--manifest-path", manifest], KUSPVELI_OUT=str(self.place.folder))
        found = printed([target / "debug" / "examples" / "paragraph", self.folder / "rust.svg", *FONTS])
        self.assertIn("<path stroke=", (self.folder / "rust.svg").read_text(encoding="utf-8"))
        return found

    @unittest.skipUnless(HAS_FONTS, FONTS_NEED)
    @unittest.skipUnless(HAS_CAIRO and shutil.which("gcc"), "needs gcc, libcairo2-dev and python3-cairo")
    def test_paragraphs(self) -> None:
        """One paragraph in three languages: the same lines, which end after spaces, are as wide as the page allows, and are
        the texts, as wide as HarfBuzz sets them over FreeType."""
        found = self.lines_of_c()
        self.assertEqual(found, self.lines_of_python())
        rows = [row_of(line) for line in found.splitlines()]
        if shutil.which("cargo"):
            self.assertEqual(rows, characters_of([row_of(line) for line in self.lines_of_rust().splitlines()]))
        parts = list(parts_of(rows))
        self.assertEqual(len(parts), len(TEXTS))
        for (font, text), part in zip(TEXTS, parts, strict=True):
            # What is left out at the beginning of a line is a space.
            cut = text[len(text) - part[-1][2] :]
            self.assertIn(cut, (text, text[1:]))
            self.assertEqual([row[1] for row in part], [0, *(row[2] for row in part[:-1])])
            self.assertTrue(all(row[2] == len(cut) or cut[row[2] - 1] == " " for row in part))
            if shutil.which("hb-shape"):
                wide = sum(row[3] for row in part) * SIZE / UNITS[font]
                # Each advance and each kerning may be rounded by half a unit, or by a 128th of a pixel.
                self.assertAlmostEqual(wide, hinted_width(FONTS[font], cut), delta=len(cut) * (SIZE / UNITS[font] / 2 + 1 / 128))
        units = [UNITS[font] for (font, _), part in zip(TEXTS, parts, strict=True) for _ in part]
        for _, line in groupby(zip(rows, units, strict=True), key=lambda each: each[0][0]):
            wide = sum(row[3] * SIZE / each for row, each in line)
            self.assertTrue(0 < wide <= WIDTH - 2 * MARGIN)


def hinted_width(font: str, text: str) -> float:
    """How many pixels HarfBuzz gives a text by the advances that FreeType hints; its sizes are in 64ths of a pixel."""
    words = ["hb-shape", "--font-funcs=ft", f"--font-size={64 * SIZE}", "--ft-load-flags=0", "--no-glyph-names", "--no-clusters"]
    return sum(map(int, re.findall(r"\+(-?\d+)", printed([*words, font, text])))) / 64


Row = tuple[int, int, int, int, bool]


def row_of(line: str) -> Row:
    """A line of an example: its number, where it begins and ends, its width, and whether it was shaped again."""
    found = ROW.fullmatch(line)
    assert found, line
    number, start, end, width = map(int, found.groups()[:4])
    return number, start, end, width, bool(found[5])


def parts_of(rows: list[Row]) -> list[list[Row]]:
    """The lines of each text: each begins at 0."""
    parts: list[list[Row]] = []
    for row in rows:
        if row[1] == 0:
            parts.append([])
        parts[-1].append(row)
    return parts


def characters_of(rows: list[Row]) -> list[Row]:
    """Rows of bytes of UTF-8 as those of characters."""
    found: list[Row] = []
    for (_, text), part in zip(TEXTS, parts_of(rows), strict=True):
        cut = text.encode()[len(text.encode()) - part[-1][2] :]
        for number, start, end, width, again in part:
            found.append((number, len(cut[:start].decode()), len(cut[:end].decode()), width, again))
    return found


if __name__ == "__main__":
    unittest.main()
