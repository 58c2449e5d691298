"""Numbers of bench/real that are kept: what is written and read again, the tables, the chart, the documents."""

import contextlib
import io
import tempfile
import unittest
import xml.etree.ElementTree as tree
from pathlib import Path
from unittest import mock

from support import TOOLS

from beside import cli, kept
from beside.chart import NAMES, chart
from beside.kept import KEYS, Kept, read_kept, run_of, set_of, told_run, write_kept
from beside.sets import SETS
from beside.table import Pair, Row, ratios
from common.faults import ToolFault

DOCS = TOOLS.parent / "docs"
NUMBERS = DOCS / "speed.json"
NAMED = {"unit": "instructions", "library": "unproved", "harfbuzz": "hb-shape (HarfBuzz) 6.0.0"}
RUN = {**{key: key for key in KEYS}, **NAMED}
SVG = "{http://www.w3.org/2000/svg}"


class Numbers(unittest.TestCase):
    def setUp(self) -> None:
        folder = tempfile.TemporaryDirectory()
        self.addCleanup(folder.cleanup)
        self.folder = Path(folder.name)

    def test_kept(self) -> None:
        """What a row has is kept with its ratios, and read again; what was not above zero has no ratio."""
        row = Row("Thai", "Loma", {"page": Pair(400, 300), "words": Pair(0, 5), "first": Pair(3, 1)}, "clusters differ")
        taken = set_of(row)["taken"]
        self.assertEqual(taken["page"], {"theirs": 400, "own": 300, "ratio": 0.75})
        self.assertIsNone(taken["words"]["ratio"])
        self.assertEqual(list(taken), ["page", "words", "first"])
        write_kept(self.folder / "kept.json", Kept(RUN, [row]))
        self.assertEqual(read_kept(self.folder / "kept.json"), Kept(RUN, [row]))

    def test_told(self) -> None:
        """A run says whether the library is proved, and what was counted."""
        for library, unit, words in (
            ("unproved", "instructions", "not proved (made by kit, with no proof checked), beside"),
            ("proved", "nanoseconds", "proved with kit, beside"),
        ):
            lines = " ".join(Kept({**RUN, "library": library, "unit": unit}, []).told())
            self.assertIn(f"By `command` of date at commit commit, of the program and the library {words}", lines)
            self.assertEqual("callgrind counts" in lines, unit == "instructions")
        lines = " ".join(told_run({**RUN, "library": "unproved"}, "the library", "that of HarfBuzz"))
        self.assertIn("of the library not proved (made by kit, with no proof checked), beside that of HarfBuzz, in", lines)

    def test_built(self) -> None:
        """A run of what was compiled to be measured is one of no proof, too."""
        with mock.patch.multiple(kept, printed_by=lambda _: ["HarfBuzz"], first_line=lambda *_: "line", host=str):
            for folder, library in (("out", "proved"), ("unproved", "unproved"), ("measured", "unproved")):
                told = run_of("command", "unit", Path(folder) / "libkuspveli.a")
                self.assertEqual(told["library"], library)

    def test_chart(self) -> None:
        """Bars of a set as long as their ratios, and the line where a ratio of 1 ends; none without a ratio."""
        first = Row("A<B", "f", {"page": Pair(2, 1), "words": Pair(2, 3), "turns": Pair(1, 9)})
        drawn = tree.fromstring(chart(Kept(RUN, [first, Row("C", "f", {"anew": Pair(4, 3), "page": Pair(0, 1)})])))
        bars = [bar for bar in drawn.iter(f"{SVG}rect") if bar.find(f"{SVG}title") is not None]
        widths = [float(bar.attrib["width"]) for bar in bars]
        self.assertEqual(len(bars), 3)
        self.assertAlmostEqual(widths[1] / widths[0], 3, 1)
        line = [path for path in drawn.iter(f"{SVG}path") if path.attrib.get("stroke-width") == "2"]
        at = float(line[0].attrib["d"].split()[0].removeprefix("M")) - NAMES
        self.assertAlmostEqual(at, 2 * widths[0], 0)
        self.assertTrue(all(NAMES + width < float(drawn.attrib["width"]) for width in widths))
        self.assertIn("Instructions over those of HarfBuzz 6.0.0", "".join(drawn.itertext()))

    def test_table(self) -> None:
        """The ratios stand in a document between its two lines, and stay the same when they are written again."""
        kept, document = self.folder / "kept.json", self.folder / "SPEED.md"
        run = Kept(RUN, [Row("Thai", "Loma", {"page": Pair(400, 300)})])
        write_kept(kept, run)
        document.write_text(f"# Speed\n\n{cli.BEGIN}\n| old |\n{cli.END}\n\nMore.\n", encoding="utf-8")
        for _ in range(2):
            with contextlib.redirect_stdout(io.StringIO()) as shown:
                self.assertEqual(cli.main([f"--from={kept}", f"--table={document}"]), 0)
            made = "\n".join([*run.told(), "", "| Set | page |", "| --- | --- |", "| Thai, Loma | 0.75 |", ""])
            self.assertEqual(document.read_text(), f"# Speed\n\n{cli.BEGIN}\n\n{made}\n{cli.END}\n\nMore.\n")
            self.assertTrue(shown.getvalue().startswith(made))

    def test_words(self) -> None:
        """A file of another form is a fault that names it."""
        path = self.folder / "kept.json"
        for text in ('{"run": {}}', "no JSON", '{"run": 5}'):
            path.write_text(text)
            self.assertRaisesRegex(ToolFault, f"{path}: not what --keep writes", cli.main, [f"--from={path}"])


class Documents(unittest.TestCase):
    def test_table(self) -> None:
        """SPEED.md has the ratios of the kept numbers, of all sets, and says of which run they are; none is wide."""
        kept, text = read_kept(NUMBERS), (DOCS / "SPEED.md").read_text(encoding="utf-8")
        self.assertEqual([row.title for row in kept.rows], [chosen.title for chosen in SETS])
        self.assertIn("\n".join([cli.BEGIN, "", *kept.told(), "", *ratios(kept.rows), "", cli.END]), text)
        self.assertLessEqual(max(map(len, ratios(kept.rows))), 80)

    def test_drawn(self) -> None:
        with tempfile.TemporaryDirectory() as folder, contextlib.redirect_stdout(io.StringIO()):
            path = Path(folder) / "speed.svg"
            self.assertEqual(cli.main([f"--from={NUMBERS}", f"--chart={path}"]), 0)
            made = "bench/real --from docs/speed.json --chart docs/pictures/speed.svg"
            self.assertTrue(path.read_text() == (DOCS / "pictures/speed.svg").read_text(), made)


if __name__ == "__main__":
    unittest.main()
