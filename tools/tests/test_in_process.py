"""Many cases in one process: the stream, what is told of stand-ins for shape_trials, and bugs that are planted."""

import hashlib
import os
import re
import tempfile
import unittest
from pathlib import Path
from unittest import mock

from support import told_by, write_stand_in

from building.places import TRIALS, Place
from building.tree import lay_tree
from common.faults import ToolFault
from fuzzing import cli, in_process
from fuzzing.in_process import Ran, line_of, run_stream, wrong_cases
from fuzzing.plants import PLANTS, plant
from fuzzing.streams import CASES, FONTS, SETTINGS, TEXTS, Block, case_of, cut_cycles
from sources.crates import ROOT

# A stand-in that says of each case that it is right, of some that they are wrong.
RIGHT = "n=$(grep -c '^text '); echo $n cases, $n tested, 0 breaks, 0 unsure, 0 wrong"
WRONG = """n=$(grep -c '^text ')
if [ $n -gt 1 ]; then echo wrong 3 flags; echo wrong 70 levels; else echo wrong 0 flags; fi
echo $n cases, $n tested, 0 breaks, 0 unsure, 2 wrong; exit 1"""


class Streams(unittest.TestCase):
    """What the program reads."""

    def test_lines(self) -> None:
        """A block has its tables, then each font, each settings and their texts, each on a line of its own."""
        lines = Block(1, 5).stream().split(b"\n")
        kinds = [line.split(b" ")[0].decode() for line in lines]
        font = ["font", *(["words"] + ["text"] * TEXTS) * SETTINGS]
        self.assertEqual(kinds, ["tables", *font * FONTS, ""])
        self.assertEqual(kinds.count("text"), CASES)
        for line in lines:
            line.decode("utf-8")

    def test_a_case_is_that_of_its_block(self) -> None:
        """A case that is drawn alone is the one that stands in the stream."""
        lines = Block(3, 2).stream().split(b"\n")
        texts = [line for line in lines if line.startswith(b"text ")]
        for at in (0, 1, 31, 32, 255, 256, 1000, CASES - 1):
            case = case_of(3, 2 * CASES + at)
            tables, font, words, text, end = case.stream().split(b"\n")
            self.assertEqual((tables, text, end), (lines[0], texts[at], b""))
            self.assertIn(words, lines)
            self.assertIn(font, lines)
            self.assertEqual(case.font, 2 * FONTS + at // (SETTINGS * TEXTS))

    def test_glyphs_are_below_the_number(self) -> None:
        """The number of glyphs of a font is above each glyph that its characters have."""
        for number in range(20):
            case = case_of(number, number)
            self.assertTrue(case.face.startswith(b"{"))
            self.assertGreater(case.count, 2)

    def test_cycles_are_cut(self) -> None:
        """A context calls only lookups after it."""
        rule = [[], [1], [], [[0, 0], [0, 1], [0, 2]]]
        lookups = [{"type": "single"}, {"type": "chain", "subtables": [{"rules": [rule]}]}, {"type": "single"}]
        cut_cycles({"gpos": {"lookups": lookups}})
        self.assertEqual(rule[3], [[0, 2]])


class Told(unittest.TestCase):
    """The whole tool, over stand-ins for the program."""

    def setUp(self) -> None:
        self.folder = Path(self.enterContext(tempfile.TemporaryDirectory()))

    def told(self, body: str, *words: str) -> tuple[int, str]:
        program = write_stand_in(self.folder / "program", body)
        return told_by(cli.main, "--in-process", f"--program={program}", f"--keep={self.folder}", *words)

    def test_right_cases(self) -> None:
        """Whole blocks are counted, up to the number of cases."""
        status, told = self.told(RIGHT, "--cases=3000", "--jobs=2")
        self.assertEqual(status, 0)
        self.assertIn(f"seed 1: {2 * CASES:,} cases in {2 * FONTS} fonts, ", told)
        self.assertIn(": 0 wrong", told)

    def test_wrong_cases(self) -> None:
        """Each has a line with what shows it again, and there it is wrong again."""
        status, told = self.told(WRONG, "--cases=1", "--seed=9", f"--first={2 * CASES}")
        self.assertEqual(status, 1)
        first, second, last, _ = told.split("\n")
        self.assertTrue(first.startswith("wrong: flags: seed 9, font 16, text "), first)
        self.assertTrue(first.endswith(f": tools/fuzz --in-process --seed=9 --case={2 * CASES + 3}"), first)
        self.assertIn("wrong: levels", second)
        self.assertTrue(last.endswith(": 2 wrong"), last)
        status, told = self.told(WRONG, "--seed=9", f"--case={2 * CASES + 3}")
        again, shown, _ = told.split("\n")
        self.assertEqual((status, again), (1, first))
        self.assertTrue(shown.startswith("tools/hb_shape "))
        self.assertEqual((self.folder / f"trial-{2 * CASES + 3}" / "text.txt").read_text(), case_of(9, 2 * CASES + 3).text)

    def test_cases_that_end_the_program(self) -> None:
        """The case of a signal or a fault is found, and named as another wrong one."""
        for body, what in [
            ("kill -SEGV $$", "signal 11"),
            ("echo 'shape_trials: Read' >&2; exit 6", "status 6 shape_trials: Read"),
        ]:
            status, told = self.told(body, "--cases=1")
            self.assertEqual(status, 1)
            self.assertIn(f"wrong: {what}: seed 1, font 0, ", told)

    def test_a_case_without_end(self) -> None:
        """The program is stopped by its processor time, and not by the clock."""
        with mock.patch.object(in_process, "PATIENCE", 1):
            status, told = self.told("while :; do :; done", "--cases=1")
            self.assertEqual(status, 1)
            self.assertIn("wrong: no end: seed 1, font 0, ", told)
            slow = Path(write_stand_in(self.folder / "slow", f"sleep 3; {RIGHT}"))
            self.assertIsNone(run_stream(slow, b"text a\n").ending)

    def test_lines_of_a_run(self) -> None:
        """What the program prints of wrong cases."""
        self.assertEqual(list(wrong_cases(["wrong 3 flags", "4 cases, 4 tested, 9 breaks, 0 unsure, 1 wrong"])), [(3, "flags")])
        self.assertEqual(run_stream(Path("/bin/true"), b""), Ran("status 0", []))
        case = case_of(1, 0)
        self.assertIn("tools/fuzz --in-process --seed=1 --case=0", line_of(1, case, "plan"))


# The sum of the first cases of the first seed for which the table was written. Where cases are drawn in another way it
# is another one, and so may be those that find the plants: run `tools/fuzz --plant=NAME` for each, and write them down.
DRAWN = "6eafd1ba4c9b98e82509546dc8378eb6e465655aaa6d37018c0864fafefdf974"


def documented() -> dict[str, tuple[str, int]]:
    """For each plant of the table in docs/TOOLS_FOR_DEVELOPERS.md the promise and the first seed's case that find it."""
    text = (ROOT / "docs" / "TOOLS_FOR_DEVELOPERS.md").read_text(encoding="utf-8")
    rows = re.findall(r"^\| `(\w+)` \| .+ \| `(\w+)` \| ([\d,]+) \|$", text, re.MULTILINE)
    return {name: (promise, int(case.replace(",", ""))) for name, promise, case in rows}


class Planted(unittest.TestCase):
    """Bugs in copies of the sources."""

    def test_documented_cases(self) -> None:
        """Each plant has the case that finds it, of cases that are drawn as they were then."""
        self.assertEqual(list(documented()), list(PLANTS))
        self.assertEqual(hashlib.sha256(Block(1, 0).stream() + Block(1, 1).stream()).hexdigest(), DRAWN)

    def test_plants_have_their_places(self) -> None:
        """Each stands in the sources as they are, changes them, and is planted once alone."""
        for name in PLANTS:
            with tempfile.TemporaryDirectory() as folder:
                tree = Path(folder) / "tree"
                lay_tree(ROOT, tree, Place(TRIALS, False, ROOT).lines())
                plant(tree, name)
                self.assertNotEqual((tree / PLANTS[name].file).read_text(), (ROOT / PLANTS[name].file).read_text())
                self.assertRaises(ToolFault, plant, tree, name)

    @unittest.skipUnless(os.environ.get("KUSPVELI_LONG"), "compiles shape_trials six times (KUSPVELI_LONG=1)")
    def test_plants_are_found(self) -> None:
        """Each of them, by the documented case of the first seed."""
        for name, (promise, case) in documented().items():
            status, told = told_by(cli.main, f"--plant={name}")
            self.assertEqual(status, 0, told)
            self.assertTrue(told.startswith(f"{name}: found by case {case}: wrong: {promise}: "), told)


@unittest.skipUnless(Place(TRIALS, False).is_current(), "needs shape_trials (tools/fuzz --in-process)")
class Run(unittest.TestCase):
    """The program itself."""

    def test_no_case_is_wrong(self) -> None:
        """The first block of a seed."""
        status, told = told_by(cli.main, "--in-process", "--cases=1")
        self.assertEqual(status, 0, told)


if __name__ == "__main__":
    unittest.main()
