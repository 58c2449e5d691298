"""bench/lines: its texts, what is left of a time, and lines over several processes in their order."""

import shutil
import tempfile
import unittest
from pathlib import Path
from unittest import mock

from support import BENCH, write_stand_in  # noqa: F401  (it puts the tools and bench/ on the path)

from beside import lines_cli
from beside.lines_cli import FARM, farmed, past, write_lines


class Lines(unittest.TestCase):
    def setUp(self) -> None:
        folder = tempfile.TemporaryDirectory()
        self.addCleanup(folder.cleanup)
        self.folder = Path(folder.name)

    def test_texts(self) -> None:
        """As many lines as are wanted, the same ones each time, none of which is longer than a block allows for."""
        short, long = self.folder / "short", self.folder / "long"
        write_lines(short, 20)
        write_lines(long, 500)
        lines = long.read_bytes().splitlines(keepends=True)
        self.assertEqual((len(lines), short.read_bytes()), (500, b"".join(lines[:20])))
        self.assertLess(max(map(len, lines)), lines_cli.LONGEST)

    def test_past(self) -> None:
        """The least times of both count."""
        times = {Path("one"): iter(((3.0, 1.0), (2.0, 2.0))), Path("many"): iter(((9.0, 6.0), (7.5, 8.0)))}
        self.assertEqual(past(lambda text: next(times[text]), Path("one"), Path("many"), 2), (5.5, 5.0))
        times = {Path("one"): iter(((3.0,),)), Path("many"): iter(((9.0,),))}
        self.assertEqual(past(lambda text: next(times[text]), Path("one"), Path("many"), 1), (6.0,))

    @unittest.skipUnless(shutil.which(FARM), f"needs {FARM}")
    def test_farm(self) -> None:
        """Each process has one block, and the lines are in their order; a program that drops one is found."""
        with mock.patch.object(lines_cli, "JOBS", (1, 3)):
            program = write_stand_in(self.folder / "program", f"echo >>{self.folder}/runs; sed 's/$/!/'")
            said, is_same = farmed([program], self.folder, 300, 1)
            self.assertTrue(is_same, said)
            # One without the farm, and for so many processes those of a line each and those of the text.
            self.assertEqual(len((self.folder / "runs").read_text()), 1 + 2 * (1 + 3))
            program = write_stand_in(self.folder / "program", "sed 1d")
            said = "300 lines: 3 processes print other lines than one"
            self.assertEqual(farmed([program], self.folder, 300, 1), (said, False))


if __name__ == "__main__":
    unittest.main()
