"""The README's pictures: with the glyphs of the lines beside them, and the same when they are drawn anew."""

import contextlib
import io
import tempfile
import unittest
import xml.etree.ElementTree as tree
from pathlib import Path
from unittest import mock

from support import TOOLS

from building.places import PROGRAM, standing
from common.faults import ToolFault
from shaping import pictures

README = (TOOLS.parent / "README.md").read_text(encoding="utf-8")
TITLE = "{http://www.w3.org/2000/svg}title"


class Pictures(unittest.TestCase):
    def test_files(self) -> None:
        """Each is shown in the README beside its line of glyphs, whose names stand in it in their order."""
        for file, *_ in pictures.PICTURES:
            titles = [each.text or "" for each in tree.parse(pictures.FOLDER / file).iter(TITLE)]
            names = [title.split(" (")[0] for title in titles if ", cluster " in title]
            self.assertIn(f"docs/pictures/{file}", README)
            lines = [
                line
                for line in README.splitlines()
                if "|" in line and [part.split("=")[0].strip() for part in line.split("|")] == names
            ]
            self.assertEqual(len(lines), 1, names)

    def test_missing(self) -> None:
        """A font that is not there is named with its package, before anything is drawn."""
        none = [("a.svg", Path("/none.ttf"), "fonts-none", "a")]
        with mock.patch.object(pictures, "PICTURES", none):
            self.assertRaisesRegex(ToolFault, "apt-get install fonts-none: /none.ttf", pictures.main, [])

    @unittest.skipUnless(standing(PROGRAM).is_current(), "needs the program (tools/build)")
    @unittest.skipUnless(all(font.is_file() for _, font, _, _ in pictures.PICTURES), "needs the fonts")
    def test_anew(self) -> None:
        with tempfile.TemporaryDirectory() as folder, contextlib.redirect_stdout(io.StringIO()) as shown:
            with contextlib.redirect_stderr(io.StringIO()):
                self.assertEqual(pictures.main([f"--into={folder}"]), 0)
            for file, *_ in pictures.PICTURES:
                made, kept = (Path(place) / file for place in (folder, pictures.FOLDER))
                self.assertTrue(made.read_text() == kept.read_text(), f"{file}: tools/pictures draws it anew")
        for line in shown.getvalue().splitlines():
            self.assertIn(line, README)


if __name__ == "__main__":
    unittest.main()
