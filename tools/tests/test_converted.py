"""Damaged fonts: nothing that font_to_json writes is refused by the program, and no small font makes a large value."""

import io
import os
import tempfile
import unittest
from pathlib import Path
from typing import Any

from support import needs_fonts, needs_kuspveli

from building.places import PROGRAM, standing
from common.notes import Notes
from fontjson.cli import read_font
from fontjson.keep import Kept
from fontTools.fontBuilder import FontBuilder
from fontTools.ttLib import TTFont
from fontTools.ttLib.tables._c_m_a_p import CmapSubtable
from formats.rules import font_faults
from fuzzing import converted
from hostile_fonts import plain, saved, with_tables, words

# The test of the project's own is over 10,000: tools/fuzz --fonts --cases=10000, or KUSPVELI_FONTS=10000 here.
CASES = int(os.environ.get("KUSPVELI_FONTS", "60"))


@needs_kuspveli
class Converted(unittest.TestCase):
    def setUp(self) -> None:
        self.folder = Path(self.enterContext(tempfile.TemporaryDirectory()))

    def value(self, font: bytes) -> dict[str, Any]:
        path = self.folder / "font.ttf"
        path.write_bytes(font)
        return read_font(str(path), 0, Kept(), Notes())

    @needs_fonts
    def test_damaged(self) -> None:
        place = standing(PROGRAM)
        program = place.file if place.is_current() else None
        ends = [converted.try_font(program, 2, number, self.folder) for number in range(CASES)]
        self.assertEqual([(number, wrong) for number, (_, wrong) in enumerate(ends) if wrong], [])
        self.assertGreater(sum(end == "written" for end, _ in ends), CASES // 4)

    def test_characters(self) -> None:
        """A glyph of 32 bits in a subtable of format 12 has no row."""
        font = TTFont(io.BytesIO(saved(plain())))
        table = CmapSubtable.newSubtable(12)
        table.platformID, table.platEncID, table.language, table.cmap = 3, 10, 0, {97: "a", 98: "b", 99: "b"}
        font["cmap"].tables = [table]
        data = bytearray(font["cmap"].compile(font))
        self.assertEqual(data[-4:], (2).to_bytes(4, "big"))
        data[-4:] = b"\xff" * 4
        self.assertEqual(self.value(with_tables({"cmap": bytes(data)}))["cmap"], [[97, 1], [98, 2]])

    def test_classes(self) -> None:
        """A list of classes from the last glyphs on goes past them (class definitions, format 1)."""
        classes = words(1, 65534, 3, 1, 2, 3)
        value = self.value(with_tables({"GDEF": words(1, 0, 12, 0, 0, 0) + classes}))
        self.assertEqual(value["gdef"]["classes"], [[65534, 1], [65535, 2]])
        self.assertEqual(list(font_faults(value)), [])

    def test_ascender(self) -> None:
        """Where hhea and OS/2's typographic one are 0, that of Windows is taken, at most what fits 16 bits with a sign."""
        for height in (32767, 32768):
            font = plain()
            FontBuilder(font=font).setupOS2(sTypoAscender=0, usWinAscent=height)
            font["hhea"].ascent = 0
            self.assertEqual(self.value(saved(font))["ascender"], 32767)


if __name__ == "__main__":
    unittest.main()
