"""The carets of ligatures that fonts give, beside HarfBuzz."""

import ctypes
import ctypes.util
import io
import logging
import struct
import unittest
from pathlib import Path

from support import NOTO, needs_fonts
from test_python import FILE, built, module

HARFBUZZ = ctypes.util.find_library("harfbuzz")
MOST = 64
# Of two styles of Latin, and of Arabic: lists with one caret and with several for a ligature.
FACES = ("NotoSerif-Regular.ttf", "NotoSerif-Italic.ttf", "NotoKufiArabic-Regular.ttf", "NotoSansHebrew-Regular.ttf")


def of_harfbuzz(file: bytes, glyphs: int) -> list[list[int]]:
    """The carets of each glyph of a font, in font units, as hb_ot_layout_get_ligature_carets answers them."""
    library = ctypes.CDLL(HARFBUZZ)
    for name in ("hb_blob_create", "hb_face_create", "hb_font_create"):
        getattr(library, name).restype = ctypes.c_void_p
    blob = ctypes.c_void_p(library.hb_blob_create(file, len(file), 0, None, None))
    face = ctypes.c_void_p(library.hb_face_create(blob, 0))
    font = ctypes.c_void_p(library.hb_font_create(face))
    found = []
    for glyph in range(glyphs):
        count, carets = ctypes.c_uint(MOST), (ctypes.c_int32 * MOST)()
        library.hb_ot_layout_get_ligature_carets(font, 4, glyph, 0, ctypes.byref(count), carets)
        found.append(list(carets[: count.value]))
    for end, made in (("font", font), ("face", face), ("blob", blob)):
        getattr(library, f"hb_{end}_destroy")(made)
    return found


def table(lists: bytes, at: int = 12) -> bytes:
    """GDEF with nothing but a ligature caret list."""
    return struct.pack(">HHHHHH", 1, 0, 0, 0, at, 0) + lists


def values(*rows: tuple[int, ...]) -> bytes:
    """A ligature's table with these caret values."""
    first = 2 + 2 * len(rows)
    offsets, made = [], b""
    for row in rows:
        offsets.append(first + len(made))
        made += struct.pack(f">H{len(row) - 1}h", *row)
    return struct.pack(f">H{len(rows)}H", len(rows), *offsets) + made


def caret_list(*ligatures: bytes, glyphs: tuple[int, ...] = (1, 2)) -> bytes:
    """A list of ligatures' tables for glyphs, with a coverage of format 1 at its end."""
    first = 4 + 2 * len(ligatures)
    offsets, made = [], b""
    for ligature in ligatures:
        offsets.append(first + len(made))
        made += ligature
    head = struct.pack(f">HH{len(offsets)}H", first + len(made), len(offsets), *offsets)
    return head + made + struct.pack(f">HH{len(glyphs)}H", 1, len(glyphs), *glyphs)


# Each list for the glyphs 1 and 2 with what it gives: in each format, negative and of no format; offsets that are null or
# past the end; fewer ligatures than glyphs; no list.
LISTS: tuple[tuple[str, bytes, list[list[int]]], ...] = (
    ("one and several", table(caret_list(values((1, 250)), values((1, 200), (1, 400)))), [[250], [200, 400]]),
    ("hinted", table(caret_list(values((3, 250, 0), (1, -7)), values((3, 5, 0)))), [[250, -7], [5]]),
    ("a point", table(caret_list(values((2, 3), (1, 400)), values((9, 100)))), [[0, 400], [0]]),
    ("null offsets", table(struct.pack(">HHHH", 8, 2, 0, 16) + struct.pack(">HHHH", 1, 2, 1, 2) + struct.pack(">HH", 1, 0)), [[], [0]]),
    ("a ligature past the end", table(caret_list(values((1, 250))[:4], b"")[:10] + struct.pack(">HHHH", 1, 2, 1, 2)), []),
    ("a value past the end", table(caret_list(values((1, 250)), struct.pack(">HH", 1, 999))), [[250], [0]]),
    ("fewer ligatures", table(caret_list(values((1, 250)))), [[250], []]),
    ("no list", table(b"", at=0), [[], []]),
    ("a list past the end", table(b"", at=99), [[], []]),
)


def with_table(made: bytes) -> bytes:
    """The font file of three glyphs with a GDEF."""
    from fontTools.ttLib import TTFont
    from fontTools.ttLib.tables.DefaultTable import DefaultTable

    # The file was made in 1970, of which fontTools warns.
    logging.getLogger("fontTools").setLevel(logging.ERROR)
    font, to = TTFont(io.BytesIO(FILE)), io.BytesIO()
    added = DefaultTable("GDEF")
    added.data = made
    font["GDEF"] = added
    font.save(to)
    return to.getvalue()


@unittest.skipUnless(built(), "no library is built: tools/build_library, or tools/build_library --unproved")
@unittest.skipUnless(HARFBUZZ, "needs libharfbuzz0b")
class LigatureCarets(unittest.TestCase):
    def setUp(self) -> None:
        self.binding = module(built())

    def carets_of(self, file: bytes, glyphs: int) -> list[list[int]]:
        with self.binding.Font(file) as font:
            return [font.ligature_carets(glyph) for glyph in range(glyphs)]

    @needs_fonts
    def test_faces(self) -> None:
        """Each glyph of fonts with lists has HarfBuzz's carets, and some glyphs have several."""
        for name in FACES:
            file = (Path(NOTO) / name).read_bytes()
            found = self.carets_of(file, 4000)
            self.assertEqual(found, of_harfbuzz(file, 4000), name)
            self.assertTrue(any(found), name)

    @needs_fonts
    def test_lists(self) -> None:
        """Lists of each form, and broken ones."""
        for name, made, wanted in LISTS:
            file = with_table(made)
            found = self.carets_of(file, 3)
            if wanted:
                self.assertEqual(found, [[], *wanted], name)
            self.assertEqual(found, of_harfbuzz(file, 3), name)

    @needs_fonts
    def test_texts(self) -> None:
        """Where a ligature has as many carets as there are stops they stand there, from the left edge of the ligature, and else
        they divide it."""
        with self.binding.Font.open(Path(NOTO) / "NotoSerif-Regular.ttf") as font:
            glyphs = font.shape("affi", clusters="characters")
            [ligature] = [glyph for glyph in glyphs if glyph.cluster == 1]
            own, left = font.ligature_carets(ligature.number), glyphs[0].x_advance
            self.assertEqual(len(own), 2)
            rows = [(0, 0), (1, left), (2, left + own[0]), (3, left + own[1]), (4, left + ligature.x_advance)]
            self.assertEqual(font.carets([1, 2, 3, 4]), rows)
            self.assertEqual(font.carets([2]), [*rows[:2], (2, left + (ligature.x_advance + 1) // 2), rows[4]])


if __name__ == "__main__":
    unittest.main()
