"""What a client sets of characters' glyphs, and of what is invisible or not found, beside HarfBuzz's own calls."""

import ctypes
import ctypes.util
import random
import unittest
from pathlib import Path
from typing import Any, Optional

from support import DEJAVU, DEVANAGARI, NASKH, NOTO, needs_fonts
from test_python import built, module

HARFBUZZ = ctypes.util.find_library("harfbuzz")
NOMINAL = ctypes.CFUNCTYPE(
    ctypes.c_int, ctypes.c_void_p, ctypes.c_void_p, ctypes.c_uint32, ctypes.POINTER(ctypes.c_uint32), ctypes.c_void_p
)
VARIATION = ctypes.CFUNCTYPE(
    ctypes.c_int, ctypes.c_void_p, ctypes.c_void_p, ctypes.c_uint32, ctypes.c_uint32, ctypes.POINTER(ctypes.c_uint32),
    ctypes.c_void_p,
)  # fmt: skip
# A client's map: sequences of one character, or of a character and its selector, with glyphs or without.
Map = dict[str, Optional[int]]
# Faces with texts of their scripts; U+FE00 is a variation selector, U+200B and U+2060 are default ignorables, U+05D0,
# U+0915 and U+4E00 are in one face or none.
FACES: tuple[tuple[str, tuple[str, ...]], ...] = (
    (DEJAVU, ("office", "a\u0301e\u0301\u0328", "a\u200bb\u2060c", "x\ufe00y", "\u4e00\u0915a", "\u1e69\u0323", "\u2011\u2003.")),
    (NASKH, ("\u0633\u0644\u0627\u0645", "\u0628\u064e\u0651", "\u0644\u200c\u0627\u200b", "\u0645\ufe00\u0628 \u4e00", "\u0622\u0623")),
    (DEVANAGARI, ("\u0915\u094d\u0937", "\u0915\u093f \u0958", "\u0930\u094d\u0915\u200d", "\u05d0\u0915\ufe01", "\u0929\u094d")),
    (NOTO + "NotoSerif-Regular.ttf", ("affin", "\u00e9\u0323x", "\u200bfi\u00ad", "a\ufe0f\u20dd", "\ue000\u0378")),
)  # fmt: skip


class Other:
    """A font of HarfBuzz with a client's map over the font's own, in font units."""

    def __init__(self, file: bytes) -> None:
        self.calls = ctypes.CDLL(HARFBUZZ)
        for name in ("blob_create", "face_create", "font_create", "font_create_sub_font", "font_funcs_create", "buffer_create"):
            getattr(self.calls, f"hb_{name}").restype = ctypes.c_void_p
        for name in ("infos", "positions"):
            getattr(self.calls, f"hb_buffer_get_glyph_{name}").restype = ctypes.POINTER(ctypes.c_int32 * 5)
        self.file, self.map, self.invisible, self.not_found = file, Map(), 0, 0
        blob = ctypes.c_void_p(self.calls.hb_blob_create(file, len(file), 0, None, None))
        face = ctypes.c_void_p(self.calls.hb_face_create(blob, 0))
        self.parent = ctypes.c_void_p(self.calls.hb_font_create(face))
        self.font = ctypes.c_void_p(self.calls.hb_font_create_sub_font(self.parent))
        functions = ctypes.c_void_p(self.calls.hb_font_funcs_create())
        self.kept = (NOMINAL(self.nominal), VARIATION(self.variation))
        self.calls.hb_font_funcs_set_nominal_glyph_func(functions, self.kept[0], None, None)
        self.calls.hb_font_funcs_set_variation_glyph_func(functions, self.kept[1], None, None)
        self.calls.hb_font_set_funcs(self.font, functions, None, None)
        self.end = lambda: [
            getattr(self.calls, f"hb_{name}_destroy")(made)
            for name, made in (
                ("font_funcs", functions), ("font", self.font), ("font", self.parent), ("face", face), ("blob", blob)
            )
        ]  # fmt: skip

    def nominal(self, _font: Any, _data: Any, character: int, glyph: Any, _user: Any) -> int:
        sequence = chr(character)
        return self.given(self.map[sequence] if sequence in self.map else self.own_glyph(sequence), glyph)

    def variation(self, _font: Any, _data: Any, character: int, selector: int, glyph: Any, _user: Any) -> int:
        sequence = chr(character) + chr(selector)
        return self.given(self.map[sequence] if sequence in self.map else self.own_glyph(sequence), glyph)

    def given(self, found: Optional[int], glyph: Any) -> int:
        # Where there is none, the not-found glyph stays that HarfBuzz has put there.
        if found is None:
            return 0
        glyph[0] = found
        return 1

    def own_glyph(self, sequence: str) -> Optional[int]:
        """The font's own glyph of a character, or of a character and its selector."""
        glyph, given = ctypes.c_uint32(), [ctypes.c_uint32(ord(character)) for character in sequence]
        name = "nominal" if len(given) == 1 else "variation"
        has = getattr(self.calls, f"hb_font_get_{name}_glyph")(self.parent, *given, ctypes.byref(glyph))
        return glyph.value if has else None

    def shape(self, text: str, flags: int = 0) -> list[tuple[int, ...]]:
        """Each glyph with its cluster and position."""
        buffer = ctypes.c_void_p(self.calls.hb_buffer_create())
        characters = (ctypes.c_uint32 * len(text))(*map(ord, text))
        self.calls.hb_buffer_add_utf32(buffer, characters, len(text), 0, len(text))
        self.calls.hb_buffer_guess_segment_properties(buffer)
        self.calls.hb_buffer_set_flags(buffer, flags)
        self.calls.hb_buffer_set_invisible_glyph(buffer, self.invisible)
        self.calls.hb_buffer_set_not_found_glyph(buffer, self.not_found)
        self.calls.hb_shape(self.font, buffer, None, 0)
        count = ctypes.c_uint()
        infos = self.calls.hb_buffer_get_glyph_infos(buffer, ctypes.byref(count))
        positions = self.calls.hb_buffer_get_glyph_positions(buffer, None)
        found = [(infos[i][0], infos[i][2], *positions[i][:4]) for i in range(count.value)]
        self.calls.hb_buffer_destroy(buffer)
        return found


def drawn_map(draw: random.Random, text: str, glyphs: int) -> Map:
    """Glyphs of some characters of a text, of sequences of it, and of characters that decompose to it."""
    found: Map = {}
    for character in draw.sample(text, draw.randint(1, len(text))):
        found[character] = draw.choice((None, draw.randrange(glyphs), draw.randrange(glyphs)))
    for selector in "\ufe00\ufe01\ufe0f":
        found[draw.choice(text) + selector] = draw.choice((None, draw.randrange(glyphs)))
    found[draw.choice(" \u25cc\u00e1\u2010\u4e00")] = draw.choice((None, draw.randrange(glyphs)))
    return found


@unittest.skipUnless(built(), "no library is built: tools/build_library, or tools/build_library --unproved")
@unittest.skipUnless(HARFBUZZ, "needs libharfbuzz0b")
class ClientGlyphs(unittest.TestCase):
    def setUp(self) -> None:
        self.binding = module(built())

    def own(self, font: Any, text: str, flags: int = 0) -> list[tuple[int, ...]]:
        glyphs = font.shape(text, clusters="characters", flags=flags)
        return [(one.number, one.cluster, one.x_advance, one.y_advance, one.x_offset, one.y_offset) for one in glyphs]

    def beside(self, path: str) -> tuple[Any, Other]:
        file = Path(path).read_bytes()
        font, other = self.binding.Font(file), Other(file)
        self.addCleanup(font.close)
        self.addCleanup(other.end)
        return font, other

    @needs_fonts
    def test_maps(self) -> None:
        """Drawn maps of some characters and sequences: the glyphs and positions are those that HarfBuzz has for a font with
        functions that answer this map, and else the font's own."""
        draw, told = random.Random(5), 0
        for path, texts in FACES:
            font, other = self.beside(path)
            for text in texts:
                if self.own(font, text) != other.shape(text):
                    continue
                for _ in range(40):
                    given = drawn_map(draw, text, 200)
                    before: Map = {name: other.own_glyph(name) for name in given}
                    other.map = given
                    font.set_glyphs(given)
                    wanted = other.shape(text)
                    self.assertEqual(self.own(font, text), wanted, (path, text, given))
                    told += wanted != plain(other, text)
                    font.set_glyphs(before)
                    other.map = {}
                    self.assertEqual(self.own(font, text), other.shape(text), (path, text, "own again"))
        self.assertGreater(told, 300)

    @needs_fonts
    def test_replacements(self) -> None:
        """Drawn glyphs for what is invisible and for what is not found, with each request for default ignorables."""
        draw, told = random.Random(6), 0
        for path, texts in FACES:
            font, other = self.beside(path)
            for text in texts:
                for flags in (0, 4, 8):
                    other.invisible = other.not_found = 0
                    font.set_invisible_glyph(None)
                    font.set_not_found_glyph(0)
                    first = other.shape(text, flags)
                    if self.own(font, text, flags) != first:
                        continue
                    for _ in range(8):
                        other.invisible, other.not_found = draw.randrange(300), draw.randrange(65536)
                        font.set_invisible_glyph(other.invisible)
                        font.set_not_found_glyph(other.not_found)
                        wanted = other.shape(text, flags)
                        self.assertEqual(self.own(font, text, flags), wanted, (path, text, flags))
                        told += wanted != first
        self.assertGreater(told, 100)

    @needs_fonts
    def test_handles(self) -> None:
        """Another handle has the same replacements, and a font with one takes no map."""
        font, _ = self.beside(DEJAVU)
        font.set_not_found_glyph(7)
        with font.another() as other:
            self.assertEqual([glyph.number for glyph in other.shape("\u4e00")], [7])
            other.set_not_found_glyph(8)
            self.assertEqual([glyph.number for glyph in font.shape("\u4e00")], [7])
            with self.assertRaisesRegex(self.binding.Fault, "SharedFont"):
                font.set_glyphs({"a": 3})
        font.set_glyphs({"a": 3})
        self.assertEqual(font.nominal_glyph("a"), 3)

    @needs_fonts
    def test_refused(self) -> None:
        """A list with a glyph that no font has changes nothing, and other words are refused by name."""
        font, _ = self.beside(DEJAVU)
        own = font.nominal_glyph("a")
        for refused in (font.set_invisible_glyph, font.set_not_found_glyph, lambda glyph: font.set_glyphs({"a": 3, "b": glyph})):
            with self.assertRaisesRegex(self.binding.Fault, "NoGlyph"):
                refused(65536)
            self.assertRaises(ValueError, refused, -1)
            self.assertRaises(TypeError, refused, "a")
        with self.assertRaisesRegex(self.binding.Fault, "NoCharacter"):
            font.set_glyphs({"a": 3, "\ud800": 4})
        for words in ("", "abc"):
            self.assertRaises(ValueError, font.set_glyphs, {words: 1})
        self.assertRaises(TypeError, font.set_glyphs, {7: 1})
        self.assertEqual(font.nominal_glyph("a"), own)
        font.set_glyphs({})
        font.set_glyphs({"a": 65535, "b": None})
        self.assertEqual((font.nominal_glyph("a"), font.nominal_glyph("b")), (65535, None))

    @needs_fonts
    def test_many(self) -> None:
        """A map of some thousand characters, in an order of chance, is found character by character."""
        font, _ = self.beside(DEJAVU)
        characters = [chr(number) for number in range(0, 0x20000, 29) if not 0xD800 <= number < 0xE000]
        given: Map = {character: (ord(character) * 7) % 65521 for character in characters}
        shuffled = random.Random(7).sample(sorted(given), len(given))
        font.set_glyphs({character: given[character] for character in shuffled})
        for character in characters:
            self.assertEqual(font.nominal_glyph(character), given[character])
        self.assertIsNone(font.nominal_glyph("\U0002f000"))


def plain(other: Other, text: str) -> list[tuple[int, ...]]:
    """The text without the client's map."""
    kept, other.map = other.map, {}
    found = other.shape(text)
    other.map = kept
    return found


if __name__ == "__main__":
    unittest.main()
