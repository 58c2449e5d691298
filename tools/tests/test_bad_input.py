"""What is no font, or no text: one line on standard error, a status, and nothing on standard output."""

import random
import tempfile
import unittest
from pathlib import Path

from support import DEVANAGARI, NASKH, needs_fonts, needs_kuspveli, needs_unicode, run, told_lines

WORDS, DATA, TEXT, FILES = 2, 3, 4, 6


@needs_fonts
class BadInput(unittest.TestCase):
    def setUp(self) -> None:
        folder = tempfile.TemporaryDirectory()
        self.addCleanup(folder.cleanup)
        self.folder = Path(folder.name)

    def file(self, name: str, content: bytes) -> str:
        path = self.folder / name
        path.write_bytes(content)
        return str(path)

    def assert_refused(self, status: int, says: str, tool: str, *words: str | bytes) -> None:
        with self.subTest(tool=tool, words=words):
            result = run(tool, *words)
            line = told_lines(result.stderr)
            self.assertEqual(result.returncode, status, line)
            self.assertEqual(line.count("\n"), 1, line)
            self.assertTrue(line.startswith(f"{tool}: "), line)
            self.assertIn(says, line)
            self.assertEqual(result.stdout, b"")

    @needs_kuspveli
    def test_fonts(self) -> None:
        font = Path(NASKH).read_bytes()
        cases = [
            (DATA, "empty", self.file("empty.ttf", b"")),
            (DATA, "F2 Kind at 0: a version or format that is not known, or no font", self.file("text.ttf", b"This is a text.")),
            (DATA, "F1 Short at ", self.file("header.ttf", font[:6])),
            (DATA, "ends too early", self.file("list.ttf", font[:100])),
            (DATA, "ends too early", self.file("tables.ttf", font[: len(font) // 2])),
            (DATA, "F1 Short at ", self.file("collection.ttc", b"ttcf\0\1\0\0\0\0\0\1\0\0\0\x0c\0\1")),
            (FILES, "folder", str(self.folder)),
            (FILES, "No such file", str(self.folder / "missing.ttf")),
        ]
        for status, says, path in cases:
            self.assert_refused(status, says, "font_to_json", path)
            self.assert_refused(status, says, "shape", path, "text")

    @needs_kuspveli
    def test_damaged_fonts(self) -> None:
        """Bytes changed at random: a value or one line, never a traceback."""
        font = Path(DEVANAGARI).read_bytes()
        draw = random.Random(5)
        for number in range(12):
            damaged = bytearray(font)
            for _ in range(3 ** (number % 4)):
                damaged[draw.randrange(12, len(font))] = draw.randrange(256)
            result = run("font_to_json", "--quiet", self.file("damaged.ttf", bytes(damaged)))
            lines = told_lines(result.stderr).splitlines()
            self.assertNotIn("Traceback", "".join(lines))
            self.assertEqual((result.returncode, len(lines)) in ((0, 0), (DATA, 1)), True, lines)

    def test_words(self) -> None:
        self.assert_refused(WORDS, "FONT", "font_to_json")
        self.assert_refused(WORDS, "no key 'glyphs'", "font_to_json", "--only", "glyphs", NASKH)
        self.assert_refused(WORDS, "invalid int", "font_to_json", "--index", "x", NASKH)
        self.assert_refused(DATA, "no collection", "font_to_json", "--index", "1", NASKH)
        self.assert_refused(WORDS, "no key 'class'", "unicode_to_json", "--only", "class")
        self.assert_refused(FILES, "missing", "unicode_to_json", "--ucd", str(self.folder))
        self.assert_refused(WORDS, "--index", "shape", NASKH, "text", "--index", "first")

    def test_text(self) -> None:
        self.assert_refused(TEXT, "no UTF-8 at byte 1", "shape", NASKH, b"a\xc3(")

    @needs_unicode
    def test_unicode_files(self) -> None:
        """Files of the UCD that are cut, not UTF-8, or of several versions."""
        known = Path("/usr/share/unicode")
        for name in ("DerivedAge.txt", "DerivedNormalizationProps.txt", "BidiMirroring.txt"):
            self.file(name, (known / name).read_bytes())
        self.file("UnicodeData.txt", b"0041;LATIN CAPITAL LETTER A;Lu\n")
        self.assert_refused(DATA, "damaged", "unicode_to_json", "--only", "splits", "--ucd", str(self.folder))
        self.file("UnicodeData.txt", b"0041;\xff\n")
        self.assert_refused(DATA, "no UTF-8", "unicode_to_json", "--only", "splits", "--ucd", str(self.folder))
        self.file("UnicodeData.txt", (known / "UnicodeData.txt").read_bytes())
        self.file("BidiMirroring.txt", b"# BidiMirroring-14.0.0.txt\n0028; 0029\n")
        self.assert_refused(
            DATA, "several versions", "unicode_to_json", "--only", "pairs,mirrored", "--ucd", str(self.folder)
        )


if __name__ == "__main__":
    unittest.main()
