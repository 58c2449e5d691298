"""Damaged font files in one process: the cases, the kinds of damage, and what is told of stand-ins for shape_trials."""

import base64
import tempfile
import unittest
from pathlib import Path
from random import Random

from support import needs_fonts, needs_kuspveli, told_by, write_stand_in

from fuzzing import cli
from fuzzing.font_damage import KINDS, DamagedFont, damaged_font

# Stand-ins for the program: one that reads each font as a face, one that refuses each.
FACE = """while read -r kind rest; do
case $kind in font-bytes) echo face;; premises) echo premises kept;; esac; done"""
FAULT = FACE.replace("echo face", "echo fault F1 Short in cmap at 12")
# One that finds a wrong text in each font, one that ends by a signal at a font, one that ends by a signal at a text.
WRONG = FACE.replace("premises)", "words) echo wrong 3 flags;; premises)")
ENDING = FACE.replace("echo face", "kill -SEGV $$")
ENDING_LATER = FACE.replace("premises)", "text) exit 5;; premises)")


@needs_fonts
class Cases(unittest.TestCase):
    def test_case(self) -> None:
        """A case is the same again, and has a font, settings, twenty texts and a line that is answered."""
        from fuzzing.font_trials import FontCase

        for number in range(30):
            case, again = FontCase(3, number), FontCase(3, number)
            self.assertEqual((case.font, case.texts()), (again.font, again.texts()))
            kind, count, index, font = case.font_line().split(b" ")
            self.assertEqual((kind, int(count), int(index)), (b"font-bytes", 65536, case.font[1]))
            self.assertEqual(base64.b64decode(font), case.font[0])
            kinds = [line.split(b" ")[0] for line in case.texts().splitlines()]
            self.assertEqual(kinds, [b"words", *[b"text"] * 20, b"premises"])

    @needs_kuspveli
    def test_bases(self) -> None:
        """The fonts before damage have all types of lookups, those behind extensions too, and each is converted."""
        from fuzzing.font_bases import bases

        from fontjson.cli import read_font
        from fontjson.keep import Kept
        from common.notes import Notes

        types: dict[str, set[str]] = {"gsub": set(), "gpos": set()}
        with tempfile.NamedTemporaryFile(suffix=".ttf") as file:
            for base in dict.fromkeys(each.bytes for each in bases()):
                Path(file.name).write_bytes(base)
                value = read_font(file.name, 0, Kept(), Notes())
                for key, found in types.items():
                    found |= {lookup["type"] for lookup in value.get(key, {}).get("lookups", [])}
        self.assertLessEqual({"single", "multiple", "alternate", "ligature", "chain", "reverse"}, types["gsub"])
        self.assertLessEqual({"single", "pair", "cursive", "markbase", "marklig", "markmark", "chain"}, types["gpos"])

    def test_damage(self) -> None:
        """Each kind of damage ends with a file, also on what other damage has left, and mostly changes it."""
        from fuzzing.font_bases import bases

        for base in dict.fromkeys(each.bytes for each in bases()):
            for number, (kind, _) in enumerate(KINDS):
                font = DamagedFont(Random(number), base)
                for _ in range(3):
                    kind(font)
                self.assertNotEqual(bytes(font.bytes), base, kind)
            for number in range(20):
                font, index = damaged_font(Random(number), base)
                self.assertLess(index, 2)
                self.assertLessEqual(len(font), 2 * len(base))


@needs_fonts
class Memory(unittest.TestCase):
    def test_right(self) -> None:
        """Want of memory is told of the font, or ends the program; all else has to be as without a refusal."""
        from fuzzing.font_memory import Ended, is_right

        usual = Ended(0, b"face\n1 cases\n", b"")
        for ended in (
            usual,
            Ended(0, b"fault OutOfMemory in CFF\n1 cases\n", b""),
            Ended(5, b"", b"shape_trials: OutOfMemory\n"),
            Ended(6, b"face\n", b"shape_trials: Read\n"),
        ):
            self.assertTrue(is_right(ended, usual), ended)
        fault = b"fault F1 Short in cmap at 3\n"
        for ended in (Ended(0, b"face\n2 cases\n", b""), Ended(-11, b"", b""), Ended(0, fault, b"")):
            self.assertFalse(is_right(ended, usual), ended)


@needs_fonts
class Stands(unittest.TestCase):
    """What is told of stand-ins."""

    def setUp(self) -> None:
        folder = tempfile.TemporaryDirectory()
        self.addCleanup(folder.cleanup)
        self.folder = Path(folder.name)

    def told(self, body: str, *words: str) -> tuple[int, list[str]]:
        program = write_stand_in(self.folder / "shape_trials", body)
        given = ("--in-process", "--fonts", f"--program={program}", f"--keep={self.folder}", "--cases=3", *words)
        status, out = told_by(cli.main, *given)
        return status, out.splitlines()

    def test_right(self) -> None:
        """The counts of each end, the longest, and the memory."""
        for body, end in ((FACE, "face"), (FAULT, "fault F1 Short in cmap")):
            status, lines = self.told(body)
            self.assertEqual(status, 0, lines)
            self.assertRegex(lines[0], r"seed 1: 3 fonts in \d+ s, 0 wrong")
            self.assertEqual(lines[1].split(maxsplit=1), ["3", end])
            self.assertRegex(lines[2], r"longest: read in 0.\d+ s, case \d; texts shaped in [0-9.]+ s, case \d")
            self.assertRegex(lines[3], r"memory: [0-9,]+ KiB")

    def test_wrong(self) -> None:
        """A promise that a text breaks, and a program that ends, which is begun again for the next font."""
        for body, what in ((WRONG, "flags"), (ENDING, "signal 11"), (ENDING_LATER, "status 5")):
            status, lines = self.told(body)
            self.assertEqual(status, 1)
            again = "tools/fuzz --in-process --fonts --seed=1 --case="
            self.assertEqual(lines[:3], [f"wrong: {what}: {again}{at}" for at in range(3)])

    def test_one(self) -> None:
        """A case again, with its files."""
        status, [line] = self.told(WRONG, "--case=7")
        self.assertEqual(status, 1)
        self.assertIn(": flags: ", line)
        folder = self.folder / "font-7"
        self.assertEqual(sorted(path.name for path in folder.iterdir()), ["font.ttf", "lines"])
        self.assertEqual(self.told(FACE, "--case=7")[0], 0)


if __name__ == "__main__":
    unittest.main()
