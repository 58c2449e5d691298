"""The command hb_shape over a stand-in for the program: its own words, and the line that it adds to a fault."""

import contextlib
import io
import os
import subprocess
import sys
import tempfile
import unittest
from pathlib import Path
from unittest import mock

from support import TOOLS, write_files, write_stand_in

from building.places import PROGRAM, Place, standing
from common.faults import WORDS, ToolFault
from common.version import version
from shaping import command
from shaping.options import OPTIONS
from shaping.program_words import PROGRAM_OPTIONS, files_of, usage, word_fault
from sources.crates import ROOT

# Words that the program refuses, and what is said of them.
REFUSED = {
    "": "TABLES is missing: hb_shape [options] TABLES FONT TEXT",
    "a b": "TEXT is missing: hb_shape [options] TABLES FONT TEXT",
    "a b c d": "'d': a fourth file: hb_shape [options] TABLES FONT TEXT",
    "--directon=l a b c": "--directon=l: no such option; is --direction meant? (tools/hb_shape --help)",
    "-x a b c": "-x: no such option (tools/hb_shape --help)",
    "a b c --bot=1": "--bot: it takes no value: '1'",
    "a b c --bot --bot": "--bot: given twice",
    "a b c --features": "--features: its value is missing: --features=F",
    "--features -liga a b c": "--features: its value is missing: --features=F",
    "--direction=x a b c": "--direction: a direction begins with l, r, t or b (ltr, rtl, ttb, btt): 'x'",
    "--cluster-level=4 a b c": "--cluster-level: a cluster level is 0, 1, 2 or 3: '4'",
    "--lines a b c --slices": "--slices: with --lines there are none",
    "a --keep-going b c": "--keep-going: it takes --lines too",
    "\udcff b c": "'\\udcff': no UTF-8",
}
TAKEN = (
    "a b c", "--bot a b c --slices", "a -- --b c", "--features=-liga --features kern=2 a b c", "--direction rtl a b -",
    "--keep-going a --lines b -",
)  # fmt: skip
TABLES, FONT = '{"splits":[],"classes":[]}', '{"upem":1000,"cmap":[]}'


class Words(unittest.TestCase):
    def test_refused(self) -> None:
        self.assertEqual({words: word_fault(words.split()) for words in REFUSED}, REFUSED)

    def test_taken(self) -> None:
        self.assertEqual([word_fault(words.split()) for words in TAKEN], [None] * len(TAKEN))
        self.assertEqual(files_of("a -- --b c".split()), ["a", "--b", "c"])

    def test_list(self) -> None:
        """The help has each option of the program, and the list those of shape that are the program's."""
        names = {option.name for option in PROGRAM_OPTIONS}
        self.assertLessEqual({option.name for option in OPTIONS if not option.is_own}, names)
        self.assertEqual([name for name in names if f"  --{name}" not in usage()], [])

    @unittest.skipUnless(standing(PROGRAM).is_current(), "needs the program (tools/build)")
    def test_program(self) -> None:
        """The program itself takes and refuses the same words."""
        given = {
            name: str(ROOT / "examples" / file)
            for name, file in zip("abc", ("tables.json", "ligature_font.json", "ligature_text.txt"))
        }
        program = standing(PROGRAM).file
        for words in (*REFUSED, *TAKEN[:2], *TAKEN[3:]):
            line = [os.fsencode(given.get(word, word)) for word in words.split()]
            ran = subprocess.run([program, *line], stdin=subprocess.DEVNULL, capture_output=True, check=False)
            self.assertEqual(ran.stderr, b"hb_shape: words\n" if words in REFUSED else b"", words)


class Commands(unittest.TestCase):
    def setUp(self) -> None:
        folder = tempfile.TemporaryDirectory()
        self.addCleanup(folder.cleanup)
        self.folder = Path(folder.name)
        write_files(self.folder, {"tables": TABLES, "font": FONT, "text": "ab\n", "status": "0"})
        body = 'printf "%s\\n" "$@" > words; exit $(cat status)'
        self.program = Path(write_stand_in(self.folder / "program", body))
        os.mkfifo(self.folder / "pipe")
        here = os.getcwd()
        os.chdir(self.folder)
        self.addCleanup(os.chdir, here)
        for patch in (
            mock.patch.object(command, "ready_program", lambda name, target: self.program),
            mock.patch.object(command, "is_ready", lambda target: True),
        ):
            patch.start()
            self.addCleanup(patch.stop)

    def told(self, status: int, *words: str) -> str:
        """What is told where the program ends with a status, which has to be the command's."""
        (self.folder / "status").write_text(str(status))
        with contextlib.redirect_stderr(io.StringIO()) as told:
            self.assertEqual(command.main([*words]), status)
        self.assertEqual((self.folder / "words").read_text().splitlines(), [*words])
        return told.getvalue()

    def test_words(self) -> None:
        """After the program's own line one names the word."""
        self.assertEqual(
            self.told(WORDS, "--bot", "tables"), "hb_shape: FONT is missing: hb_shape [options] TABLES FONT TEXT\n"
        )
        line = "hb_shape: these words are refused: hb_shape [options] TABLES FONT TEXT (tools/hb_shape --help)\n"
        self.assertEqual(self.told(WORDS, "tables", "font", "text"), line)

    def test_files(self) -> None:
        """A file that can't be read, and why; a pipe is not waited for."""
        rows = (
            (("tables", "font", "none"), "TEXT: none: No such file or directory"),
            (("tables", ".", "text"), "FONT: .: Is a directory"),
            (("none", "none", "text"), "TABLES: none: No such file or directory"),
            (("pipe", "font", "none"), "TEXT: none: No such file or directory"),
        )
        for words, line in rows:
            self.assertEqual(self.told(6, *words), f"hb_shape: {line}\n")
        self.assertEqual(self.told(6, "tables", "font", "-"), "")
        self.assertEqual(self.told(6, "tables", "-", "-"), "hb_shape: FONT: -: No such file or directory\n")

    def test_values(self) -> None:
        """Where tables or font break their format."""
        write_files(
            self.folder, {"cut": '{"h":[[1,2],', "order": '{"upem":1,"h":[[2,1],[1,1]]}', "empty": "", "list": "[]"}
        )
        rows = (
            (("tables", "cut", "text"), "FONT: cut: no JSON at line 1, column 13 (byte 12)"),
            (("tables", "order", "text"), "FONT: order: h[1]: 1 is not above 2: [1, 1]"),
            (("list", "font", "text"), "TABLES: list: no object at the top"),
            (("tables", "empty", "text"), "FONT: empty: nothing can be read from it"),
        )
        for words, line in rows:
            self.assertTrue(self.told(3, *words).startswith(f"hb_shape: {line}"), words)

    def test_text(self) -> None:
        """The byte at which the text is no UTF-8, also where a character lies across two pieces that are read."""
        (self.folder / "text").write_bytes(b"a\xc3(")
        self.assertEqual(self.told(4, "tables", "font", "text"), "hb_shape: TEXT: text: no UTF-8 at byte 1\n")
        (self.folder / "-").write_bytes(b"\xff")
        self.assertEqual(self.told(4, "tables", "font", "-"), "")
        with mock.patch("shaping.reasons.PIECE", 3):
            for content, at in (("aaäbbä".encode() + b"\xff", 8), ("aaä".encode()[:-1], 2), (b"\xf0\x9f\x98", 0)):
                (self.folder / "text").write_bytes(content)
                self.assertEqual(
                    self.told(4, "tables", "font", "text"), f"hb_shape: TEXT: text: no UTF-8 at byte {at}\n"
                )
            (self.folder / "text").write_bytes("ä😀".encode() * 3)
            self.assertEqual(self.told(4, "tables", "font", "text"), "")

    def test_swapped(self) -> None:
        """Tables and font that stand for each other are told also where the program gives a line."""
        write_files(self.folder, {"odd": '{"classes":[],"upem":1}', "none": "{}"})
        line = "FONT (tables) has no upem and has classes, a key of TABLES: are the two swapped?"
        self.assertIn(f"hb_shape: {line}", self.told(0, "font", "tables", "text"))
        line = "TABLES (font) has upem, a key of FONT, and none of TABLES: are the two swapped?"
        self.assertIn(f"hb_shape: {line}", self.told(0, "font", "none", "text"))
        for words in (
            ("tables", "font"),
            ("none", "font"),
            ("none", "none"),
            ("odd", "font"),
            ("tables", "pipe"),
            ("no", "font"),
        ):
            self.assertEqual(self.told(0, *words, "text"), "", words)

    def test_named(self) -> None:
        """A file whose key `format` is that of the other one is told, whatever else it has."""
        fonts = '{"format":"kuspveli-font","upem":1,"classes":[]}'
        tables = '{"format":"kuspveli-tables","upem":1,"classes":[]}'
        write_files(self.folder, {"a_font": fonts, "some_tables": tables, "plain": '{"upem":1,"classes":[]}'})
        line = "FONT (some_tables) has kuspveli-tables as its format: are the two swapped?"
        for files in (("a_font", "some_tables"), ("plain", "some_tables")):
            self.assertIn(f"hb_shape: {line}", self.told(0, *files, "text"))
        line = "TABLES (a_font) has kuspveli-font as its format: are the two swapped?"
        for files in (("a_font", "a_font"), ("a_font", "plain")):
            self.assertIn(f"hb_shape: {line}", self.told(0, *files, "text"))
        for files in (("some_tables", "a_font"), ("some_tables", "plain"), ("plain", "a_font"), ("plain", "plain")):
            self.assertEqual(self.told(0, *files, "text"), "", files)
        # Where the program refuses a file, the name of its format comes before its rows.
        line = "FONT: some_tables: format: 'kuspveli-tables', and 'kuspveli-font' is wanted"
        self.assertIn(line, self.told(3, "plain", "some_tables", "text"))

    def test_own_words(self) -> None:
        """Help and version are answered without a program."""
        with mock.patch.object(command, "ready_program", None):
            for word, begin in (
                ("--help", "usage: hb_shape"),
                ("-h", "usage: "),
                ("--version", f"Kuspveli {version()}\n"),
            ):
                with contextlib.redirect_stdout(io.StringIO()) as shown:
                    self.assertEqual(command.main(["a", word]), 0)
                self.assertTrue(shown.getvalue().startswith(begin), shown.getvalue())

    def test_wrong_words(self) -> None:
        """Wrong words begin no build."""
        with mock.patch.object(command, "is_ready", lambda target: False), mock.patch.object(command, "ready_program", None):
            self.assertRaisesRegex(ToolFault, "FONT is missing", command.main, ["tables"])

    def test_ended(self) -> None:
        """A program that a signal ends gives the status that a shell gives."""
        write_stand_in(self.program, "kill -9 $$")
        self.assertEqual(command.main(["tables", "font", "text"]), 137)

    def test_terminated(self) -> None:
        """A signal to the command ends the program too."""
        write_stand_in(self.program, "echo begun; exec sleep 60")
        run = (
            f"from shaping.command import run; from pathlib import Path; sys.exit(run(Path({str(self.program)!r}), []))"
        )
        words = [sys.executable, "-c", f"import sys; sys.path.insert(0, {str(TOOLS)!r}); {run}"]
        with subprocess.Popen(words, stdout=subprocess.PIPE) as ran:
            # The program ends its output as it ends.
            self.assertEqual((ran.stdout or io.BytesIO()).readline(), b"begun\n")
            ran.terminate()
            self.assertEqual((ran.stdout or io.BytesIO()).read(), b"")
            self.assertEqual(ran.wait(), 143)


class Versions(unittest.TestCase):
    def test_programs(self) -> None:
        """Each program that is built, by which kit, and whether its sources still stand here."""
        with tempfile.TemporaryDirectory() as name:
            root = Path(name)
            files = {
                "crates.txt": "hb_shape:\n",
                "crates/hb_shape/src/main.rt": "",
                "out/hb_shape": "",
                "out/unproved/hb_shape": "",
            }
            write_files(root, files)
            places = [Place(PROGRAM, is_proved, root) for is_proved in (True, False)]
            with mock.patch.object(command, "Place", lambda target, is_proved: Place(target, is_proved, root)):
                self.assertEqual(
                    command.told_version(PROGRAM),
                    [f"Kuspveli {version()}", "no proved hb_shape is built (tools/build builds it)"],
                )
                for place, sources in zip(places, ("another", "sources")):
                    with mock.patch("building.places.stamp_of", lambda *_: "sources"):
                        place.write_stamp(sources, "kit 1")
                os.utime(root / "crates.txt")
                with mock.patch("building.places.stamp_of", lambda *_: "sources"):
                    told = command.told_version(PROGRAM)
        self.assertEqual(told[1], "out/hb_shape: proved by kit 1, of other sources than stand here now")
        self.assertEqual(told[2], "out/unproved/hb_shape: unproved, compiled by kit 1")

    def test_one_version(self) -> None:
        self.assertRegex(version(), r"^\d+\.\d+\.\d+$")
        ran = subprocess.run([TOOLS / "hb_shape", "--version"], capture_output=True, text=True, check=True)
        self.assertEqual(ran.stdout.splitlines()[0], f"Kuspveli {version()}")


if __name__ == "__main__":
    unittest.main()
