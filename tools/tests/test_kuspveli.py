"""The program kuspveli over font files, its command, and what tools read of a font file without fontTools."""

import contextlib
import io
import os
import re
import shutil
import struct
import subprocess
import tempfile
import unittest
from pathlib import Path
from unittest import mock

from support import NOTO, write_stand_in
from test_corpus import DEJAVU, DIFFERENCES, corpus

from building.places import KUSPVELI, standing
from common.faults import DATA, FILES, TEXT, WORDS, ToolFault
from common.version import version
from formats.sfnt import FontTables, is_font_file
from shaping import cli, command
from shaping.program_words import KUSPVELI as WORDS_OF
from shaping.program_words import files_of, word_fault
from sources.crates import ROOT

SANS = f"{DEJAVU}DejaVuSans.ttf"
OWN = str(ROOT / "crates" / "kuspveli_program" / "data" / "font.ttf")
COLLECTION = "/usr/share/fonts/opentype/noto/NotoSansCJK-Regular.ttc"
SHAPED = "f_i=0+520\n"
USAGE = WORDS_OF.usage
# Words that the program refuses, and what its command says of them.
REFUSED = {
    "": f"FONT is missing: {USAGE}",
    "a b c": f"'c': a text after TEXT: {USAGE}",
    "--index=1 a": "--index=1: no such option",
    "--face=x a": "--face: an index of a font is a number, from 0 on: 'x'",
    "--face=65540 a": "--face: an index of a font is a number, from 0 on: '65540'",
    "--face a": "--face: an index of a font is a number, from 0 on: 'a'",
    "--features -liga a": "--features: its value is missing: --features=F",
    "--features=kern=x a": "--features: no feature: 'kern=x'; features are as -liga, kern=2 or ss01[3:5], with commas: 'kern=x'",
    "--features=liga,k;rn a": "--features: no feature: 'k;rn'; features are as -liga, kern=2 or ss01[3:5], with commas: 'liga,k;rn'",
    "--features=kern=4294967296 a": "--features: 'kern=4294967296': a value is at most 4294967295 (HarfBuzz takes 0 here)",
    "--features=liga,kern=9223372036854775808 a": "--features: 'kern=9223372036854775808': a value is at most 4294967295: ",
    "--features=liga[0:4294967297] a": "a bound is from -2147483648 to 2147483647 (HarfBuzz takes 1 here)",
    "--lines a --slices": "--slices: with --lines there are none",
    "a --keep-going": "--keep-going: it takes --lines too",
    "a --bot --bot": "--bot: given twice",
}
TAKEN = (
    "a", "a b", "--face=0 a b", "a -- --b", "--lines --keep-going a", "--face 65539 a",
    "--features=kern=4294967295,liga[-2147483648:2147483647]=0007 a",
)  # fmt: skip


def own_words(words: str) -> str | None:
    return word_fault(words.split(), WORDS_OF)


class Words(unittest.TestCase):
    def test_refused(self) -> None:
        for words in REFUSED:
            self.assertIn(REFUSED[words], own_words(words) or "", words)
        self.assertEqual([own_words(words) for words in TAKEN], [None] * len(TAKEN))
        self.assertEqual(files_of(["a", "--", "--b"], WORDS_OF), ["a", "--b"])

    def test_usage(self) -> None:
        """What the program says of its words has each option, in lines that a terminal shows whole."""
        said = command.own_usage()
        self.assertEqual([name for name in WORDS_OF.options if f"--{name}" not in said], [])
        self.assertEqual([line for line in said.splitlines() if len(line) > 82], [])
        self.assertTrue(said.startswith(f"usage: {USAGE}\n"))

    def test_version(self) -> None:
        """The program's version is that of the file VERSION."""
        self.assertIn(f'"kuspveli {version()}\\n"', command.TEXTS.read_text(encoding="utf-8"))


class Commands(unittest.TestCase):
    """The command over a stand-in for the program."""

    def setUp(self) -> None:
        folder = tempfile.TemporaryDirectory()
        self.addCleanup(folder.cleanup)
        self.folder = Path(folder.name)
        body = f'cd {folder.name}; printf "%s\\n" "$@" > words; exit $(cat status)'
        program = Path(write_stand_in(self.folder / "program", body))
        self.enterContext(mock.patch.object(command, "ready_program", lambda name, target: program))
        self.enterContext(mock.patch.object(command, "is_ready", lambda target: True))

    def told(self, status: int, *words: str) -> str:
        (self.folder / "status").write_text(str(status))
        with contextlib.redirect_stderr(io.StringIO()) as told:
            self.assertEqual(command.font_main([*words]), status)
        self.assertEqual((self.folder / "words").read_text().splitlines(), [*words])
        return told.getvalue()

    def test_reasons(self) -> None:
        """After the program's own line one names the word, or says why the font can't be read."""
        self.assertEqual(self.told(0, "--face=1", OWN, "fi"), "")
        self.assertEqual(self.told(WORDS, "--bot"), f"kuspveli: FONT is missing: {USAGE}\n")
        line = f"kuspveli: these words are refused: {USAGE} (tools/kuspveli --help)\n"
        self.assertEqual(self.told(WORDS, OWN, "a"), line)
        self.assertEqual(self.told(FILES, "/none", "a"), "kuspveli: FONT: /none: No such file or directory\n")
        self.assertEqual(self.told(FILES, OWN), "")
        self.assertEqual(self.told(DATA, OWN, "a"), "")

    def test_no_font(self) -> None:
        """After the program's own line one says that a file is no font, or has none with the index."""
        path = self.folder / "font.ttf"
        for content, words, says in (
            (b"", [], "no font: the file is empty"),
            (b"This is a text.", [], "no TrueType or OpenType font"),
            (b"wOFF and more", ["--lines"], "a packed font (WOFF): tools/shape reads it"),
            (b"ttcf\0\1\0\0\0\0\0\2", ["--face=2"], "no font at index 2: the collection has 2, from index 0 on"),
            (b"ttcf\0\1\0\0\0\0\0\2", ["--face", "7"], "no font at index 7: the collection has 2, from index 0 on"),
            (b"\0\1\0\0 of one font", ["--face=1"], "no font at index 1: the file is no collection"),
        ):
            path.write_bytes(content)
            self.assertEqual(self.told(DATA, *words, str(path), "a"), f"kuspveli: FONT: {path}: {says}\n")

    def test_own(self) -> None:
        """Words that are wrong, and a request for help, begin no build."""
        with mock.patch.object(command, "is_ready", lambda target: False):
            self.assertRaisesRegex(ToolFault, "FONT is missing", command.font_main, [])
            with contextlib.redirect_stdout(io.StringIO()) as shown:
                self.assertEqual(command.font_main(["--help"]), 0)
            self.assertEqual(shown.getvalue(), command.own_usage())
        with contextlib.redirect_stdout(io.StringIO()) as shown:
            self.assertEqual(command.font_main(["--version"]), 0)
        self.assertTrue(shown.getvalue().startswith(f"Kuspveli {version()}\n"))


@unittest.skipUnless(standing(KUSPVELI).is_current(), "needs the program (tools/build kuspveli)")
class Program(unittest.TestCase):
    """The program itself."""

    def setUp(self) -> None:
        folder = tempfile.TemporaryDirectory()
        self.addCleanup(folder.cleanup)
        self.folder = Path(folder.name)

    def run_on(self, *words: str, text: bytes = b"") -> tuple[int, str, str]:
        """The status, what is printed and what is told."""
        full = [standing(KUSPVELI).file, *map(os.fsencode, words)]
        ran = subprocess.run(full, input=text, capture_output=True, check=False)
        return ran.returncode, ran.stdout.decode(), ran.stderr.decode()

    def test_texts(self) -> None:
        """A text among the words or on standard input, of which one line feed at the end is dropped; lines."""
        self.assertEqual(self.run_on(OWN, "fi"), (0, SHAPED, ""))
        self.assertEqual(self.run_on(OWN, text=b"fi\n"), (0, SHAPED, ""))
        self.assertEqual(self.run_on(OWN, ""), (0, "\n", ""))
        self.assertEqual(self.run_on("--face=0", "--features=-liga", OWN, "fi"), (0, "f=0+300|i=1+250\n", ""))
        self.assertEqual(self.run_on("--no-glyph-names", "--slices", OWN, "fi"), (0, "3=0+520\n0 2\n", ""))
        self.assertEqual(self.run_on("--lines", OWN, text=b"fi\ni\n"), (0, f"{SHAPED}i=0+250\n", ""))
        self.assertEqual(self.run_on(OWN, "--", "--f", "--features", "kern")[0], WORDS)
        kept = self.run_on("--lines", "--keep-going", OWN, text=b"\xff\nfi\n")
        self.assertEqual(kept, (TEXT, f"! NotUtf8\n{SHAPED}", "kuspveli: text: NotUtf8 line 1\n"))

    def test_own_words(self) -> None:
        self.assertEqual(self.run_on("--help"), (0, command.own_usage(), ""))
        self.assertEqual(self.run_on("-h", OWN, "a"), (0, command.own_usage(), ""))
        self.assertEqual(self.run_on("--version"), (0, f"kuspveli {version()}\n", ""))
        self.assertEqual(self.run_on("-V"), (0, f"kuspveli {version()}\n", ""))

    def test_words(self) -> None:
        """The program refuses the words that its command refuses."""
        for words in REFUSED:
            line = [OWN if word == "a" else word for word in words.split()]
            self.assertEqual(self.run_on(*line), (WORDS, "", "kuspveli: words\n"), words)
        self.assertEqual(self.run_on(OWN, "\udcff"), (WORDS, "", "kuspveli: words\n"))
        for words in TAKEN[1:4]:
            line = [OWN if word == "a" else word for word in words.split()]
            self.assertEqual(self.run_on(*line)[::2], (0, ""), words)

    def test_faults(self) -> None:
        """Each is one line with what it is about; a font's has the file, and table and offset where these are known."""
        whole = Path(OWN).read_bytes()
        cut, other, none = self.folder / "cut.ttf", self.folder / "other", str(self.folder / "none")
        cut.write_bytes(whole[:-200])
        other.write_bytes(b"no font at all")
        self.assertEqual(self.run_on(none, "a"), (FILES, "", f"kuspveli: {none}: Read\n"))
        self.assertEqual(self.run_on(str(self.folder), "a"), (FILES, "", f"kuspveli: {self.folder}: Read\n"))
        self.assertEqual(self.run_on(str(other), "a"), (DATA, "", f"kuspveli: {other}: F2 Kind at 0\n"))
        self.assertEqual(self.run_on("--face=1", OWN, "a"), (DATA, "", f"kuspveli: {OWN}: F4 Index\n"))
        status, shown, told = self.run_on(str(cut), "a")
        self.assertEqual((status, shown), (DATA, ""))
        self.assertRegex(told, rf"^kuspveli: {re.escape(str(cut))}: F1 Short( in \w+)? at \d+\n$")
        self.assertEqual(self.run_on(OWN, text=b"a\xff"), (TEXT, "", "kuspveli: text: NotUtf8\n"))
        with open("/dev/full", "w", encoding="ascii") as full:
            ran = subprocess.run(
                [standing(KUSPVELI).file, OWN, "fi"], stdout=full, stderr=subprocess.PIPE, text=True, check=False
            )
        self.assertEqual((ran.returncode, ran.stderr), (FILES, "kuspveli: output: Write\n"))

    @unittest.skipUnless(os.path.exists(COLLECTION), "needs fonts-noto-cjk")
    @unittest.skipUnless(shutil.which("hb-shape"), "needs hb-shape (libharfbuzz-bin)")
    def test_collection(self) -> None:
        """The font with an index of a collection, as hb-shape has it."""
        for index in ("0", "2"):
            words = ["--no-glyph-names", "--language=zh-Hans", COLLECTION, "骨直"]
            theirs = subprocess.run(["hb-shape", "--utf8-clusters", f"--face-index={index}", *words], capture_output=True, text=True, check=True)
            self.assertEqual(self.run_on("--face", index, *words), (0, theirs.stdout.strip("[]\n") + "\n", ""))

    @unittest.skipUnless(os.path.exists(f"{NOTO}NotoSans-Regular.ttf"), "needs fonts-noto-core")
    @unittest.skipUnless(shutil.which("hb-shape"), "needs hb-shape (libharfbuzz-bin)")
    def test_scripts(self) -> None:
        """Words of many scripts have the lines of hb-shape, by names and with boxes."""
        with tempfile.NamedTemporaryFile("w", encoding="utf-8") as file:
            for font, words in corpus().items():
                text = "".join(word + "\n" for word in words if word not in DIFFERENCES)
                file.seek(0)
                file.truncate()
                file.write(text)
                file.flush()
                for more in ([], ["--no-glyph-names", "--show-extents"]):
                    theirs = subprocess.run(["hb-shape", "--utf8-clusters", *more, f"--text-file={file.name}", font], capture_output=True, text=True, check=True)
                    lines = "".join(line.strip("[]") + "\n" for line in theirs.stdout.splitlines())
                    self.assertEqual(self.run_on("--lines", *more, font, text=text.encode()), (0, lines, ""), font)

    def test_shape(self) -> None:
        """The tool shape gives its lines, and has kept nothing of the font."""
        places = {"XDG_CACHE_HOME": str(self.folder / "cache")}
        with mock.patch.dict(os.environ, places), contextlib.redirect_stdout(io.StringIO()) as shown:
            self.assertEqual(cli.main([OWN, "fi"]), 0)
            self.assertEqual(cli.main([OWN, "fi", "--json"]), 0)
        self.assertEqual(shown.getvalue(), SHAPED + '[{"g":"f_i","cl":0,"dx":0,"dy":0,"ax":520,"ay":0}]\n')
        self.assertFalse((self.folder / "cache").exists())


class Sfnt(unittest.TestCase):
    def setUp(self) -> None:
        folder = tempfile.TemporaryDirectory()
        self.addCleanup(folder.cleanup)
        self.path = Path(folder.name) / "font"

    def font(self, subtable: bytes, encoding: tuple[int, int] = (3, 1)) -> FontTables:
        """A font with a table cmap of one subtable alone."""
        cmap = struct.pack(">HHHHL", 0, 1, *encoding, 12) + subtable
        self.path.write_bytes(struct.pack(">LH6x4s4xLL", 0x10000, 1, b"cmap", 28, len(cmap)) + cmap)
        return FontTables(self.path)

    def met(self, subtable: bytes, asked: str, encoding: tuple[int, int] = (3, 1)) -> str:
        characters = self.font(subtable, encoding).characters
        return "".join(each for each in asked if ord(each) in characters)

    def test_formats(self) -> None:
        """Characters of each format of cmap (OpenType, chapter 5, cmap); a glyph 0 is none."""
        segments = struct.pack(">7H2HH2H2H2HH", 4, 0, 0, 4, 0, 0, 0, 0x63, 0xFFFF, 0, 0x61, 0xFFFF, 0, 1, 4, 0, 7)
        self.assertEqual(self.met(segments, "`abd"), "a")
        deltas = struct.pack(">7H2HH2H2H2H", 4, 0, 0, 4, 0, 0, 0, 0x63, 0xFFFF, 0, 0x61, 0xFFFF, 0x10000 - 0x61, 1, 0, 0)
        self.assertEqual(self.met(deltas, "`abcd"), "bc")
        self.assertEqual(self.met(struct.pack(">5H3H", 6, 0, 0, 0x61, 3, 5, 0, 6), "`abcd"), "ac")
        self.assertEqual(self.met(struct.pack(">HHLLLLLL", 12, 0, 0, 0, 1, 0x1F600, 0x1F601, 0), "a\U0001f600\U0001f601", (3, 10)), "\U0001f601")
        self.assertEqual(self.met(struct.pack(">HHLLLLLL", 13, 0, 0, 0, 1, 0x61, 0x62, 9), "`abc", (3, 10)), "ab")
        self.assertEqual(self.met(struct.pack(">3H", 0, 0, 0) + bytes(0x61) + b"\1" + bytes(0x9E), "`ab", (0, 0)), "a")
        self.assertEqual(self.met(struct.pack(">5H3H", 6, 0, 0, 0xF061, 3, 5, 0, 6), "`abc", (3, 0)), "ac")

    def test_files(self) -> None:
        """Fonts and collections that are not compressed; what is cut short has no tables and no characters."""
        for start, is_font in ((b"\0\1\0\0", True), (b"OTTO", True), (b"true", True), (b"ttcf", True), (b"wOF2", False), (b"", False)):
            self.path.write_bytes(start)
            self.assertEqual(is_font_file(self.path), is_font, start)
            self.assertEqual(FontTables(self.path).places, {})
            self.assertNotIn(0x61, FontTables(self.path).characters)
        self.assertFalse(is_font_file(self.path / "none"))
        self.assertLessEqual({"cmap", "GSUB", "glyf"}, FontTables(Path(OWN)).places.keys())
        if os.path.exists(COLLECTION):
            self.assertIn(0x9AA8, FontTables(Path(COLLECTION), 2).characters)


if __name__ == "__main__":
    unittest.main()
