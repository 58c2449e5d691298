"""From a font file to a line: words, what the program is given, the cache, faults, and where it is built its lines."""

import contextlib
import errno
import importlib
import importlib.util
import io
import json
import os
import re
import shutil
import subprocess
import sys
import tempfile
import threading
import unittest
import xml.etree.ElementTree as tree
from pathlib import Path
from types import SimpleNamespace
from typing import Callable
from unittest import mock

from support import DEJAVU, NASKH, needs_kuspveli, run

from building.places import PROGRAM, standing
from common.faults import ToolFault
from common.version import version
from fontTools.ttLib import TTFont
from fontTools.ttLib.tables.DefaultTable import DefaultTable
from formats.rules import font_faults
from formats.where import font_fault, tables_fault
from shaping import cache, cli, converting
from shaping.converting import SHIPPED
from shaping.context import feature, load
from shaping.glyphs import Glyph, as_json, read_line, text_of
from shaping.locales import language_of
from shaping.options import OPTIONS, Given, read_words, usage
from shaping.picture import BASELINE, MARGIN, clusters_of, drawn_upem, picture, placed, width_of
from shaping.png import PIXELS, png
from shaping.svg import svg
from shaping.texts import Text, lack_notes, lacking
from shaping.verify import Promises

# Writes down its words and keeps the text. Texts, and with --lines the lines, that begin with 3 or 5 are refused, and those
# that begin with 6 end it for want of memory.
STAND_IN = """#!/bin/sh
for text; do :; done
printf '%s\\n' "$@" > "$SHAPE_TEST/words"
cp "$text" "$SHAPE_TEST/text"
line='82=0+1253|5044=1@-3,4+1980,7#1<1,2,3,-4>'
fail() { echo "hb_shape: $2" >&2; exit $1; }
case " $* " in
*' --lines '*)
    number=0 status=0
    while IFS= read -r name || [ -n "$name" ]; do
        number=$((number + 1))
        case "$name" in
            3*) fail 3 'U1 OutOfOrder';;
            5*) echo '! S2 TooLong'; [ $status = 0 ] && echo "hb_shape: S2 TooLong line $number" >&2; status=5;;
            6*) fail 5 OutOfMemory;;
            *) echo "$line";;
        esac
    done < "$text"
    exit $status;;
esac
case "$(tr -d '\\n' < "$text")" in
    3*) fail 3 'U1 OutOfOrder';;
    5*) fail 5 'S2 TooLong';;
esac
echo "$line"
"""
LINE = "82=0+1253|5044=1@-3,4+1980,7#1<1,2,3,-4>\n"
# The same with the names of DejaVu Sans, which the tool puts there.
NAMED = "o=0+1253|uniFB03=1@-3,4+1980,7#1<1,2,3,-4>\n"


def has_library() -> bool:
    """Whether the library is there."""
    with contextlib.redirect_stderr(io.StringIO()), contextlib.suppress(ToolFault):
        return bool(load())
    return False


@needs_kuspveli
class Commands(unittest.TestCase):
    """What a stand-in for the program is given, and what is made of what it prints."""

    def setUp(self) -> None:
        folder = tempfile.TemporaryDirectory()
        self.addCleanup(folder.cleanup)
        self.folder = Path(folder.name)
        stand_in = self.folder / "hb_shape"
        stand_in.write_text(STAND_IN)
        stand_in.chmod(0o755)
        self.font = self.folder / "fonts" / "font.ttf"
        self.font.parent.mkdir()
        shutil.copy(DEJAVU, self.font)
        self.cache = self.folder / "cache" / "kuspveli"
        places = {"SHAPE_TEST": folder.name, "XDG_CACHE_HOME": str(self.folder / "cache")}
        ready = mock.patch.object(cli, "ready_program", lambda name: stand_in)
        patches = [
            ready,
            mock.patch.object(cli, "is_read_by_program", lambda given: False),
            mock.patch.object(converting, "ready_program", lambda name, target: standing(target).file),
            mock.patch.object(converting, "TABLES_READ", ["thai"]),
        ]
        for patch in (*patches, mock.patch.dict(os.environ, places)):
            patch.start()
            self.addCleanup(patch.stop)

    def shape(self, *words: str) -> tuple[int, str, str]:
        """The status, what is printed, and what is told."""
        with contextlib.redirect_stderr(io.StringIO()) as told, contextlib.redirect_stdout(io.StringIO()) as shown:
            status = cli.main([str(self.font), *words])
        return status, shown.getvalue(), told.getvalue()

    def words(self) -> list[str]:
        """The words that the program got last."""
        return (self.folder / "words").read_text().splitlines()

    def kept(self) -> Path:
        [font] = self.cache.glob("*-font.ttf.0.json")
        return font

    def test_words(self) -> None:
        status, shown, _ = self.shape("-x\n", "--direction=r", "--index=0", "--features", "-liga", "--features=kern")
        self.assertEqual((status, shown), (0, NAMED))
        numbers = "--no-glyph-names"
        self.assertEqual(self.words()[:4], ["--direction=r", "--features=-liga", "--features=kern", numbers])
        self.assertEqual(self.words()[4:6], [str(self.cache / "tables.json"), str(self.kept())])
        self.assertEqual((self.folder / "text").read_bytes(), b"-x\n\n")
        self.shape("--language", "ur_PK.UTF-8", "--text=--bot")
        self.assertEqual(self.words()[0], "--language=ur-PK")
        self.assertEqual((self.folder / "text").read_bytes(), b"--bot\n")

    def test_locale(self) -> None:
        """Without a language that of the locale is taken; one that is given stays."""
        with mock.patch("locale.setlocale", return_value="tr_TR.UTF-8"):
            self.shape("a")
            self.assertIn("--language=tr-TR", self.words())
            self.shape("a", "--language=de")
            self.assertEqual([word for word in self.words() if word.startswith("--language")], ["--language=de"])
        with mock.patch("locale.setlocale", return_value="C.UTF-8"):
            self.shape("a")
            self.assertFalse(any(word.startswith("--language") for word in self.words()))

    def test_font(self) -> None:
        """The font is valid, and has the keys of the format, in their order; nothing is written beside it."""
        self.shape("a")
        value = json.loads(self.kept().read_text())
        self.assertEqual(list(font_faults(value)), [])
        keys = [key for key in converting.FONT_READ.keys if key in value]
        self.assertEqual(list(value), ["cache", "format", *keys, "told", "end"])
        self.assertLessEqual({"cmap", "h", "gdef", "gsub", "gpos"}, set(value))
        self.assertEqual(os.listdir(self.font.parent), ["font.ttf"])

    def test_texts(self) -> None:
        """Each line of a file is a text; a fault tells its line, and the others are shaped."""
        texts = self.folder / "texts"
        texts.write_bytes("a\n\n5long\nü".encode())
        status, shown, told = self.shape(f"--text-file={texts}")
        self.assertEqual((status, shown), (5, NAMED * 3))
        self.assertEqual(told.splitlines()[-1], f"shape: {texts}: line 3: S2 TooLong")
        self.assertEqual(self.words()[-6:-3], ["--no-glyph-names", "--lines", "--keep-going"])
        texts.write_bytes(b"a\nb\n")
        self.assertEqual(self.shape(f"--text-file={texts}")[:2], (0, NAMED * 2))
        texts.write_bytes(b"")
        self.assertEqual(self.shape(f"--text-file={texts}")[:2], (0, ""))

    def test_short_memory(self) -> None:
        """The lines that a run did not come to share its fault."""
        texts = self.folder / "texts"
        texts.write_bytes(b"a\n6\nb\n")
        status, shown, told = self.shape(f"--text-file={texts}")
        self.assertEqual((status, shown), (5, NAMED))
        says = [f"shape: {texts}: line {number}: OutOfMemory" for number in (2, 3)]
        self.assertEqual(told.splitlines()[-2:], says)

    def test_cache(self) -> None:
        """Made once; anew where the font changes, or the kept value is cut, is another, or no JSON."""
        self.shape("a")
        kept = self.kept()
        made = kept.stat().st_ino
        self.shape("b")
        self.assertEqual(kept.stat().st_ino, made)
        os.utime(self.font, (1, 1))
        self.shape("a")
        self.assertNotEqual(kept.stat().st_ino, made)
        whole = kept.read_bytes()
        for broken in (b"", b"{\n", b"\xff", b'{\n"cache":"x"}', whole[: len(whole) // 2], whole[:-3]):
            kept.write_bytes(broken)
            self.shape("a")
            json.loads(kept.read_text())
        kept.write_bytes(whole.replace(b'"upem":', b'"upem";'))
        status, _, told = self.shape("3")
        self.assertEqual(status, 3)
        json.loads(kept.read_text())
        self.assertEqual(sorted(self.cache.iterdir()), sorted([kept, self.cache / "tables.json"]))

    def test_two_runs(self) -> None:
        """Runs at once make the same files, and leave no others."""
        runs = [threading.Thread(target=cli.main, args=([str(self.font), "a"],)) for _ in range(3)]
        with contextlib.redirect_stdout(io.StringIO()) as shown, contextlib.redirect_stderr(io.StringIO()):
            for each in runs:
                each.start()
            for each in runs:
                each.join()
        self.assertEqual(shown.getvalue(), NAMED * 3)
        self.assertEqual(len(list(self.cache.iterdir())), 2)
        json.loads(self.kept().read_text())

    def test_long_names(self) -> None:
        """A file's name as long as the system has them, and an instance with many coordinates, are kept by their sums."""
        names = {cache.font_name(Path("x" * size + ".ttf"), 0) for size in (100, 200, 251)}
        place = {f"AX{number:02}": number + 0.5 for number in range(30)}
        names |= {cache.font_name(Path("x.ttf"), 0, {**place, "AX00": value}) for value in (1.0, 2.0)}
        self.assertEqual(len(names), 5)
        self.assertLess(max(map(len, names)), 200)
        self.font = self.font.rename(self.font.with_name("x" * 251 + ".ttf"))
        self.assertEqual(self.shape("a")[:2], (0, NAMED))

    def test_full_cache(self) -> None:
        """Where the cache's disk is full, values are made for the run alone."""
        real = cache.write_whole

        def full(path: Path, content: bytes) -> None:
            if path.parent == self.cache:
                raise OSError(errno.ENOSPC, "full", str(path))
            real(path, content)

        with mock.patch.object(cache, "write_whole", full):
            self.assertEqual(self.shape("a")[:2], (0, NAMED))
        self.assertEqual(list(self.cache.iterdir()), [])

    def test_link_for_cache(self) -> None:
        """A link in the place of the cache's folder is not followed."""
        other = self.folder / "other"
        other.mkdir(mode=0o755)
        self.cache.parent.mkdir()
        self.cache.symlink_to(other)
        self.assertEqual(self.shape("a")[:2], (0, NAMED))
        self.assertEqual((list(other.iterdir()), other.stat().st_mode & 0o777), ([], 0o755))

    def test_files_after_hyphens(self) -> None:
        """After -- words are a font and a text, whatever they begin with."""
        for words in (["--", str(self.font), "--bot"], ["--bot", "--", str(self.font), "-u"]):
            with contextlib.redirect_stderr(io.StringIO()), contextlib.redirect_stdout(io.StringIO()) as shown:
                self.assertEqual(cli.main(words), 0)
            self.assertEqual(shown.getvalue(), NAMED)
            self.assertEqual((self.folder / "text").read_text(), f"{words[-1]}\n")

    def test_no_units(self) -> None:
        """A font whose units of the em are none is drawn by 1,000, as HarfBuzz takes them."""
        self.assertEqual([drawn_upem(upem) for upem in (0, 15, 16, 2048, 16384, 16385)], [1000, 1000, 16, 2048, 16384, 1000])
        with TTFont(self.font) as font:
            font["head"].unitsPerEm = 0
            font.save(self.font)
        for kind in ("svg", "png") if importlib.util.find_spec("cairo") else ("svg",):
            self.assertEqual(self.shape("of", f"--{kind}={self.folder / 'of'}")[0], 0)

    def test_no_folder(self) -> None:
        """Without a folder that can be written, or a home, values are made for the run alone."""
        for place in ("/proc/nothing", str(self.font), "relative"):
            with mock.patch.dict(os.environ, {"XDG_CACHE_HOME": place}):
                self.assertEqual(self.shape("a")[:2], (0, NAMED))
        with mock.patch.dict(os.environ), mock.patch("os.path.expanduser", side_effect=lambda path: path):
            del os.environ["XDG_CACHE_HOME"]
            self.assertEqual(self.shape("a")[:2], (0, NAMED))
        self.assertFalse(self.cache.exists())

    def test_json(self) -> None:
        status, shown, _ = self.shape("of", "--json")
        self.assertIn("--no-glyph-names", self.words())
        first = '{"g":"o","cl":0,"dx":0,"dy":0,"ax":1253,"ay":0}'
        box = '"xb":1,"yb":2,"w":3,"h":-4'
        self.assertEqual(shown, f'[{first},{{"g":"uniFB03","cl":1,"dx":-3,"dy":4,"ax":1980,"ay":7,{box}}}]\n')

    def test_svg(self) -> None:
        path = self.folder / "of.svg"
        status, shown, _ = self.shape("of", f"--svg={path}")
        self.assertEqual((status, shown), (0, NAMED))
        titles = [each.text for each in tree.parse(path).iter("{http://www.w3.org/2000/svg}title")]
        self.assertEqual(titles[0], "o (82), cluster 0, advance 1253,0")
        self.assertIn("U+006F LATIN SMALL LETTER O", titles)

    @unittest.skipUnless(importlib.util.find_spec("cairo"), "needs python3-cairo")
    def test_png(self) -> None:
        path = self.folder / "of.png"
        self.assertEqual(self.shape("of", f"--png={path}")[:2], (0, NAMED))
        self.assertTrue(path.read_bytes().startswith(b"\x89PNG\r\n"))

    def test_no_cairo(self) -> None:
        """Without python3-cairo the fault names the package, and nothing is printed or written."""
        path = self.folder / "of.png"
        # What is read in meanwhile would be taken away again, which parts of fontTools don't stand.
        importlib.import_module("fontjson.check")
        with mock.patch.dict(sys.modules, {"cairo": None}), contextlib.redirect_stdout(io.StringIO()) as shown:
            with contextlib.redirect_stderr(io.StringIO()):
                self.assertRaisesRegex(ToolFault, "apt-get install python3-cairo", self.shape, "of", f"--png={path}")
        self.assertEqual((shown.getvalue(), path.exists()), ("", False))

    def test_lacking(self) -> None:
        status, shown, told = self.shape("aक")
        self.assertEqual((status, shown), (0, NAMED))
        self.assertIn("the text: the font lacks U+0915 DEVANAGARI LETTER KA (byte 1, character 2)\n", told)

    def test_json_font(self) -> None:
        """A font that is JSON is taken as it is; the fault of the program is told with its place."""
        font = self.folder / "font.json"
        font.write_text('{"upem":1000,\n"h":[[1,500],[1,600]]}\n')
        with contextlib.redirect_stderr(io.StringIO()) as told, contextlib.redirect_stdout(io.StringIO()):
            self.assertEqual(cli.main([str(font), "3"]), 3)
        self.assertIn(f"shape: {font}: U1 OutOfOrder: h[1]: 1 is not above 1: [1, 600]\n", told.getvalue())
        self.assertRaisesRegex(ToolFault, "no outlines", cli.main, [str(font), "a", "--svg=x"])
        font.write_text('{"format":"kuspveli-tables","upem":1000}')
        self.assertRaisesRegex(ToolFault, "format: 'kuspveli-tables', and", cli.main, [str(font), "a"])

    def test_input(self) -> None:
        """Without a text the lines of standard input are shaped; --show-text prints each before its glyphs."""
        given = io.TextIOWrapper(io.BytesIO("a\nü\n".encode()))
        with mock.patch("sys.stdin", given):
            self.assertEqual(self.shape("--show-text")[:2], (0, f"(a)\n{NAMED}(ü)\n{NAMED}"))
        missing = self.folder / "missing.ttf"
        with mock.patch("sys.stdin", given), self.assertRaises(FileNotFoundError):
            cli.main([str(missing)])

    def test_told(self) -> None:
        """What changes glyphs and is left out is told at each run, once a font; the rest when it is converted."""
        self.add_tables("morx")
        says = f"shape: {self.font}: left out, and it changes glyphs or positions: table morx\n"
        texts = self.folder / "texts"
        texts.write_text("a\nb\n")
        first, second = self.shape("a")[2], self.shape(f"--text-file={texts}")[2]
        advice = f"shape: {self.font}: what is left out below changes neither glyphs nor positions\n"
        self.assertIn(f"{advice}shape: {self.font}: left out: table MATH (1)\n", first)
        self.assertEqual((first.count(says), second), (1, says))

    def test_told_tables(self) -> None:
        """The tables of other shapers, each by its name; a table kern beside GPOS, which changes nothing, is not told."""
        tags = ("kerx", "mort", "morx", "trak", "Silf")
        self.assertIn("kern", TTFont(DEJAVU))
        self.shape("a")
        self.assertEqual(self.shape("a")[2], "")
        self.add_tables(*tags)
        self.shape("a")
        told = self.shape("a")[2].splitlines()
        self.assertEqual([line.rpartition(": ")[2] for line in told], [f"table {tag}" for tag in tags])

    def add_tables(self, *tags: str) -> None:
        """Puts tables into the font whose content nobody reads."""
        font = TTFont(DEJAVU)
        for tag in tags:
            font[tag] = DefaultTable(tag)
            font[tag].data = b"\0" * 8
        font.save(self.font)

    def test_whole_picture(self) -> None:
        """A picture has all fields, whatever is printed of them."""
        path = self.folder / "of.svg"
        self.shape("of", f"--svg={path}", "--no-advances", "--no-clusters")
        self.assertNotIn("--no-advances", self.words())
        self.assertIn("advance 1253,0", path.read_text())

    def test_verified(self) -> None:
        """A broken promise is a fault: this program prints no slices."""
        self.assertRaisesRegex(
            ToolFault, "a promise is broken: at cluster level 0 the slices don't join", self.shape, "of", "--verify"
        )

    def test_refused(self) -> None:
        """Words are read before anything is made; each fault names its word."""
        cases = {
            (): "the font is missing",
            ("font", "a", "b"): "more than one text is given: 'a', 'b'",
            ("font", "a", "--text-file=b"): "more than one text",
            ("font", "a", "--foo"): "--foo: no such option",
            ("font", "a", "--feature=kern"): "is --features meant?",
            ("font", "a", "--features"): "--features: its value is missing",
            ("font", "a", "--features=kern=1,toolong"): "no feature: 'toolong'",
            ("font", "a", "--features=kern=4294967301"): "'kern=4294967301': a value is at most 4294967295 \\(HarfBuzz takes 5",
            ("font", "a", "--json=1"): "--json: it takes no value",
            ("font", "a", "--direction=up"): "a direction begins with",
            ("font", "a", "--script=Arabic"): "a tag of four letters",
            ("font", "a", "--language="): "a language is a tag",
            ("font", "a", "--cluster-level=4"): "a cluster level is 0, 1, 2 or 3: '4'",
            ("font", "a", "--index=-1"): "an index is a number",
            ("font", "a", "--bot", "--bot"): "--bot: given twice",
            ("font", "a", "--script=Latn", "--script=Arab"): "--script: given twice",
            ("font", "-u", "61", "b"): "more than one text is given: 'b', 'a'",
            ("font", "-u61,110000"): "a list of characters is hexadecimal numbers",
            ("font", "-u", "D800"): "a list of characters is hexadecimal numbers",
            ("font", "a", "-O", "xml"): "a format is text or json: 'xml'",
            ("font", "a", "--variations=wght"): "--variations: no variation: 'wght'",
            ("font", "a", "--font-size=12"): "--font-size: glyphs are placed in units of the em",
            ("font", "a", "--font-ppem=12"): "--font-ppem: no sizes in pixels",
            ("font", "a", "--shapers=ot"): "--shapers: there is one shaper",
            ("font", "a", "-O", "json", "--svg=-"): "--svg=-: standard output takes one picture, or JSON",
            ("font.json", "a", "--png=x"): "--png: font.json has no outlines",
        }
        for words, says in cases.items():
            with self.subTest(words=words):
                self.assertRaisesRegex(ToolFault, says.replace("?", r"\?"), cli.main, list(words))
        self.assertFalse(self.cache.exists())

    def test_version(self) -> None:
        """The version, and which program shapes font files and which one JSON, or that none is built."""
        says = rf"\AKuspveli {re.escape(version())}\n.*\bkuspveli\b.*\n(.*\n)?.*\bhb_shape\b.*\n"
        for words in (["--version"], ["font", "a", "-V"]):
            with contextlib.redirect_stdout(io.StringIO()) as shown:
                self.assertEqual(cli.main(words), 0)
            self.assertRegex(shown.getvalue(), says)
        with contextlib.redirect_stdout(io.StringIO()) as shown:
            self.assertRaises(FileNotFoundError, cli.main, ["/none", "--", "-V"])
        self.assertEqual(shown.getvalue(), "")

    def test_help(self) -> None:
        for words in (["--help"], ["-h"], ["font", "--help"]):
            with contextlib.redirect_stdout(io.StringIO()) as shown:
                self.assertEqual(cli.main(words), 0)
            self.assertEqual(shown.getvalue(), usage() + "\n")
        self.assertTrue(all(f"--{option.name}" in usage() for option in OPTIONS))
        self.assertIn("examples:\n", usage())
        self.assertRegex(usage(), r"\n  --version +print the version")
        self.assertRegex(usage(), r"Clusters and the\nranges of features are bytes of the text in UTF-8")


@unittest.skipUnless(has_library(), "needs the library (tools/build_library)")
@unittest.skipUnless(shutil.which("hb-shape"), "needs hb-shape")
class Context(unittest.TestCase):
    """Texts with something before and after them, by the library, as hb-shape prints them."""

    def test_lines(self) -> None:
        cases = [
            ("\u0628", "--text-before=\u0633", "--text-after=\u0633"),
            ("\u0628\u0628", "--text-after=\u0633", "--show-extents", "--show-flags"),
            ("\u0628\u0644\u0627", "--text-before=\u0627", "--features=-rlig,liga[1:2]=0", "--no-advances"),
            ("\u0628\u0628", "--text-before=\u0633", "--direction=l", "--script=arab", "--language=ur", "--bot"),
        ]
        for text, *words in cases:
            command = ["hb-shape", "--utf8-clusters", "--no-glyph-names", *words, NASKH, text]
            theirs = subprocess.run(command, capture_output=True, text=True, check=True).stdout
            own = run("shape", "--no-glyph-names", *words, NASKH, text).stdout.decode()
            self.assertEqual(own.strip(), theirs.strip().strip("[]"), words)

    def test_faults(self) -> None:
        """A font that the library refuses is a fault of data with its place."""
        with tempfile.NamedTemporaryFile(suffix=".json") as file:
            file.write(b'{"h":[[1,500],[1,600]]}')
            file.flush()
            ran = run("shape", file.name, "a", "--text-before=b")
        self.assertEqual((ran.returncode, ran.stdout), (3, b""))
        self.assertIn(b"U1 OutOfOrder: h[1]: 1 is not above 1", ran.stderr)


class Settings(unittest.TestCase):
    def test_features(self) -> None:
        """Requests as the library takes them."""
        bindings = SimpleNamespace(Feature=lambda *given: given, GLOBAL_END=99)
        cases = {
            "kern": ("kern", 1, 0, 99), "-liga": ("liga", 0, 0, 99), "'ss01' = 2": ("ss01", 2, 0, 99),
            "kern[3]": ("kern", 1, 3, 4), "kern[3:5]=0": ("kern", 0, 3, 5), "+kern[:5]": ("kern", 1, 0, 5),
            "kern[3;]=on": ("kern", 1, 3, 99), "kern[]=off": ("kern", 0, 0, 99),
        }  # fmt: skip
        for text, expected in cases.items():
            self.assertEqual(feature(bindings, text), expected)

    def test_no_library(self) -> None:
        missing = {"KUSPVELI_LIBRARY": "/nowhere/libkuspveli.so"}
        with mock.patch.dict(os.environ, missing), mock.patch.dict(sys.modules):
            sys.modules.pop("kuspveli", None)
            self.assertRaisesRegex(ToolFault, "no such file is there: tools/build_library proves and builds it", load)


class Verified(unittest.TestCase):
    """Each promise is seen to be broken by a program that breaks it."""

    def broken(self, change: Callable[[str, list[str], list[str]], list[str]], text: str = "oé") -> list[str]:
        """What is told of a text that is a glyph for each character, whose lines are changed by level and options."""
        lines = ["1=0+5|2=1+6", "0 1", "1 3"]

        def run_level(_: Promises, level: str, more: list[str]) -> list[str]:
            return change(level, more, lines if "--slices" in more else lines[:1])

        with mock.patch.object(Promises, "run", run_level):
            given = Given(Path("f"), text)
            return list(Promises(mock.Mock(), Text(text.encode(), "the text"), given).broken())

    def test_kept(self) -> None:
        self.assertEqual(self.broken(lambda level, more, lines: lines), [])

    def test_broken(self) -> None:
        cases: dict[str, Callable[[str, list[str], list[str]], list[str]]] = {
            "cluster level 2 gives other glyphs": lambda level, more, lines: ["1=0+5"] if level == "2" else lines,
            "flags that are asked for change": lambda level, more, lines: ["1=0+5"] if len(more) == 3 else lines,
            "cluster 2 is no byte": lambda level, more, lines: ["1=0+5|2=2+6", *lines[1:]],
            "glyphs of cluster 0 have different flags": lambda level, more, lines: ["1=0+5|2=0+6#1", *lines[1:]],
            "at cluster level 1 the slices don't join": lambda level, more, lines: lines[: 2 if level == "1" else 3],
        }
        for says, change in cases.items():
            with self.subTest(says=says):
                found = self.broken(change)
                self.assertTrue(any(says in line for line in found), found)

    def test_not_promised(self) -> None:
        """Slices of Indic texts need not join."""
        self.assertEqual(self.broken(lambda level, more, lines: ["1=0+5"], "क"), [])
        self.assertEqual(len(self.broken(lambda level, more, lines: ["1=0+5"], "o")), 2)


class Parts(unittest.TestCase):
    """What the tool is made of."""

    def test_words(self) -> None:
        features = '-liga,"kern"[3;5] = 2'
        given = read_words(["a.ttf", "b", "--face-index", "2", "--no-glyph-names", "--features", features])
        self.assertEqual((given.font, given.text, given.own), (Path("a.ttf"), "b", {"font-index": "2"}))
        self.assertEqual(given.program, ["--no-glyph-names", f"--features={features}"])

    def test_text(self) -> None:
        result = run("shape", DEJAVU, b"a\xc3(")
        self.assertEqual(result.returncode, 4)
        self.assertIn(b"the text is no UTF-8 at byte 1 (0xC3), after 1 characters, the last U+0061", result.stderr)

    def test_lacking(self) -> None:
        """Nothing lacks what is hidden, a space, a hyphen, or what splits or composes to characters of the font."""
        has = set(map(ord, " ae\u0301é\u2010"))
        for text in ("a\u200d\ufe0f", "\u00a0\u2003", "\u2011", "á", "e\u0301"):
            self.assertEqual(list(lacking(text, has)), [], text)
        self.assertEqual(list(lacking("e\u0301", set(map(ord, "eé")))), [])
        self.assertEqual(list(lacking("a\u0301b", set(map(ord, "aéb")))), [(1, "\u0301")])
        notes = list(lack_notes(Text("éxyzuvw".encode(), "here"), has))
        self.assertEqual(notes[0], "here: the font lacks U+0078 LATIN SMALL LETTER X (byte 2, character 2)")
        self.assertEqual(notes[5:], ["here: the font lacks 1 characters more"])

    def test_glyphs(self) -> None:
        glyphs = read_line("3=0@1,-2+5|4=7+0,-9#3<1,2,3,4>\n")
        self.assertEqual(glyphs[0], Glyph(3, 0, 1, -2, 5, 0, 0, None))
        self.assertEqual(glyphs[1], Glyph(4, 7, 0, 0, 0, -9, 3, (1, 2, 3, 4)))
        self.assertEqual(read_line("\n"), [])
        self.assertEqual(read_line("o=0+1\n")[0], Glyph(0, 0, 0, 0, 1, 0, 0, None, "o"))
        bare = Given(Path("f"), "t", {}, ["--no-glyph-names", "--no-clusters", "--no-positions"])
        self.assertEqual(as_json(read_line("3|4"), {3: "three"}, bare), '[{"g":3},{"g":4}]')

    def test_places(self) -> None:
        """Where glyphs are drawn, and which characters each cluster has."""
        glyphs = read_line("1=3+5|2=3@1,2+0|3=0+7")
        self.assertEqual([(each.x, each.y) for each in placed(glyphs)], [(0, 0), (6, 2), (5, 0)])
        self.assertEqual(clusters_of("aéb", glyphs), {0: "aé", 3: "b"})

    def test_pictures(self) -> None:
        """Every SVG is well-formed, forward, backward and downward, without glyphs and with unknown numbers."""
        lines = ["82=0+1253|5044=1+1980", "3=2+5|4=0+6", "82=0@-626,-1751+0,-2384", "", "65535=0+100"]
        for line in lines:
            drawn = tree.fromstring(svg(picture(Path(DEJAVU), 0, [("o\u0001<", read_line(line))], line in lines[2:])))
            self.assertEqual(drawn.tag, "{http://www.w3.org/2000/svg}svg")
        self.assertTrue(svg(picture(Path(NASKH), 0, [("سل", read_line("5=2+300|6=0+200"))])).startswith("<svg"))

    def test_vertical(self) -> None:
        """A vertical text without advances has its labels to the right of its glyphs, below each other."""
        drawn = picture(Path(DEJAVU), 0, [("of", read_line("82=0+0|73=1+0"))], is_vertical=True)
        (first, second), [baseline] = drawn.labels, [line for line in drawn.lines if line.colour == BASELINE]
        self.assertEqual(baseline.start[0], baseline.end[0])
        self.assertEqual((first.words, second.words), ("0: 006F", "1: 0066"))
        self.assertGreater(first.at[0], baseline.start[0])
        self.assertGreaterEqual(first.at[1] - second.at[1], drawn.label_size)

    def test_width(self) -> None:
        """A picture is as wide as its glyphs or its labels, with a margin on both sides."""
        margin = MARGIN * 2048
        wide = picture(Path(DEJAVU), 0, [("o" * 9, read_line("|".join(f"82={at}+1253" for at in range(9))))])
        end = max(label.at[0] + width_of(label.whole) * wide.label_size for label in wide.labels)
        self.assertAlmostEqual(wide.width, max(9 * 1253 + margin, end) + margin)
        self.assertEqual(width_of("0: 骨\u0301"), 0.62 + 0.33 * 2 + 1)

    @unittest.skipUnless(importlib.util.find_spec("cairo"), "needs python3-cairo")
    def test_png(self) -> None:
        """A PNG of the picture's size, white at its corner and not everywhere."""
        import cairo

        drawn = picture(Path(DEJAVU), 0, [("o", read_line("82=0+1253"))])
        surface = cairo.ImageSurface.create_from_png(io.BytesIO(png(drawn)))
        scale = PIXELS / 2048
        self.assertEqual(
            (surface.get_width(), surface.get_height()), (round(drawn.width * scale), round(drawn.height * scale))
        )
        pixels = bytes(surface.get_data())
        self.assertEqual(pixels[:3], b"\xff\xff\xff")
        self.assertNotEqual(set(pixels[at : at + 3] for at in range(0, len(pixels), 4)), {b"\xff\xff\xff"})

    def test_locale(self) -> None:
        for name, tag in (("tr_TR.UTF-8", "tr-TR"), ("de_DE@euro", "de-DE"), ("C.UTF-8", None), ("POSIX", None)):
            self.assertEqual(language_of(name), tag)

    def test_unicodes(self) -> None:
        for text in ("U+0061,U+301", "61 0301", "\\u0061\\u0301", "<U+0061><U+0301>", "0x61,0x301"):
            self.assertEqual(read_words(["f", "-u", text]).text, "a\u0301", text)
        self.assertEqual(read_words(["f", "-u61"]).text, "a")
        self.assertTrue(read_words(["f", "a", "-Ojson"]).is_json)

    def test_printed(self) -> None:
        """A line is written as the program writes it, with the fields that are asked for."""
        line = "3=0@1,-2+5|4=7+0,-9#3<1,2,3,4>\n"
        given = Given(Path("f"), "t", {}, ["--show-flags", "--show-extents"])
        self.assertEqual(text_of(read_line(line), given), line)
        self.assertEqual(text_of(read_line(line), Given(Path("f"), "t")), "3=0@1,-2+5|4=7+0,-9\n")
        bare = Given(Path("f"), "t", {}, ["--no-clusters", "--no-advances"])
        self.assertEqual(text_of(read_line("3=0@1,-2+5|4=7+0,-9|5+1"), bare), "3@1,-2|4@5,0|5@5,-9\n")

    def test_faults(self) -> None:
        """A file's first fault with its key, row and value."""
        cases = {
            b'{"h":[[1,2],[1,3]]}': "h[1]: 1 is not above 1: [1, 3]",
            b'{"cmap":[[97,70000]]}': "cmap[0]: shape or range of [97, 70000]",
            b'{"h":[[1,2.5]]}': "h[0][1]: no whole number of 64 bits: 2.5",
            b'{"upem":1000,\n"h":[1,}': "no JSON at line 2, column 8 (byte 21): Expecting value",
            b'{"gdef":[]}': "gdef: another shape than the format's",
            b"\xff": "no UTF-8 at byte 0",
            b"[]": "no object at the top",
            b'{"format":"kuspveli-tables","h":[1]}': "format: 'kuspveli-tables', and 'kuspveli-font' is wanted",
            b'{"format":"kuspveli-font","h":[1]}': "h[0]: shape or range of 1",
            b'{"h":[[1,2]]}': None,
        }
        with tempfile.NamedTemporaryFile() as file:
            path = Path(file.name)
            for content, says in cases.items():
                path.write_bytes(content)
                self.assertEqual(font_fault(path), says)
            path.write_bytes(b'{"classes":[[65,230]]}')
            self.assertEqual(tables_fault(path), "unlawful: ClassOnNonMark at U+0041")


@unittest.skipUnless(standing(PROGRAM).is_current(), "needs the program (tools/build)")
@unittest.skipUnless(shutil.which("hb-shape"), "needs hb-shape")
class Shaped(unittest.TestCase):
    def test_lines(self) -> None:
        """DejaVu Sans has ligatures in the first two words, and kerns the last."""
        rows = (("office", "liga", "l"), ("fl", "-liga", "l"), ("ab", "-kern", "r"), ("AVA", "kern", "l"))
        for text, features, direction in rows:
            words = [f"--features={features}", f"--direction={direction}"]
            for more in ("--no-glyph-names", "--show-extents", "--output-format=json"):
                own = "--json" if "json" in more else more
                shown = run("shape", DEJAVU, text, *words, own).stdout.decode()
                self.assertEqual(shown, hb_shape(text, *words, more), (text, more))
        self.assertEqual(run("shape", DEJAVU, "a", "--foo").returncode, 2)

    def test_verified(self) -> None:
        """The program keeps its promises on ligatures, marks, joined letters and ignorables."""
        for text in ("office", "e\u0301\u0323a", "\u0644\u0627\u0628", "a\u00adb\u200d"):
            ran = run("shape", "--verify", "--no-glyph-names", DEJAVU, text)
            self.assertEqual((ran.returncode, ran.stdout.decode()), (0, hb_shape(text, "--no-glyph-names")))


def hb_shape(text: str, *options: str) -> str:
    """HarfBuzz's line; without its brackets where it is no JSON."""
    command = ["hb-shape", "--utf8-clusters", *options, DEJAVU, f"--text={text}"]
    line = subprocess.run(command, capture_output=True, text=True, check=True).stdout.strip()
    return (line if line.startswith("[{") else line.strip("[]")) + "\n"


class Unparsed(unittest.TestCase):
    """What is no JSON text is told before what is wrong with its rows, as the program reads it."""

    ROWS = {
        '{"cmap":[[97,1],[97,2]],"names":[[1,"\\ud800"]]}': "no JSON: names[0][1]: a surrogate alone (\\ud800)",
        '{"cmap":[[97,1],[97,2]],"\\udc00":1}': "no JSON: a key: a surrogate alone (\\udc00)",
        '{"cmap":[[97,1],[97,2]],"x":' + "[" * 127 + "]" * 127 + "}": "no JSON: nested deeper than 127",
        '{"cmap":[[97,1],[97,2]],"x":1E400}': "no JSON: 1E400 is past the range",
        '{"cmap":[[97,1],[97,2]],"x":' + "[" * 126 + "]" * 126 + "}": "cmap[1]: 97 is not above 97",
        '{"cmap":[[97,1],[97,2]],"x":"\\ud83d\\ude00"}': "cmap[1]: 97 is not above 97",
    }

    def test_reasons(self) -> None:
        with tempfile.TemporaryDirectory() as folder:
            font, text = Path(folder) / "font.json", Path(folder) / "text"
            text.write_text("a")
            for value, says in self.ROWS.items():
                font.write_text(value)
                self.assertIn(says, font_fault(font) or "", value)
                place = standing(PROGRAM)
                if place.is_current():
                    words: list[str | Path] = [place.file, SHIPPED, font, text]
                    ran = subprocess.run(words, capture_output=True, text=True, check=False)
                    fault = "J1 NotJson" if says.startswith("no JSON") else "U1 OutOfOrder"
                    self.assertEqual(ran.stderr, f"hb_shape: {fault}\n", value)


if __name__ == "__main__":
    unittest.main()
