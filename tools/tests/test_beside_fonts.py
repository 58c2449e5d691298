"""bench/fonts: its texts, what it takes for a cause, its table, and one font beside hb-shape."""

import contextlib
import io
import json
import shutil
import tempfile
import unittest
from pathlib import Path
from typing import Any
from unittest import mock

from support import BENCH, DEJAVU, DEVANAGARI, NASKH  # noqa: F401  (it puts the tools and bench/ on the path)

from beside.fonts_causes import AAT, BASELESS, BOXES, CIRCLES, FAULT, FORMS, HALANTS, LENGTHS, OLD, REST, SORT, VOWELS, cause_of
from beside.fonts_cli import all_found, differences, fonts_of, has_kern, main, table
from beside.fonts_found import KERNED, Found, Unlike, add_found, read_found
from beside.fonts_texts import SCRIPTS, TEXTS, scripts_of, texts_of
from beside.fonts_try import Trial, read_shaped, try_font
from building.ready import is_ready
from fontTools import unicodedata
from fontTools.ttLib import TTFont


class Texts(unittest.TestCase):
    def test_texts(self) -> None:
        """As many as are wanted, of the font's characters, in its scripts, the same ones each time; some are words."""
        for path, script in ((DEVANAGARI, "Deva"), (NASKH, "Arab"), (DEJAVU, "Latn")):
            characters = frozenset(TTFont(path).getBestCmap())
            texts = texts_of(characters, "seed")
            self.assertEqual(len(texts), TEXTS)
            self.assertEqual(texts, texts_of(characters, "seed"))
            self.assertNotEqual(texts, texts_of(characters, "another"))
            self.assertTrue(all(characters.issuperset(map(ord, text)) for text in texts))
            scripts = [name for name, _ in scripts_of(characters)]
            self.assertIn(script, scripts)
            self.assertLessEqual(len(scripts), SCRIPTS)
            of_script = [text for text in texts if unicodedata.script(text[0]) == script]
            self.assertGreaterEqual(len(of_script), TEXTS // len(scripts))

    def test_symbols(self) -> None:
        """A font of symbols has texts of these, and one of nothing but spaces none."""
        self.assertEqual(len(texts_of(frozenset(map(ord, "★☆ ")), "seed")), TEXTS)
        self.assertEqual(texts_of(frozenset({0x20}), "seed"), [])


class Causes(unittest.TestCase):
    def test_causes(self) -> None:
        cases = [
            (AAT, "a", "1=0+5", "2=0+5", ("table morx",)),
            (BOXES, "a", "1=0+5", "2=0+5", (KERNED,)),
            (SORT, "क", "1=0+5", "1=3+5", ()),
            (CIRCLES, "a", "1=0+5", "9=0+5|1=0+5", ()),
            (REST, "a", "1=0+5", "1=3+5", ()),
            (REST, "क", "1=0+5", "1=0+6", ()),
            (VOWELS, "\u0905\u093e", "1=0+5|2=0+5", "1=0+5|9=0+5|2=0+5", ()),
            (CIRCLES, "\u0915\u093e", "1=0+5|2=0+5", "1=0+5|9=0+5|2=0+5", ()),
            (CIRCLES, "\u0905\u093e", "1=0+5|2=0+5", "1=0+5|9=0+5|9=0+5|2=0+5", ()),
            (HALANTS, "\u092b\u093f\u094d", "1=0+5|2=0+5|3=0+5", "1=0+5|3=0+5|2=0+5", ()),
            (FORMS, "\u0643\u062a", "1=2+5|2=0+5", "3=2+5|4=0+5", ()),
            (LENGTHS, "\u0c2e\u0c48\u0c55", "1=0+5|2=0+5", "1=0+5|3=0+5", ()),
        ]
        for cause, text, own, theirs, told in cases:
            of = Found("a.ttf", "", 20, told=told, scripts=("dev2", "tel2"), circle=9)
            self.assertEqual(cause_of(of, Unlike(text, own, theirs)), cause)
        turned = Unlike("क", "1=0+5|2=0+5", "2=0+5|1=0+5")
        self.assertEqual(cause_of(Found("a.ttf", "", 20, scripts=("dev2",)), turned), BASELESS)
        self.assertEqual(cause_of(Found("a.ttf", "", 20, scripts=("deva",), circle=9), turned), OLD)
        self.assertEqual(cause_of(Found("a.ttf", "", 20), Unlike("a", "", "1=0+5", "S2 TooLong")), FAULT)


class Tables(unittest.TestCase):
    def test_table(self) -> None:
        """Lines and fonts by causes; those without texts and those that are refused have rows of their own."""
        moved = Unlike("क", "1=0+5", "1=3+5")
        found = [
            Found("a.ttf", "", 20, unlike=(moved, moved), of_texts=("Deva", "Latn")),
            Found("b.ttf", "", 20, unlike=(moved,), of_texts=("Deva",)),
            Found("c.ttf", "", 20, of_texts=("Arab",)),
            Found("d.ttf", ""),
            Found("e.ttf", "", refused="e.ttf: no font"),
        ]
        rows = [
            "| tried, in 3 scripts | 60 | 3 |", "| alike | 57 | 1 in all lines |", f"| {SORT} | 3 | 2 |",
            "| without texts | | 1 |", "| refused | | 1 |",
        ]  # fmt: skip
        self.assertEqual(list(table(found))[2:], rows)

    def test_differences(self) -> None:
        """Each names font, cause, characters and both lines, in printable characters."""
        found = Found("\x1ba.ttf", "", 20, unlike=(Unlike("क", "1=0+5", "1=3+5"),))
        self.assertEqual(list(differences(found)), [f"\\x1ba.ttf: {SORT}: 0915: 1=0+5 where hb-shape has 1=3+5"])


class Kept(unittest.TestCase):
    def setUp(self) -> None:
        folder = tempfile.TemporaryDirectory()
        self.addCleanup(folder.cleanup)
        self.folder = Path(folder.name)
        self.file = self.folder / "found.jsonl"
        self.fonts = [self.folder / name for name in ("a.ttf", "b.ttf", "c.ttf")]
        for font in self.fonts:
            font.write_bytes(b"")
        self.tried: list[str] = []

    def by(self, stamp: str) -> Trial:
        return Trial(self.folder, None, self.folder, stamp)

    def run_all(self, by: Trial, fonts: list[Path]) -> list[str]:
        """The fonts of which something is found, where a stand-in tries them."""

        def stand_in(font: Path, by: Trial) -> Found:
            self.tried.append(font.name)
            return Found(str(font), by.stamp_of(font), 20)

        with mock.patch("beside.fonts_cli.try_font", stand_in):
            return [Path(found.font).name for found in all_found(fonts, by, self.file, 1)]

    def test_continues(self) -> None:
        """A later run tries only what the file has not."""
        self.run_all(self.by("one"), self.fonts[:2])
        self.assertEqual(self.run_all(self.by("one"), self.fonts), ["a.ttf", "b.ttf", "c.ttf"])
        self.assertEqual(self.tried, ["a.ttf", "b.ttf", "c.ttf"])

    def test_others(self) -> None:
        """A font that changed is tried anew, and all are by another program."""
        self.run_all(self.by("one"), self.fonts)
        self.fonts[1].write_bytes(b"another")
        self.run_all(self.by("one"), self.fonts)
        self.assertEqual(self.tried[3:], ["b.ttf"])
        self.run_all(self.by("another"), self.fonts)
        self.assertEqual(self.tried[4:], ["a.ttf", "b.ttf", "c.ttf"])

    def test_file(self) -> None:
        """What is written is read; a line that was cut is passed over."""
        unlike = (Unlike("क", "1=0+5", "1=3+5"),)
        found = Found("a.ttf", "one", 20, "", unlike, ("table morx",), ("dev2",), ("half",), 9, ("Deva",))
        add_found(self.file, Found("a.ttf", "one", 3))
        add_found(self.file, found)
        with open(self.file, "a", encoding="utf-8") as file:
            file.write(json.dumps({"font": "b.ttf", "stamp": "one", "unlike": []})[:-9])
        self.assertEqual(read_found(self.file), {"a.ttf": found})
        self.assertEqual(read_found(self.folder / "none"), {})


class Fonts(unittest.TestCase):
    def test_fonts(self) -> None:
        """Each file once, and only font files; whether one has a table kern."""
        with tempfile.TemporaryDirectory() as name:
            folder = Path(name)
            (folder / "inner").mkdir()
            for path in ("a.ttf", "inner/b.OTF", "text.txt"):
                (folder / path).write_bytes(b"")
            (folder / "again.ttf").symlink_to(folder / "a.ttf")
            self.assertEqual(sorted(path.name for path in fonts_of([folder])), ["a.ttf", "b.OTF"])
            self.assertEqual(fonts_of([folder]), fonts_of([folder]))
        self.assertTrue(has_kern(Path(DEJAVU)))
        self.assertFalse(has_kern(Path(DEVANAGARI)))


    def test_order(self) -> None:
        """One of each family comes before another one of any."""
        with tempfile.TemporaryDirectory() as name:
            for path in ("One-Regular.ttf", "One-Bold.ttf", "One-Light.ttf", "Two_Bold.ttf", "Two_Light.ttf", "Three.ttf"):
                (Path(name) / path).write_bytes(b"")
            found = [path.name[:3] for path in fonts_of([Path(name)])]
        self.assertEqual((set(found[:3]), set(found[3:5]), found[5]), ({"One", "Two", "Thr"}, {"One", "Two"}, "One"))

    def test_keys(self) -> None:
        """A font has boxes where marks are positioned by them: without GPOS, and Hebrew where GPOS has none."""
        other = self.enterContext(tempfile.NamedTemporaryFile(suffix=".ttf"))
        with TTFont(DEVANAGARI) as font:
            del font["GPOS"]
            font.save(other.name)
        self.assertIn("extents", read_shaped(other.name))
        self.assertNotIn("extents", read_shaped(DEVANAGARI))
        with TTFont(DEVANAGARI) as font:
            for table in font["cmap"].tables:
                table.cmap[0x5D0] = font.getBestCmap()[0x915]
            font.save(other.name)
        self.assertIn("extents", read_shaped(other.name))


@unittest.skipUnless(is_ready(), "needs the program (tools/build)")
@unittest.skipUnless(shutil.which("hb-shape"), "needs hb-shape (libharfbuzz-bin)")
class Whole(unittest.TestCase):
    def shown(self, *words: str) -> list[str]:
        with contextlib.redirect_stdout(io.StringIO()) as shown, contextlib.redirect_stderr(io.StringIO()):
            self.assertEqual(main(list(words)), 0)
        return shown.getvalue().splitlines()

    def test_font(self) -> None:
        table = ["| tried, in 5 scripts | 20 | 1 |", "| alike | 20 | 1 in all lines |"]
        self.assertEqual(self.shown(DEJAVU)[2:], table)

    def test_jobs(self) -> None:
        """By several processes the same is found, and kept."""
        with tempfile.TemporaryDirectory() as folder:
            first = self.shown("--jobs=2", f"--keep={folder}", DEVANAGARI, NASKH)
            with mock.patch("beside.fonts_cli.try_font", side_effect=AssertionError):
                self.assertEqual(self.shown(f"--keep={folder}", DEVANAGARI, NASKH), first)
        self.assertEqual(self.shown(DEVANAGARI, NASKH), first)

    def test_refused(self) -> None:
        """What is no font is named."""
        with tempfile.NamedTemporaryFile(suffix=".ttf") as file:
            file.write(b"no font at all")
            file.flush()
            shown = self.shown(file.name)
        self.assertTrue(shown[0].startswith(f"refused: {file.name}: no font"), shown)
        self.assertEqual(shown[-1], "| refused | | 1 |")

    def test_interrupted(self) -> None:
        """A run that is interrupted prints the table of what was tried."""
        fonts = fonts_of([Path(DEJAVU), Path(NASKH)])

        def interrupted(font: Path, by: Any) -> Found:
            if font == fonts[1]:
                raise KeyboardInterrupt
            return try_font(font, by)

        with mock.patch("beside.fonts_cli.try_font", interrupted):
            shown = self.shown(DEJAVU, NASKH)
        self.assertEqual(shown[2].split(" | ")[1:], ["20", "1 |"])


if __name__ == "__main__":
    unittest.main()
