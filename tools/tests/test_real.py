"""The measure beside HarfBuzz: composed texts, what is taken of a set, tables and marks, differences, and runs."""

import contextlib
import io
import shutil
import sys
import tempfile
import unicodedata
import unittest
from itertools import islice
from pathlib import Path
from unittest import mock

from support import DEJAVU, told_by, write_stand_in  # it puts the tools and bench/ on the path

from beside import cli, opening, works
from beside.composed import composed, pieces_of
from beside.differences import Difference, difference
from beside.lines_cli import chances
from beside.pages import COUNT, LONGEST, SHORTEST, WORDS, is_plain, read_words, text_from, text_of, turns_of, words_of
from beside.programs import Files, build_driver, counted_by, counts_of_rounds, printed_by, used_by
from beside.sets import OPENED, PACKAGES, SETS, Set
from beside.steps import Steps
from beside.table import MEGA, MIB, Pair, Row, summary, tables
from beside.works import Measure, Work
from building.places import LIBRARY, PROGRAM, standing
from common.faults import ToolFault
from shaping.cache import cache_folder
from shaping.converting import tables_file

# The longest list has 73 words; one of fewer than 30 says little of a language.
FEWEST, MOST = 30, 80
HEADER = Path("/usr/include/harfbuzz/hb.h")
COMMANDS = ("gcc", "pkg-config", "valgrind", "hb-shape")
HAS_LIBRARY = standing(LIBRARY).file.is_file()
CAN_DRIVE = HAS_LIBRARY and HEADER.exists() and Path(DEJAVU).exists() and all(map(shutil.which, COMMANDS))
NEEDED = f"needs the library, libharfbuzz-dev, DejaVu Sans and {', '.join(COMMANDS)}"

UNLIKE = Difference("1 of 2 glyphs differ", in_clusters_alone=False)
CLUSTERS = Difference("1 of 2 glyphs differ in clusters alone", in_clusters_alone=True)
NOWHERE = Path("/none")


def one_set(word: str) -> Set:
    (chosen,) = cli.chosen_sets([word])
    return chosen


def files_of(chosen: Set, driver: Path = NOWHERE) -> Files:
    return Files(chosen, NOWHERE, NOWHERE, NOWHERE, driver)


class Composed(unittest.TestCase):
    def test_pieces(self) -> None:
        """A syllable as its script writes it; of Latin runs of consonants and of vowels; a number stays one by one."""
        for word, pieces in (
            ("office", "o ff i c e"),
            ("thuyền", "th uyề n"),
            ("(3,750)", "( 3 , 7 5 0 )"),
            ("विद्यार्थी", "वि द्या र्थी"),
            ("ភ្លៀង", "ភ្លៀ ង"),
            ("မြန်မာ", "မြ န် မာ"),
            ("เพื่อน", "เพื่ อ น"),
            ("བཀྲ་ཤིས་", "བཀྲ་ ཤིས་"),
            ("שָׁלוֹם", "שָׁ ל וֹ ם"),
            ("漢字", "漢 字"),
        ):
            self.assertEqual([piece.text for piece in pieces_of(word)], pieces.split(" "), word)

    def test_pattern(self) -> None:
        """A word has as many pieces as a word of the list, of like kinds, its punctuation, and other digits."""
        words = ("Tower", "(river)", "10,5")
        inner, last = {"T", "t", "r", "w", "o", "i", "v", "e"}, {"w", "v", "e", "r", "i", "o"}
        for made in islice(composed(words), 50):
            if made[0].isdigit():
                self.assertRegex(made, "^[0-9]{2},[0-9]$")
                continue
            self.assertRegex(made, "^T[oeiaui]|^[(][rwv]")
            self.assertEqual(made.startswith("("), made.endswith(")"))
            letters = [piece.text for piece in pieces_of(made.strip("()"))]
            self.assertEqual((len(letters), set(letters[:-1]) <= inner, letters[-1] in last), (5, True, True), made)

    def test_no_word_again(self) -> None:
        """Of three words' pieces there are many words before one comes again; the same ones each time."""
        words = ("abido", "ekunu", "imoga")
        found = list(islice(composed(words), 200))
        self.assertEqual(len(set(found)), 200)
        self.assertEqual(found, list(islice(composed(words), 200)))
        # Each of two pieces has two others: some come again.
        self.assertEqual(set(islice(composed(("ab", "ef")), 30)), {"ab", "af", "eb", "ef"})


class Texts(unittest.TestCase):
    def test_lists(self) -> None:
        """Each list is used, has ordinary words once each, and is written composed."""
        for path in WORDS.iterdir():
            words = read_words(path)
            self.assertTrue(FEWEST <= len(words) == len(set(words)) <= MOST, path)
            self.assertEqual([unicodedata.normalize("NFC", word) for word in words], words, path)
        used = {chosen.words for chosen in SETS} | {chosen.other for chosen in SETS}
        self.assertEqual({f"{name}.txt" for name in used}, {path.name for path in WORDS.iterdir()})

    def test_sets(self) -> None:
        """No two sets have one title, each package serves one, and the decomposed ones hold no whole letter."""
        self.assertEqual(len({chosen.title for chosen in SETS}), len(SETS))
        self.assertEqual({chosen.package for chosen in (*SETS, *OPENED)}, set(PACKAGES))
        for chosen in SETS:
            if chosen.is_decomposed:
                text = text_of(chosen, 500)
                self.assertEqual(text, unicodedata.normalize("NFD", text))
                self.assertNotEqual(text, unicodedata.normalize("NFC", text))

    def test_order(self) -> None:
        """The first two numbers of the congruence are 1103527590 and 377401575."""
        first = chances(1000)
        self.assertEqual([next(first), next(first)], [1103527590 // 256 % 1000, 377401575 // 256 % 1000])

    def test_text(self) -> None:
        """As many whole words as fit, a stop after nine, and each text the front of a longer one."""
        whole = text_from(["ab"] * 20, " ", ". ", 40)
        self.assertEqual(whole, " ".join(["ab"] * 9) + ". " + " ".join(["ab"] * 4))
        for length in range(41):
            front = text_from(["ab"] * 20, " ", ". ", length)
            self.assertTrue(whole.startswith(front) and len(front) <= length < len(front) + 4, length)
        self.assertEqual([len(text_from(["ab"] * 20, "", " ", length)) for length in (20, 21)], [18, 21])

    def test_page(self) -> None:
        """A page is full but for one word, is the same each time, and where words are apart hardly one comes again."""
        for chosen in SETS:
            text = text_of(chosen, cli.PAGE)
            self.assertTrue(cli.PAGE - 100 < len(text) <= cli.PAGE, chosen.title)
            self.assertEqual(text[:900], text_of(chosen, 1000)[:900])
            words = text.replace(chosen.stop, " ").split(chosen.between or None)
            if chosen.between:
                self.assertGreater(len(set(words)), 0.97 * len(words), chosen.title)

    def test_words(self) -> None:
        """Three hundred different words of five to eight characters, of letters and marks, in each set."""
        for chosen in SETS:
            words = words_of(chosen)
            self.assertEqual((len(words), len(set(words))), (COUNT, COUNT), chosen.title)
            self.assertTrue(all(SHORTEST <= len(word) <= LONGEST and is_plain(word) for word in words), chosen.title)

    def test_turns(self) -> None:
        """Words of both scripts and numbers in turn as far as the font has them; nothing where it has one script."""
        chosen = one_set("Amiri")
        arabic, latin = frozenset(range(0x600, 0x700)), frozenset(range(0x61, 0x7B))
        digits = frozenset(map(ord, "0123456789"))
        texts = turns_of(chosen, arabic | latin | digits)
        self.assertEqual(len(texts), 60)
        for own, other, number in zip(texts[::3], texts[1::3], texts[2::3], strict=True):
            self.assertTrue(own[0] > "\u0600" and other.isascii() and other.isalpha() and number.isdigit())
        self.assertEqual(turns_of(chosen, arabic | digits)[:4:2], words_of(chosen)[:2])
        self.assertEqual(turns_of(chosen, arabic), [])


class Numbers(unittest.TestCase):
    def measure(self) -> Measure:
        units = {"page": 100, "more": 300, "words": 50, "first": 1}
        made = [Work(name, "kept", NOWHERE, of) for name, of in units.items()]
        return Measure(files_of(one_set("Jamo")), made, {}, NOWHERE)

    def test_least(self) -> None:
        """Of several runs the least counts, for each side by itself."""
        measure = self.measure()
        for name, pair in (("page", Pair(3, 9)), ("page", Pair(5, 8)), ("words", Pair(1, 1)), ("page", Pair(4, 9))):
            measure.note(name, pair)
        self.assertEqual(measure.taken, {"page": Pair(3, 8), "words": Pair(1, 1)})

    def test_pairs(self) -> None:
        """A page and words by their units; what a longer text has more, and whole runs past their first word."""
        measure = self.measure()
        measure.taken = {"page": Pair(400, 300), "words": Pair(100, 50), "first": Pair(7, 900)}
        self.assertEqual(measure.pairs(), {"page": Pair(4, 3), "words": Pair(2, 1), "first": Pair(7, 900)})
        measure.taken |= {"more": Pair(1400, 900), "short": Pair(100, 5000), "long": Pair(1600, 5900)}
        found = measure.pairs()
        self.assertEqual((found["more"], found["program"]), (Pair(5, 3), Pair(5, 3)))
        self.assertFalse({"short", "long"} & set(found))

    def test_ratio(self) -> None:
        self.assertEqual(Pair(400, 300).ratio, 0.75)
        for lost in (Pair(0, 300), Pair(-5, 300), Pair(400, -1)):
            self.assertIsNone(lost.ratio)

    def test_tables(self) -> None:
        """The columns that were measured; what a set lacks is a hyphen; peaks where they were taken."""
        page = {"page": Pair(400, 300), "font": Pair(1.5 * MEGA, 127.2 * MEGA)}
        rows = [Row("Thai", "Loma", page), Row("Urdu", "Nast", {**page, "turns": Pair(2, 3), "first": Pair(0, 0)})]
        ratios, once = ["| Set | page | turns |"], ["| Set | font | HarfBuzz | first | HarfBuzz |"]
        ratios += ["| --- | --- | --- |", "| Thai, Loma | 0.75 | - |", "| Urdu, Nast | 0.75 | 1.50 |"]
        once += ["| --- | --- | --- | --- | --- |", "| Thai, Loma | 127 | 1.50 | - | - |"]
        self.assertEqual(tables(rows), [*ratios, "", *once, "| Urdu, Nast | 127 | 1.50 | 0.00 | 0.00 |"])
        peaks = Row("Thai", "Loma", {"memory": Pair(100 * MIB, 130 * MIB)})
        self.assertEqual(tables([peaks])[-1], "| Thai, Loma | 130 | 100 | 1.30 |")

    def test_summary(self) -> None:
        """Rows above a column's mark are named, and so are those without a ratio; one that shows the mark is not."""
        rows = [Row("A", "f", {"page": Pair(1000, own), "memory": Pair(100, 111)}) for own in (754, 756)]
        rows.append(Row("B", "f", {"page": Pair(0, 5)}))
        page, memory = summary(rows)
        self.assertEqual(page, "Above 0.75 in a page: A, f (0.76), B, f (?) (2 of 3).")
        self.assertEqual(memory, "Above 1.1 in memory: A, f (1.11), A, f (1.11) (2 of 2).")
        self.assertEqual(summary(rows[:1])[0], "Above 0.75 in a page: none (0 of 1).")


class Taken(unittest.TestCase):
    """What a run of the driver and of the programs gives, over stand-ins for them."""

    def setUp(self) -> None:
        folder = tempfile.TemporaryDirectory()
        self.addCleanup(folder.cleanup)
        path, whole = Path(folder.name), {"short": NOWHERE, "long": NOWHERE}
        made = [works.work_of(name, kind, ["ab", "c"], path) for name, kind in (("page", "kept"), ("anew", "anew"))]
        self.measure = Measure(files_of(one_set("Jamo")), made, whole, path)

    def test_works(self) -> None:
        """A page counts by its characters, other texts one by one, which stand in a file a line each."""
        page, anew = self.measure.works
        self.assertEqual((page.units, anew.units, anew.word()), (2, 2, f"anew={anew.texts}"))
        self.assertEqual(anew.texts.read_text(), "ab\nc\n")

    def test_times(self) -> None:
        lines, used = ["30 20", "7 9"], mock.Mock(side_effect=lambda words: mock.Mock(seconds=len(words) / 1e9))
        with mock.patch.multiple(works, printed_by=lambda _: lines, used_by=used):
            works.take_times(self.measure)
        self.assertEqual((self.measure.taken["page"], self.measure.taken["anew"]), (Pair(20, 30), Pair(9, 7)))
        self.assertEqual(self.measure.taken["short"].own, 6)

    def test_counts(self) -> None:
        with mock.patch.multiple(works, counts_of_rounds=lambda *_: [(30, 20), (7, 9)], counted_by=lambda *_: 5):
            works.take_counts(self.measure)
        taken = {"page": Pair(20, 30), "anew": Pair(9, 7), "short": Pair(5, 5), "long": Pair(5, 5)}
        self.assertEqual(self.measure.taken, taken)

    def test_steps(self) -> None:
        """Where no terminal is, each set that is done has its line."""
        with contextlib.redirect_stderr(io.StringIO()) as told:
            Steps("real", 2).each("run 1", {"A": 1, "B": 2}, lambda _: None)
        first, second = told.getvalue().splitlines()
        self.assertRegex(first, "^real: [0-9:]{8} run 1, A 1 of 2$")
        self.assertTrue(second.endswith(" run 1, B 2 of 2"))


class Differences(unittest.TestCase):
    def test_same(self) -> None:
        """Lines of one meaning are the same, also where one of them prints zeros."""
        self.assertIsNone(difference("5=0+600|6=1", "5=0+600|6=1"))
        self.assertIsNone(difference("5=0@0,0+600|6=1", "5=0+600|6=1+0"))

    def test_each_field(self) -> None:
        """Number, cluster, offset and advance are compared, and a glyph that one line lacks."""
        for unlike, found in (
            ("7=1@3,4+9", "7=1@3,4+9,0"),
            ("6=1@3,5+9", "6=1@3,5+9,0"),
            ("6=1@3,4+8", "6=1@3,4+8,0"),
        ):
            told = f"1 of 3 glyphs differ, first glyph 1: 6=1@3,4+9,0 where HarfBuzz has {found}"
            self.assertEqual(difference("5=0+6|6=1@3,4+9|8=2", f"5=0+6|{unlike}|8=2"), Difference(told, False))
        told = "1 of 2 glyphs differ, first glyph 1: none where HarfBuzz has 6=1@0,0+0,0"
        self.assertEqual(difference("5=0+6", "5=0+6|6=1"), Difference(told, False))

    def test_clusters(self) -> None:
        """Clusters alone are told apart, unless another glyph differs otherwise too."""
        told = "1 of 2 glyphs differ in clusters alone, first glyph 1: 6=0@0,0+0,0 where HarfBuzz has 6=1@0,0+0,0"
        self.assertEqual(difference("5=0+6|6=0", "5=0+6|6=1"), Difference(told, True))
        found = difference("5=0+6|6=0|7=2", "5=0+6|6=1|8=2")
        self.assertTrue(found is not None and not found.in_clusters_alone and found.told.startswith("2 of 3 "))

    def test_texts(self) -> None:
        """Of all texts' differences one that isn't in clusters alone is told before those that are."""
        made = [Work("page", "kept", NOWHERE, 1), Work("words", "kept", NOWHERE, 2), Work("anew", "anew", NOWHERE, 2)]
        measure = Measure(files_of(one_set("Tamil")), made, {}, NOWHERE)
        for words, first in ((["5=0", "[5=0]"], None), (["5=1", "[5=2]"], True), (["5=1", "[5=2]", "5=1", "[6=1]"], False)):
            with mock.patch.object(cli, "printed_by", lambda called: words if "0" in called else ["5=0"]):
                found = cli.differences(measure)
            self.assertEqual(None if found is None else found.in_clusters_alone, first)

    def test_fault(self) -> None:
        """Other clusters are no fault of a set that has clusters of its own; anything else is."""
        for name, unlike, is_fault in (
            ("Tamil", None, False),
            ("Tamil", CLUSTERS, False),
            ("Tamil", UNLIKE, True),
            ("Telugu", CLUSTERS, True),
        ):
            self.assertEqual(cli.is_fault(cli.chosen_sets([name])[0], unlike), is_fault, name)


class Running(unittest.TestCase):
    def test_used(self) -> None:
        """A run that works has processor time and a peak of memory of its own, whatever this process holds."""
        held = bytearray(b"x" * (200 * MIB))
        large = used_by([sys.executable, "-c", "held = b'x' * (200 * 2**20); sum(range(2 * 10**6))"])
        self.assertTrue(large.seconds > 0.01 and large.bytes > len(held), large)
        small = used_by([sys.executable, "-c", ""])
        self.assertTrue(small.bytes < len(held) and small.seconds < large.seconds, small)

    def test_failed(self) -> None:
        """A program that ends with a fault is named with what it told, and measures nothing."""
        words = ["sh", "-c", "echo no font >&2; exit 3"]
        for run in (used_by, printed_by):
            with self.assertRaisesRegex(ToolFault, "sh ended with 3: no font"):
                run(words)

    def test_words(self) -> None:
        """Faults of the words and of what is missing come before anything is made."""
        for words, told in (
            (["--pages=1"], "two lengths"),
            (["--runs=0"], "no number above 0"),
            (["--jobs=2"], "it is for --instructions"),
            (["--only=Klingon"], "no set has 'Klingon'"),
            (["--cpu=99999"], "no processor"),
            (["--program=/no/program"], "tools/build proves"),
            (["--program=/bin/sh", "--library=/no/archive"], "tools/build_library proves"),
            (["--from=/no/numbers.json"], "No such file"),
        ):
            with self.assertRaisesRegex((ToolFault, OSError), told):
                cli.main(words)

    def test_no_font(self) -> None:
        """A set without its font is told by the package that has it."""
        words = ["--only=Urdu", "--program=/bin/sh", f"--library={__file__}"]
        with mock.patch.dict(PACKAGES, {"fonts-noto-core": Path("/no/fonts")}), self.assertRaises(ToolFault) as told:
            cli.main(words)
        self.assertRegex(str(told.exception), "^apt-get install .*fonts-noto-core.*: what is measured or read is not")

    def test_only(self) -> None:
        """A word is looked for in names of sets and of fonts, whatever its case."""
        for words, fonts in (
            (["amiri"], ["Amiri"]),
            (["Myanmar", "urdu"], ["NotoNastaliqUrdu", "Padauk", "NotoSansMyanmar"]),
        ):
            self.assertEqual([chosen.font_name for chosen in cli.chosen_sets(words)], fonts)
        self.assertEqual(cli.chosen_sets(None), list(SETS))

    def test_texts(self) -> None:
        """The texts are written as they are measured."""
        chosen = one_set("Jamo")
        with tempfile.TemporaryDirectory() as folder, contextlib.redirect_stdout(io.StringIO()):
            self.assertEqual(cli.main(["--only=Jamo", f"--texts={folder}/made"]), 0)
            page, words = (Path(folder) / "made" / f"{chosen.title}{rest}.txt" for rest in ("", ", words"))
            self.assertEqual(page.read_text(encoding="utf-8"), text_of(chosen, cli.PAGE) + "\n")
            self.assertEqual(words.read_text(encoding="utf-8").split(), words_of(chosen))

    @unittest.skipUnless(CAN_DRIVE, NEEDED)
    def test_driver(self) -> None:
        """The driver prints the glyphs of both libraries, which are those of hb-shape; times and instructions of a
        round grow with the texts, and are more where the plan is made anew or the font opened."""
        with tempfile.TemporaryDirectory() as name, cache_folder() as values:
            folder, chosen = Path(name), one_set("Latin, DejaVuSans")
            driver = build_driver(folder, standing(LIBRARY).file)
            files = Files(chosen, NOWHERE, tables_file(values), cli.font_value(values, chosen.font, 0), driver)
            texts = [folder / f"{count}.txt" for count in (1, 50)]
            for path in texts:
                path.write_text("office\n" * int(path.stem), encoding="utf-8")
            own, theirs = printed_by(files.rounds(0, [f"kept={texts[0]}"]))
            words = ["hb-shape", "--no-glyph-names", "--utf8-clusters", f"--text-file={texts[0]}", DEJAVU]
            self.assertEqual(([theirs], own), (printed_by(words), theirs.strip("[]")))
            kinds = [f"kept={path}" for path in texts] + [f"{kind}={texts[0]}" for kind in ("anew", "open", "first", "file", "bare")]
            counted = counts_of_rounds(files.rounds(1, kinds), len(kinds), folder / "callgrind")
            for side in (0, 1):
                one, fifty, anew, opened, first, by_file, bare = (pair[side] for pair in counted)
                self.assertTrue(0 < 40 * one < fifty < 60 * one and one < anew < opened and 0.9 * opened < first)
                self.assertTrue(one < bare <= by_file < opened if side == 0 else 0.9 * opened < bare < 1.1 * opened)
            self.assertGreater(counted[4][0], 1.2 * counted[3][0])
            times = [list(map(int, line.split())) for line in printed_by(files.rounds(3, kinds[:2]))]
            self.assertTrue(all(0 < short < long for short, long in zip(*times, strict=True)))
            for wrong in ("kept", f"never={texts[0]}", "kept=/no/text"):
                with self.assertRaisesRegex(ToolFault, "driver ended with 1: "):
                    printed_by(files.rounds(1, [wrong]))

    def test_opening(self) -> None:
        """A font's row: its size, what the driver's two ways take, and the least of HarfBuzz's."""
        with tempfile.TemporaryDirectory() as folder, mock.patch.object(opening, "words_of", lambda _: ["office"]):
            driver = write_stand_in(Path(folder) / "driver", "echo 3000000 1000000; echo 2000000 900000")
            own = Set("Own", "fonts-dejavu-core", __file__, "latin", "en")
            lines = opening.opening_lines([own], Path(driver), 5, False, Path(folder))
            self.assertEqual((Path(folder) / "word.txt").read_text(), "office\n")
        size = f"{Path(__file__).stat().st_size / MIB:.2f}"
        self.assertEqual(lines[0], "| Font | MB | ms | without boxes and names | HarfBuzz |")
        self.assertEqual(lines[2:], [f"| {Path(__file__).stem} | {size} | 3.00 | 2.00 | 0.90 |"])

    @unittest.skipUnless(shutil.which("valgrind"), "needs valgrind")
    def test_counted(self) -> None:
        """A whole run has instructions; a fault of the program is told."""
        with tempfile.TemporaryDirectory() as folder:
            self.assertGreater(counted_by(["true"], Path(folder) / "callgrind"), 1000)
            self.assertEqual(list(Path(folder).iterdir()), [])
            with self.assertRaisesRegex(ToolFault, "ended with 1"):
                counted_by(["false"], Path(folder) / "callgrind")

    @unittest.skipUnless(CAN_DRIVE and standing(PROGRAM).file.is_file(), f"{NEEDED}, and the program")
    def test_run(self) -> None:
        """A small run from texts to tables; what it keeps is shown again as it was."""
        one = (one_set("Latin, DejaVuSans"),)
        sizes = mock.patch.multiple(works, PAGE=300, ANEW=2, words_of=lambda _: ["office", "fjords"])
        with tempfile.TemporaryDirectory() as folder, contextlib.ExitStack() as stack:
            for patch in (sizes, mock.patch.object(cli, "SETS", one), contextlib.redirect_stderr(io.StringIO())):
                stack.enter_context(patch)
            kept = f"{folder}/kept.json"
            status, shown = told_by(cli.main, "--instructions", f"--keep={kept}")
            again = told_by(cli.main, f"--from={kept}")
        self.assertEqual(status, 0)
        self.assertEqual(again, (0, shown[: shown.index("\nAbove ")]))
        self.assertRegex(shown, r"\| Latin, DejaVuSans \| [0-9.]+ \| [0-9.]+ \| [0-9.]+ \| [0-9.]+ \|\n")


if __name__ == "__main__":
    unittest.main()
