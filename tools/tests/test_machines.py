"""Machines of syllables: the compiler against Python's expressions, words of four scripts, hb-shape's circles."""

import functools
import random
import re
import shutil
import subprocess
import tempfile
import unicodedata
import unittest
from pathlib import Path

from support import DEJAVU, NOTO, TOOLS, json_of, needs_unicode

from fontTools.ttLib import TTFont
from syllables.grammar import Category, Choice, Expression, GrammarFault, Repeat, read_grammar
from syllables.machine import Machine, compile_grammar, syllables_of
from unicodejson.lawful import Tables
from unicodejson.lists import KINDS

CIRCLE = 0x25CC
# Vowels of Khmer that are split before shaping.
KHMER_SPLITS = {0x17BE, 0x17BF, 0x17C0, 0x17C4, 0x17C5}
KHMER_VOWEL_E = 0x17C1


@functools.cache
def compiled(shaper: str) -> tuple[Machine, list[str]]:
    grammar = read_grammar(TOOLS / "machines" / f"{shaper}.txt")
    return compile_grammar(grammar), [kind for kind, _ in grammar.kinds]


def syllables(shaper: str, categories: list[str]) -> list[tuple[int, str]]:
    machine, kinds = compiled(shaper)
    return syllables_of(machine, kinds, categories, "non")


def pattern(expression: Expression, letters: dict[str, str]) -> str:
    """The expression for Python's `re`, a private letter for each category."""
    if isinstance(expression, Category):
        return letters.setdefault(expression.name, chr(0xE000 + len(letters)))
    if isinstance(expression, Repeat):
        sign = {(False, False): "?", (False, True): "*", (True, True): "+"}
        return f"(?:{pattern(expression.part, letters)}){sign[expression.at_least_once, expression.more_than_once]}"
    joiner = "|" if isinstance(expression, Choice) else ""
    return "(?:" + joiner.join(f"(?:{pattern(part, letters)})" for part in expression.parts) + ")"


class TheCompiler(unittest.TestCase):
    def test_against_expressions(self) -> None:
        """For random categories the machine finds the longest front that some kind fits, the first kind on a tie."""
        for shaper in KINDS:
            grammar = read_grammar(TOOLS / "machines" / f"{shaper}.txt")
            letters: dict[str, str] = {}
            kinds = [(kind, re.compile(pattern(expression, letters))) for kind, expression in grammar.kinds]
            draw = random.Random(shaper)
            for _ in range(400):
                categories = [draw.choice(list(letters)) for _ in range(draw.randint(1, 7))]
                text = "".join(letters[category] for category in categories)
                self.assertEqual(syllables(shaper, categories), by_expressions(kinds, text), (shaper, categories))

    def test_faults(self) -> None:
        """A grammar that can't be read says where."""
        lines = ["kind x", "kind x = (A", "kind x = A)", "kind x = ", "kind x = *", "kind x = A & B", "word y = A"]
        with tempfile.TemporaryDirectory() as folder:
            path = Path(folder) / "bad.txt"
            for line in [*lines, "name a = B\nname a = C"]:
                path.write_text(f"# nothing\n{line}\n")
                with self.assertRaisesRegex(GrammarFault, "bad.txt, line [23]"):
                    read_grammar(path)


def by_expressions(kinds: list[tuple[str, re.Pattern[str]]], text: str) -> list[tuple[int, str]]:
    found, start = [], 0
    while start < len(text):
        end, kind = start + 1, "non"
        for stop in range(len(text), start, -1):
            fitting = [name for name, expression in kinds if expression.fullmatch(text, start, stop)]
            if fitting:
                end, kind = stop, fitting[0]
                break
        found.append((end, kind))
        start = end
    return found


@needs_unicode
class Words(unittest.TestCase):
    """Words of four scripts, with the ends of their syllables as the script specifications cut them."""

    @classmethod
    def setUpClass(cls) -> None:
        cls.tables = json_of("unicode_to_json", "--only", "splits,classes,indic,universal")
        cls.indic = {row[0]: row[1] for row in cls.tables["indic"]}
        cls.universal = {row[0]: row[1] for row in cls.tables["universal"]}

    def categories(self, shaper: str, text: str) -> list[str]:
        if shaper == "universal":
            return [self.universal.get(ord(c), "O") for c in text]
        return [self.indic.get(ord(c), "X") for c in text]

    def test_words(self) -> None:
        cases = [
            # Devanagari: hi-ndi; ksha-tri-ya; rka with reph; a vowel with candrabindu; a matra without a base.
            ("indic", "\u0939\u093f\u0928\u094d\u0926\u0940", [(2, "consonant"), (6, "consonant")]),
            (
                "indic",
                "\u0915\u094d\u0937\u0924\u094d\u0930\u093f\u092f",
                [(3, "consonant"), (7, "consonant"), (8, "consonant")],
            ),
            ("indic", "\u0930\u094d\u0915", [(3, "consonant")]),
            ("indic", "\u0906\u0901\u0916", [(2, "vowel"), (3, "consonant")]),
            ("indic", "\u093f\u0915", [(1, "broken"), (2, "consonant")]),
            ("indic", "\u25cc\u093f a", [(2, "standalone"), (3, "non"), (4, "non")]),
            ("indic", "\u093d\u0915", [(1, "symbol"), (2, "consonant")]),
            # Khmer: khmae with a coeng mo and a left vowel; sroh; a vowel alone.
            ("khmer", "\u1781\u17d2\u1798\u17c2\u179a", [(4, "consonant"), (5, "consonant")]),
            ("khmer", "\u179f\u17d2\u179a\u17bb\u17c7", [(5, "consonant")]),
            ("khmer", "\u17c1\u1780", [(1, "broken"), (2, "consonant")]),
            ("khmer", "a\u1780", [(1, "non"), (2, "consonant")]),
            # Myanmar: mranma with medial ra and a stacked ma; kinzi; a vowel alone.
            ("myanmar", "\u1019\u103c\u1014\u103a\u1019\u102c", [(2, "consonant"), (4, "consonant"), (6, "consonant")]),
            ("myanmar", "\u1021\u1004\u103a\u1039\u1002", [(1, "consonant"), (5, "consonant")]),
            ("myanmar", "\u1031\u1000", [(1, "broken"), (2, "consonant")]),
            # Balinese: ba-li with a left vowel sign; aksara with a gantungan; the sign surang alone.
            ("universal", "\u1b29\u1b2e\u1b36", [(1, "standard"), (3, "standard")]),
            ("universal", "\u1b05\u1b13\u1b44\u1b31\u1b2d", [(1, "standard"), (4, "standard"), (5, "standard")]),
            ("universal", "\u1b3e\u1b13", [(1, "broken"), (2, "standard")]),
            ("universal", "\u1b13\u1b44", [(2, "standard")]),
        ]
        for shaper, text, expected in cases:
            with self.subTest(text=text):
                self.assertEqual(syllables(shaper, self.categories(shaper, text)), expected)

    @unittest.skipUnless(shutil.which("hb-shape"), "needs hb-shape (libharfbuzz-bin)")
    def test_circles_of_ordered_marks(self) -> None:
        """The same in scripts whose marks are put in the order of their classes, or spelled otherwise than drawn."""
        cases = [
            ("Sans", "NKo", "nkoo", "rtl", [*range(0x7CA, 0x7F4), 0x7FD]),
            ("Sans", "Limbu", "limb", "ltr", [*range(0x1901, 0x191F), *range(0x1920, 0x192C), *range(0x1930, 0x193C)]),
            ("Sans", "Chakma", "cakm", "ltr", [*range(0x11107, 0x11135), 0x11100, 0x11101, 0x11102]),
            ("Sans", "Cham", "cham", "ltr", [*range(0xAA06, 0xAA37), *range(0xAA40, 0xAA4E)]),
            ("Serif", "Tibetan", "tibt", "ltr", [*range(0xF40, 0xF43), *range(0xF71, 0xF85), *range(0xF90, 0xF93)]),
            ("Sans", "Buginese", "bugi", "ltr", [*range(0x1A00, 0x1A1C)]),
        ]
        order = Tables(self.tables)
        for family, name, script, direction, characters in cases:
            path = f"{NOTO}Noto{family}{name}-Regular.ttf"
            draw = random.Random(script)
            texts = ["".join(chr(draw.choice(characters)) for _ in range(draw.randint(1, 4))) for _ in range(500)]
            for text, circles in zip(texts, circles_of(path, script, texts, direction), strict=True):
                split = order.order([piece for character in text for piece in order.expansion(ord(character))])
                categories = self.categories("universal", "".join(map(chr, split)))
                broken = sum(kind == "broken" for _, kind in syllables("universal", categories))
                self.assertEqual(circles, broken, (script, [hex(ord(c)) for c in text]))

    @unittest.skipUnless(shutil.which("hb-shape"), "needs hb-shape (libharfbuzz-bin)")
    def test_circles_of_tifinagh(self) -> None:
        """The consonant joiner stands after a letter, and alone has a circle."""
        draw = random.Random("tfng")
        letters = [*range(0x2D30, 0x2D68), *[0x2D7F] * 20]
        texts = ["".join(chr(draw.choice(letters)) for _ in range(draw.randint(1, 5))) for _ in range(500)]
        for text, circles in zip(texts, circles_of(DEJAVU, "tfng", texts), strict=True):
            broken = sum(kind == "broken" for _, kind in syllables("universal", self.categories("universal", text)))
            self.assertEqual(circles, broken, [hex(ord(c)) for c in text])

    def test_hieroglyphs(self) -> None:
        """Joiners between hieroglyphs and segments are of one syllable with them; one that joins nothing is by itself."""
        cases = {
            "\U00013000\U00013430\U00013000\U00013431\U00013002": [(5, "hieroglyph")],
            "\U00013437\U00013000\U00013430\U00013000\U00013438\U00013431\U00013000": [(7, "hieroglyph")],
            "\U00013430": [(1, "non")],
            "\U00013431\U00013000": [(1, "non"), (2, "hieroglyph")],
        }
        for text, expected in cases.items():
            self.assertEqual(syllables("universal", self.categories("universal", text)), expected, ascii(text))

    @unittest.skipUnless(shutil.which("hb-shape"), "needs hb-shape (libharfbuzz-bin)")
    def test_circles_of_hieroglyphs(self) -> None:
        """Well-formed texts have no circle; HarfBuzz 6.0 has joiners as halants, so one that joins nothing has one."""
        path = f"{NOTO}NotoSansEgyptianHieroglyphs-Regular.ttf"
        draw = random.Random("egyp")
        signs, joiners = range(0x13000, 0x13080), [*range(0x13430, 0x13437), *range(0x13439, 0x1343C)]
        texts = []
        for _ in range(200):
            more = (chr(draw.choice(joiners)) + chr(draw.choice(signs)) for _ in range(draw.randint(0, 4)))
            texts.append(chr(draw.choice(signs)) + "".join(more))
        for text, circles in zip(texts, circles_of(path, "egyp", texts), strict=True):
            [(end, kind)] = syllables("universal", self.categories("universal", text))
            self.assertEqual((circles, end, kind), (0, len(text), "hieroglyph"), ascii(text))
        alone = [chr(joiner) for joiner in joiners]
        self.assertEqual(circles_of(path, "egyp", alone), [1] * len(alone))

    @unittest.skipUnless(shutil.which("hb-shape"), "needs hb-shape (libharfbuzz-bin)")
    def test_circles(self) -> None:
        """HarfBuzz puts a dotted circle into each broken syllable; so as many circles as broken syllables."""
        # Without independent vowels, before whose signs it puts circles of another kind.
        cases = [
            ("indic", "Devanagari", "deva", [*range(0x915, 0x93A), *range(0x93C, 0x950), 0x902, 0x903, 0x200C, 0x200D]),
            ("indic", "Bengali", "beng", [*range(0x995, 0x9B3), *range(0x9BC, 0x9CF), 0x981, 0x982, 0x200C, 0x200D]),
            ("khmer", "Khmer", "khmr", [*range(0x1780, 0x17A3), *range(0x17B6, 0x17D4), 0x200C, 0x200D]),
            ("myanmar", "Myanmar", "mymr", [*range(0x1000, 0x1022), *range(0x102B, 0x1040), 0x200C, 0x200D]),
            ("universal", "Balinese", "bali", [*range(0x1B13, 0x1B4C), *range(0x1B00, 0x1B05)]),
            ("universal", "Javanese", "java", [*range(0xA980, 0xA9CE)]),
        ]
        for shaper, name, script, characters in cases:
            path = f"{NOTO}NotoSans{name}-Regular.ttf"
            draw = random.Random(script)
            texts = ["".join(chr(draw.choice(characters)) for _ in range(draw.randint(1, 4))) for _ in range(500)]
            for text, circles in zip(texts, circles_of(path, script, texts), strict=True):
                split = normalized(text)
                broken = sum(kind == "broken" for _, kind in syllables(shaper, self.categories(shaper, split)))
                self.assertEqual(circles, broken, (script, [hex(ord(c)) for c in text]))


def normalized(text: str) -> str:
    split = "".join(chr(KHMER_VOWEL_E) + c if ord(c) in KHMER_SPLITS else c for c in text)
    return unicodedata.normalize("NFD", split)


def circles_of(path: str, script: str, texts: list[str], direction: str = "ltr") -> list[int]:
    font = TTFont(path)
    glyph = str(font.getGlyphID(font.getBestCmap()[CIRCLE]))
    words = ["--no-glyph-names", "--no-positions", "--no-clusters", f"--script={script}", "--language=und"]
    lines = "\n".join(texts) + "\n"
    command = ["hb-shape", *words, f"--direction={direction}", path]
    result = subprocess.run(command, input=lines, capture_output=True, text=True, check=True)
    return [line.strip("[]").split("|").count(glyph) for line in result.stdout.splitlines()]


if __name__ == "__main__":
    unittest.main()
