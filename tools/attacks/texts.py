"""Attacks by a text, in scripts whose rules join, sort, split or insert."""

from functools import cache
from typing import Callable

from attacks.attack import Attack, Files, Value, font, lookup, table
from fuzzing.tables import whole_tables
from unicodejson.cli import MAKERS

CIRCLE = "\u25cc"
STRETCHED = frozenset({"ok", "S3 StretchRange", "S2 TooLong"})


@cache
def real_tables() -> Value:
    """The tables of the Unicode Character Database."""
    return {key: part for key, part in whole_tables().items() if key in MAKERS}


def script_font(letters: str, tag: str) -> Value:
    """A font of some letters and the dotted circle, with a table for the script, so that its shaper is chosen."""
    gsub = table("ccmp", [lookup("single", [[9999, 9999]])])
    gsub["scripts"] = [[tag, {"features": [0]}, []]]
    return font("".join(dict.fromkeys(letters + CIRCLE)), gsub)


def repeated(tag: str, unit: str, before: str, options: tuple[str, ...]) -> Callable[[int], Files]:
    """Files of a text that repeats a unit after what stands before it."""
    return lambda count: Files(script_font(before + unit, tag), before + unit * count, real_tables(), options)


def text(name: str, size: int, tag: str, unit: str, before: str = "", *options: str) -> Attack:
    return Attack(name, size, repeated(tag, unit, before, options))


def thai_halves(count: int) -> Files:
    """Tones, and then as many sara am, each of which moves before the tones."""
    letters = "\u0e48\u0e33\u0e4d\u0e32"
    return Files(script_font(letters, "thai"), "\u0e48" * count + "\u0e33" * count, real_tables())


def sorted_marks(count: int) -> Files:
    """Runs of 32 marks of two classes."""
    return Files(script_font("a\u0301\u0323", "latn"), ("a" + "\u0301\u0323" * 16) * count, real_tables())


def ignorables_and_marks(count: int) -> Files:
    given = script_font("a\u00ad\u0301", "latn")
    return Files(given, "a" + "\u00ad\u0301" * count, real_tables(), ("--remove-default-ignorables",))


def fraction(count: int) -> Files:
    gsub = table("frac", [lookup("single", [[1, 1]])])
    return Files(font("1\u2044", gsub), "1" * count + "\u2044" + "1" * count)


def stretched(count: int) -> Files:
    """A word of wide letters over which tiles are copied."""
    letters = "\u0712\u070f"
    tiles = lookup("multiple", [[2, [3, 4, 3]]])
    gsub = table("stch", [tiles])
    gsub["scripts"] = [["syrc", {"features": [0]}, []]]
    widths = [[1, 1000], [2, 0], [3, 10], [4, 20]]
    return Files(font(letters, gsub, h=widths), "\u070f" + "\u0712" * count, real_tables())


def endless_machine(count: int) -> Files:
    """A machine that reads to the text's end from each glyph, and accepts nothing."""
    steps = [[0, name, 0] for name in ("C", "V", "H")]
    tables = {**real_tables(), "syllables": {"indic": {"states": 1, "next": steps, "accept": []}}}
    return Files(script_font("\u0915", "dev2"), "\u0915" * count, tables)


TEXTS = [
    text("plain text", 100000, "latn", "a"),
    text("marks of two classes", 8000, "latn", "\u0301\u0323", "a"),
    Attack("runs of 32 marks", 1000, sorted_marks),
    text("variation selectors", 10000, "latn", "\ufe00", "a"),
    text("regional indicators", 20000, "latn", "\U0001f1e6"),
    text("emoji with joiners", 10000, "latn", "\U0001f468\u200d"),
    text("combining grapheme joiners", 10000, "latn", "\u034f\u0301", "a"),
    text("removed ignorables", 20000, "latn", "\u00ad", "a", "--remove-default-ignorables"),
    Attack("ignorables before marks", 10000, ignorables_and_marks),
    text("fractions", 10000, "latn", "1\u2044"),
    Attack("a long fraction", 10000, fraction),
    text("Arabic letters", 20000, "arab", "\u0628"),
    text("Arabic marks", 10000, "arab", "\u064b\u0654", "\u0628"),
    text("tatweels", 20000, "arab", "\u0640", "", "--safe-to-insert-tatweel"),
    Attack("stretched letters", 5000, stretched, STRETCHED),
    text("Hebrew points", 10000, "hebr", "\u05b4\u05bc", "\u05d0"),
    text("jamos", 10000, "hang", "\u1100\u1161"),
    text("Hangul tones", 10000, "hang", "\u302e"),
    text("Hangul syllables with tones", 10000, "hang", "\uac00\u302e"),
    Attack("Thai tones and sara am in halves", 5000, thai_halves),
    text("sara am", 10000, "thai", "\u0e01\u0e48\u0e33"),
    text("Khmer with one letter and joiners", 5000, "khmr", "\u200d", "\u1780"),
    text("Khmer subscripts", 5000, "khmr", "\u17d2\u1780", "\u1780"),
    text("Khmer vowels before", 5000, "khmr", "\u17c1", "\u1780"),
    text("Khmer, broken", 5000, "khmr", "\u17b6"),
    text("Myanmar subscripts", 5000, "mym2", "\u1039\u1000", "\u1000"),
    text("Myanmar vowels before", 5000, "mym2", "\u1031", "\u1000"),
    text("Devanagari conjuncts", 5000, "dev2", "\u094d\u0915", "\u0915"),
    text("Devanagari rephs", 5000, "dev2", "\u0930\u094d"),
    text("Devanagari matras", 5000, "dev2", "\u093f", "\u0915"),
    text("Devanagari with joiners", 5000, "dev2", "\u200d", "\u0915\u094d"),
    text("Devanagari syllables", 5000, "dev2", "\u0915\u093f"),
    text("Devanagari, broken", 5000, "dev2", "\u093f"),
    text("Malayalam dots", 5000, "mlm2", "\u0d4e\u0d15"),
    text("Balinese subscripts", 5000, "bali", "\u1b44\u1b13", "\u1b13"),
    text("Balinese, broken", 5000, "bali", "\u1b36"),
    text("Balinese vowels before", 5000, "bali", "\u1b3e", "\u1b13"),
    text("Tibetan subjoined letters", 5000, "tibt", "\u0f90", "\u0f40"),
    text("hieroglyphs", 5000, "egyp", "\U00013000\U00013430"),
    text("Mongolian selectors", 10000, "mong", "\u180b", "\u1820"),
    Attack("a machine that accepts nothing", 2000, endless_machine),
]
