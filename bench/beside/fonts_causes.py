"""What a difference from hb-shape comes from, as far as it can be seen of the font, the text and the two lines."""

from functools import cache

from fontTools import unicodedata

from beside.differences import difference
from beside.fonts_found import KERNED, Found, Unlike
from shaping.texts import script_of
from unicodejson.cli import CRATE_VERSION, DEBIAN
from unicodejson.ucd import Ucd, version_of

INDIC = {"Beng", "Deva", "Gujr", "Guru", "Knda", "Mlym", "Orya", "Taml", "Telu"}
AAT = "a font with `morx` or `mort`, which HarfBuzz takes for GSUB"
BOXES = "a font with `kern` and marks, and without GPOS"
SORT = "clusters of Indic syllables, by the sort"
BASELESS = "Indic syllables without a base, in a font without a dotted circle"
OLD = "Indic texts in a font of the old specification"
VOWELS = "dotted circles of HarfBuzz's vowel constraints"
HALANTS = "a halant after a left matra of an Indic script"
LENGTHS = "the order of Telugu's length marks, which HarfBuzz 6.0 sorts"
FORMS = "Arabic texts in a font without rules for joined forms, for which HarfBuzz takes those of Unicode"
CIRCLES = "other dotted circles"
# Telugu's length marks have classes of their own in HarfBuzz 6.0.
LENGTH_MARKS = frozenset("\u0c55\u0c56\u0c48")
JOINED_FORMS = frozenset(("isol", "init", "medi", "fina"))
SYLLABIC, POSITIONAL = "IndicSyllabicCategory.txt", "IndicPositionalCategory.txt"
VOWEL_KINDS = ("Vowel_Independent", "Vowel_Dependent", "Consonant_Placeholder")
FAULT = "the program refuses the font or the text"
REST = "other"


def cause_of(found: Found, unlike: Unlike) -> str:
    """The cause of a text's difference in a font."""
    if unlike.fault:
        return FAULT
    if any(line in ("table morx", "table mort") for line in found.told):
        return AAT
    if KERNED in found.told:
        return BOXES
    text, script = unlike.text, script_of(unlike.text)
    seen, more = difference(unlike.own, unlike.theirs), circles(unlike.theirs, found) - circles(unlike.own, found)
    if seen is not None and seen.in_clusters_alone and script in INDIC:
        return SORT
    if 0 < more <= vowels_after_vowels(text):
        return VOWELS
    if script in INDIC and not found.circle and glyphs_of(unlike.own) == glyphs_of(unlike.theirs):
        return BASELESS
    if script in INDIC and not set(found.scripts).intersection(unicodedata.ot_tags_from_script(script)[:-1]):
        return OLD
    if script == "Arab" and JOINED_FORMS.isdisjoint(found.features):
        return FORMS
    if script in INDIC and has_halant_after_left(text):
        return HALANTS
    if not LENGTH_MARKS.isdisjoint(text) and not more:
        return LENGTHS
    return CIRCLES if more else REST


def glyphs_of(line: str) -> list[str]:
    """The numbers of a line's glyphs, in rising order."""
    return sorted(part.split("=")[0] for part in line.split("|"))


def circles(line: str, found: Found) -> int:
    return glyphs_of(line).count(str(found.circle)) if found.circle else 0


def vowels_after_vowels(text: str) -> int:
    """How many vowel signs stand directly after a vowel, a sign or what holds signs: before such as some of these are
    HarfBuzz's vowel constraints put a circle."""
    kinds = [categories(SYLLABIC).get(ord(character), "") for character in text]
    return sum(sign == "Vowel_Dependent" and before in VOWEL_KINDS for before, sign in zip(kinds, kinds[1:]))


def has_halant_after_left(text: str) -> bool:
    """Whether a halant stands directly after a vowel sign that is drawn at the left."""
    kinds, sides = categories(SYLLABIC), categories(POSITIONAL)
    pairs = zip(map(ord, text), map(ord, text[1:]))
    return any(kinds.get(sign) == "Virama" and sides.get(before) == "Left" for before, sign in pairs)


@cache
def categories(file: str) -> dict[int, str]:
    """The values of a property of characters, none where Debian's unicode-data is not there."""
    return Ucd(DEBIAN, version_of(CRATE_VERSION)).property(file) if DEBIAN.is_dir() else {}
