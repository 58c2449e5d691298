"""Small fonts of which damaged ones are made: with each kind of subtable, of characters, of outlines and of file."""

import functools
import io
from dataclasses import dataclass
from typing import Any

from fuzzing.alphabets import Alphabet
from fuzzing.converted import SOURCES, font_of_cff, saved, small_fonts

# Lookups of all types and of most formats, over the glyphs of `plain`.
FEATURES = """
languagesystem DFLT dflt;
languagesystem arab dflt;
languagesystem latn dflt;
languagesystem latn TRK;
markClass acute <anchor 10 500> @TOP;
markClass grave <anchor 20 480> @TOP;
markClass cedilla <anchor 0 -10> @BOTTOM;
@SMALL = [a b c d];
@LARGE = [A B C D];
table GDEF {
  GlyphClassDef [@SMALL @LARGE], [f_i], [acute grave cedilla], [];
  Attach a 1 2;
} GDEF;
lookup ONE { sub a by A; sub b by B; sub d by C; } ONE;
lookup ALL { sub @SMALL by @LARGE; } ALL;
feature ccmp { sub a acute by b; sub C by c acute; } ccmp;
feature locl { script latn; language TRK; sub i by f; } locl;
feature aalt { sub a from [b c d]; sub b from [A B]; } aalt;
feature liga { sub f i by f_i; sub f f i by d; } liga;
feature ss01 { sub c by a b; sub d by c c c; } ss01;
feature ss02 { lookup ALL; } ss02;
feature calt {
  sub a' lookup ONE b; sub a b' lookup ONE c' lookup ALL d; ignore sub c d' a; sub c d' lookup ONE;
} calt;
feature rclt { lookupflag IgnoreMarks; sub [a b]' lookup ONE [c d]' f' lookup ALL A; } rclt;
feature clig { lookupflag UseMarkFilteringSet [acute grave]; sub a' lookup ALL acute; } clig;
feature dlig { lookupflag MarkAttachmentType @TOP; sub b' lookup ALL cedilla; } dlig;
feature rlig { rsub a b' c by d; rsub [a c] [b d]' by c; } rlig;
lookup UP { pos a <1 2 3 4>; pos b 20; pos [c d] <0 5 0 0>; } UP;
feature dist { lookup UP; } dist;
feature kern {
  pos a b -50; pos a c <1 0 2 0> ; pos b c <0 0 -10 0> ; enum pos [c d] f 12;
  subtable;
  pos @SMALL @LARGE -20; pos [a b] [f i] <1 2 3 4>;
} kern;
feature curs { pos cursive a <anchor 0 0> <anchor 500 10>; pos cursive b <anchor 1 1> <anchor NULL>; } curs;
feature mark {
  pos base @SMALL <anchor 250 450> mark @TOP <anchor 250 0> mark @BOTTOM;
  pos ligature f_i <anchor 100 450> mark @TOP ligComponent <anchor 400 450> mark @TOP <anchor 400 0> mark @BOTTOM;
} mark;
feature mkmk { pos mark [acute grave] <anchor 0 700> mark @TOP; } mkmk;
feature abvm { pos a' lookup UP b; pos [a b]' lookup UP [c d]' lookup UP f; } abvm;
"""
GLYPHS = ".notdef a b c d f i f_i A B C D acute grave cedilla".split()
CHARACTERS = {ord(letter): letter for letter in "abcdfiABCD"} | {0x301: "acute", 0x300: "grave", 0x327: "cedilla"}
CMAP_FORMATS = (0, 4, 6, 12, 13)


# What texts in these fonts have besides the fonts' own characters: selectors, a joiner, a digit, an unknown letter.
MORE = (0xFE00, 0xE0100, 0x200D, 0x31, 0x4E00)


@dataclass(frozen=True)
class Base:
    """A small font, and what texts in it are drawn from."""

    bytes: bytes
    alphabet: Alphabet


@functools.cache
def bases() -> tuple[Base, ...]:
    """All of them; those with all lookups stand more often."""
    sources = [characters for _, characters in SOURCES]
    scripts = (("Latn", "latn"), ("Arab", "arab"), ("Deva", "dev2"))
    alphabets = [Alphabet(*tags, (*characters, *MORE)) for tags, characters in zip(scripts, sources)]
    latin, lookups = Alphabet("Latn", "latn", (*CHARACTERS, *MORE)), with_lookups()
    made = (font_of_cff(), lookups, lookups, extended(), with_cmaps(), variable(), with_cff2(), with_subroutines())
    return (
        *map(Base, small_fonts(), alphabets),
        *(Base(font, latin) for font in (*made, collection(lookups))),
    )


def plain(names: list[str] = GLYPHS, is_true: bool = True) -> Any:
    """A font builder whose glyphs are squares, but for the first two."""
    from fontTools.fontBuilder import FontBuilder
    from fontTools.pens.ttGlyphPen import TTGlyphPen

    made = FontBuilder(1000, isTTF=is_true)
    made.setupGlyphOrder(names)
    made.setupCharacterMap({code: name for code, name in CHARACTERS.items() if name in names})
    if is_true:
        made.setupGlyf({name: square(TTGlyphPen(None), 100 + 10 * at).glyph() for at, name in enumerate(names)})
    made.setupHorizontalMetrics({name: (500 + at, at) for at, name in enumerate(names)})
    made.setupHorizontalHeader(ascent=800, descent=-200)
    made.setupVerticalHeader(ascent=500, descent=-500)
    made.setupVerticalMetrics({name: (1000, 10 + at) for at, name in enumerate(names)})
    made.setupOS2(sTypoAscender=790, sTypoDescender=-210)
    made.setupPost()
    return made


def square(pen: Any, size: int) -> Any:
    pen.moveTo((0, 0))
    for corner in ((size, 0), (size, size), (0, size)):
        pen.lineTo(corner)
    pen.closePath()
    return pen


def with_lookups(features: str = FEATURES) -> bytes:
    from fontTools.feaLib.builder import addOpenTypeFeaturesFromString

    made = plain()
    addOpenTypeFeaturesFromString(made.font, features)
    return saved(made.font)


def extended() -> bytes:
    """The same lookups behind extensions (GSUB type 7, GPOS type 9)."""
    from fontTools.ttLib import TTFont
    from fontTools.ttLib.tables import otTables

    font = TTFont(io.BytesIO(with_lookups()))
    for tag, kind, number in (("GSUB", otTables.ExtensionSubst, 7), ("GPOS", otTables.ExtensionPos, 9)):
        for lookup in font[tag].table.LookupList.Lookup:
            lookup.SubTable = [extension(kind(), subtable) for subtable in lookup.SubTable]
            lookup.LookupType = number
    return saved(font)


def extension(made: Any, subtable: Any) -> Any:
    made.Format, made.ExtensionLookupType, made.ExtSubTable = 1, subtable.LookupType, subtable
    return made


def with_cmaps() -> bytes:
    """Subtables of characters in several formats, and one of variation sequences."""
    from fontTools.ttLib import newTable
    from fontTools.ttLib.tables._c_m_a_p import CmapSubtable

    made = plain()
    table = newTable("cmap")
    table.tableVersion, table.tables = 0, []
    for at, form in enumerate(CMAP_FORMATS):
        part = CmapSubtable.newSubtable(form)
        part.platformID, part.platEncID = (1, 0) if form in (0, 6) else (3, 10 if form in (12, 13) else 1)
        part.language = at
        part.cmap = {code: name for code, name in CHARACTERS.items() if code < 256 or form}
        table.tables.append(part)
    variants = CmapSubtable.newSubtable(14)
    variants.platformID, variants.platEncID, variants.cmap = 0, 5, {}
    variants.uvsDict = {0xFE00: [(97, "A"), (98, None), (99, None)], 0xFE0F: [(97, "b")], 0xE0100: [(100, "D")]}
    table.tables.append(variants)
    made.font["cmap"] = table
    return saved(made.font)


def variable() -> bytes:
    """A variable font whose features vary."""
    from fontTools.varLib.featureVars import addFeatureVariations

    made = plain()
    made.setupNameTable({"familyName": "A", "styleName": "B"})
    made.setupFvar([("wght", 100, 400, 900, "Weight"), ("wdth", 50, 100, 200, "Width")], [])
    made.setupGvar({})
    both, usual = {"wght": (0.5, 1), "wdth": (0, 1)}, {"wdth": (0, 0)}
    ranges = [([{"wght": (-1, 1)}], {"a": "A"}), ([both], {"b": "B"}), ([usual], {"c": "C"})]
    addFeatureVariations(made.font, ranges)
    return saved(made.font)


def with_cff2() -> bytes:
    from fontTools.pens.t2CharStringPen import T2CharStringPen

    made = plain(is_true=False)
    pens = {name: square(T2CharStringPen(None, None, CFF2=True), 100 + at) for at, name in enumerate(GLYPHS)}
    made.setupCFF2({name: pen.getCharString() for name, pen in pens.items()})
    return saved(made.font)


def with_subroutines() -> bytes:
    """Outlines of CFF by subroutines of both kinds, with hints, curves and an accent of two glyphs (endchar)."""
    from fontTools.cffLib import SubrsIndex
    from fontTools.misc.psCharStrings import T2CharString

    programs = [
        [0, 0, "rmoveto", 100, 0, 0, 100, -100, 0, "rlineto", "endchar"],
        [10, 20, "hstem", 5, 60, "vstem", 30, 40, "rmoveto", -107, "callsubr", "endchar"],
        [7, 50, "hmoveto", -106, "callsubr", "endchar"],
        [-107, "callgsubr", "endchar"],
        [20, 30, "vmoveto", 1, 2, 3, 4, 5, 6, "rrcurveto", 1, 2, 3, 4, "hvcurveto", 5, 6, 7, 8, "vhcurveto", "endchar"],
        [1, 2, "rmoveto", 1, 2, 3, 4, 5, 6, "rrcurveto", 7, 8, 9, 10, 11, 12, 13, "hflex", "endchar"],
    ]
    made = plain(GLYPHS[: len(programs)], is_true=False)
    made.setupCFF("A", {}, {name: T2CharString(program=program[:]) for name, program in zip(GLYPHS, programs)}, {})
    outlines = made.font["CFF "].cff
    private = outlines.topDictIndex[0].Private
    private.Subrs = SubrsIndex()
    for program in ([10, 20, "rlineto", -106, "callsubr", "return"], [30, -40, "rlineto", -107, "callgsubr", "return"]):
        private.Subrs.append(T2CharString(program=program, private=private, globalSubrs=outlines.GlobalSubrs))
    outlines.GlobalSubrs.append(T2CharString(program=[5, 6, "rmoveto", 7, 8, 9, 10, "rlineto", "return"]))
    return saved(made.font)


def collection(first: bytes) -> bytes:
    """Two fonts that share tables, as a collection."""
    from fontTools.ttLib import TTCollection, TTFont

    made = TTCollection()
    made.fonts = [TTFont(io.BytesIO(first)), TTFont(io.BytesIO(font_of_cff()))]
    file = io.BytesIO()
    made.save(file)
    return file.getvalue()
