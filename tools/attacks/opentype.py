"""Font values as OpenType files, for hb-shape: without outlines, with the types of lookups that the attacks have most."""

from itertools import chain
from pathlib import Path
from typing import Any, Callable, Iterator

from fontTools.fontBuilder import FontBuilder
from fontTools.otlLib import builder
from fontTools.ttLib import newTable
from fontTools.ttLib.tables import otTables as ot
from fontTools.ttLib.tables._g_l_y_f import Glyph

from attacks.attack import Value

MOST_GLYPHS = 0xFFFF
# A table of so many numbers is reached by offsets of 16 bits; fontTools tries long to place more.
MOST_NUMBERS = 1 << 14
Subtables = list[Any]


class Unwritten(Exception):
    """A value that has what is not written here."""


def write_opentype(value: Value, path: Path) -> None:
    """Writes a font whose glyphs, characters, advances, classes and lookups are those of the value."""
    names = glyph_names(value)
    font = FontBuilder(value.get("upem", 1000), isTTF=True)
    font.setupGlyphOrder(names)
    font.setupCharacterMap({character: names[glyph] for character, glyph in value.get("cmap", [])})
    font.setupGlyf({name: Glyph() for name in names})
    advances = dict(value.get("h", []))
    font.setupHorizontalMetrics({name: (advances.get(glyph, 0), 0) for glyph, name in enumerate(names)})
    font.setupHorizontalHeader(ascent=value.get("ascender", 800), descent=-200)
    font.setupPost(keepGlyphNames=False)
    if "classes" in value.get("gdef", {}):
        font.font["GDEF"] = gdef(names, value["gdef"])
    for tag, kinds in (("GSUB", GSUB), ("GPOS", GPOS)):
        if tag.lower() in value:
            font.font[tag] = Layout(tag, kinds, names).table(value[tag.lower()])
    font.save(path)


def glyph_names(value: Value) -> list[str]:
    """Names for all glyphs that a number of the value can mean; those of lookups may be other numbers too."""
    own = [glyph for _, glyph in value.get("cmap", [])] + [glyph for glyph, _ in value.get("h", [])]
    if max(own, default=0) >= MOST_GLYPHS:
        raise Unwritten(f"more than {MOST_GLYPHS} glyphs")
    more = numbers_in([value.get(key, {}) for key in ("gsub", "gpos", "gdef")])
    numbers = [*own, *(number for number in more if 0 <= number < MOST_GLYPHS)]
    return [".notdef", *(f"g{glyph}" for glyph in range(1, max(numbers, default=0) + 1))]


def numbers_in(value: Any) -> Iterator[int]:
    if isinstance(value, int):
        yield value
    elif isinstance(value, (list, dict)):
        yield from chain.from_iterable(map(numbers_in, value.values() if isinstance(value, dict) else value))


def gdef(names: list[str], value: Value) -> Any:
    table = newTable("GDEF")
    made = table.table = ot.GDEF()
    made.Version = 0x00010002
    made.AttachList = made.LigCaretList = made.MarkAttachClassDef = made.MarkGlyphSetsDef = None
    made.GlyphClassDef = ot.GlyphClassDef()
    made.GlyphClassDef.classDefs = {names[glyph]: number for glyph, number in value["classes"]}
    if "attach" in value:
        made.MarkAttachClassDef = ot.MarkAttachClassDef()
        made.MarkAttachClassDef.classDefs = {names[glyph]: number for glyph, number in value["attach"]}
    if "sets" in value:
        numbers = {name: number for number, name in enumerate(names)}
        sets = [[names[glyph] for glyph in glyphs] for glyphs in value["sets"]]
        made.MarkGlyphSetsDef = builder.buildMarkGlyphSetsDef(sets, numbers)
    return table


class Layout:
    """One of the two tables, by its kinds of lookups: a number for each, and what makes its subtables."""

    def __init__(self, tag: str, kinds: dict[str, tuple[int, Callable[..., Subtables]]], names: list[str]) -> None:
        self.tag, self.kinds, self.names = tag, kinds, names
        self.numbers = {name: number for number, name in enumerate(names)}

    def table(self, value: Value) -> Any:
        if sum(1 for _ in numbers_in(value)) > MOST_NUMBERS:
            raise Unwritten("a table of many rows")
        made = newTable(self.tag)
        table = made.table = getattr(ot, self.tag)()
        table.Version = 0x00010000
        table.ScriptList, table.FeatureList, table.LookupList = ot.ScriptList(), ot.FeatureList(), ot.LookupList()
        table.ScriptList.ScriptRecord = [self.script(*row) for row in value["scripts"]]
        table.FeatureList.FeatureRecord = [self.feature(*row) for row in value["features"]]
        table.LookupList.Lookup = list(map(self.lookup, value["lookups"]))
        return made

    def script(self, tag: str, default: Value | None, systems: list[Any]) -> Any:
        if default is None or systems:
            raise Unwritten("a script's systems")
        record = ot.ScriptRecord()
        record.ScriptTag, record.Script = tag, ot.Script()
        system = record.Script.DefaultLangSys = ot.DefaultLangSys()
        system.ReqFeatureIndex, system.FeatureIndex = default.get("required", 0xFFFF), default["features"]
        record.Script.LangSysRecord = []
        return record

    def feature(self, tag: str, lookups: list[int]) -> Any:
        record = ot.FeatureRecord()
        record.FeatureTag, record.Feature = tag, ot.Feature()
        record.Feature.FeatureParams, record.Feature.LookupListIndex = None, lookups
        return record

    def lookup(self, value: Value) -> Any:
        if value["type"] not in self.kinds:
            raise Unwritten(f"a lookup of the type {value['type']}")
        kind, make = self.kinds[value["type"]]
        lookup = ot.Lookup()
        lookup.LookupType, lookup.LookupFlag = kind, value.get("flags", 0)
        if "set" in value:
            lookup.MarkFilteringSet = value["set"]
        lookup.SubTable = [made for each in value["subtables"] for made in make(self, each)]
        return lookup

    def name(self, glyph: int) -> str:
        return self.names[glyph]

    def all(self, glyphs: list[int]) -> list[str]:
        return [self.names[glyph] for glyph in glyphs]


def single(of: Layout, rows: list[Any]) -> Subtables:
    return [builder.buildSingleSubstSubtable({of.name(old): of.name(new) for old, new in rows})]


def multiple(of: Layout, rows: list[Any]) -> Subtables:
    return [builder.buildMultipleSubstSubtable({of.name(old): of.all(new) for old, new in rows})]


def alternate(of: Layout, rows: list[Any]) -> Subtables:
    return [builder.buildAlternateSubstSubtable({of.name(old): of.all(new) for old, new in rows})]


def ligature(of: Layout, rows: list[Any]) -> Subtables:
    """The rules of a glyph stay in their order, also where two are the same."""
    subtable = ot.LigatureSubst()
    subtable.Format = 1
    subtable.ligatures = {}
    for first, rules in rows:
        made = subtable.ligatures[of.name(first)] = []
        for components, glyph in rules:
            made.append(ot.Ligature())
            made[-1].Component, made[-1].LigGlyph = of.all(components), of.name(glyph)
            made[-1].CompCount = len(components) + 1
    return [subtable]


def context(of: Layout, value: Value) -> Subtables:
    """A context by glyphs, as a chained one."""
    if value["format"] != "glyphs":
        raise Unwritten(f"a context by {value['format']}")
    kind = "Subst" if of.tag == "GSUB" else "Pos"
    subtable = getattr(ot, f"ChainContext{kind}")()
    subtable.Format = 1
    firsts = sorted({rule[1][0] for rule in value["rules"]})
    subtable.Coverage = builder.buildCoverage(of.all(firsts), of.numbers)
    sets = []
    for first in firsts:
        rules = getattr(ot, f"Chain{kind[:3]}RuleSet")()
        setattr(rules, f"Chain{kind[:3]}Rule", [chained(of, kind, *rule) for rule in value["rules"] if rule[1][0] == first])
        sets.append(rules)
    setattr(subtable, f"Chain{kind[:3]}RuleSet", sets)
    return [subtable]


def chained(
    of: Layout, kind: str, before: list[int], glyphs: list[int], after: list[int], records: list[list[int]]
) -> Any:
    rule = getattr(ot, f"Chain{kind[:3]}Rule")()
    rule.Backtrack, rule.Input, rule.LookAhead = of.all(before), of.all(glyphs[1:]), of.all(after)
    rule.BacktrackGlyphCount, rule.GlyphCount, rule.LookAheadGlyphCount = len(before), len(glyphs), len(after)
    called = []
    for index, lookup in records:
        record = getattr(ot, f"{kind}LookupRecord")()
        record.SequenceIndex, record.LookupListIndex = index, lookup
        called.append(record)
    setattr(rule, f"{kind}LookupRecord", called)
    return rule


def pair(of: Layout, rows: Any) -> Subtables:
    if isinstance(rows, dict):
        raise Unwritten("pairs by classes")
    pairs = {(of.name(a), of.name(b)): (record(first), record(second)) for a, b, first, second in rows}
    return builder.buildPairPosGlyphs(pairs, of.numbers)


def record(value: list[int] | None) -> Any:
    fields = ("XPlacement", "YPlacement", "XAdvance", "YAdvance")
    return None if value is None else builder.buildValue({name: part for name, part in zip(fields, value) if part})


def anchor(at: list[int] | None) -> Any:
    return None if at is None else builder.buildAnchor(*at)


def mark_to_base(of: Layout, value: Value) -> Subtables:
    marks = {of.name(glyph): (number, anchor(at)) for glyph, number, at in value["marks"]}
    bases = {of.name(glyph): dict(enumerate(map(anchor, anchors))) for glyph, anchors in value["bases"]}
    return builder.buildMarkBasePos(marks, bases, of.numbers)


def mark_to_ligature(of: Layout, value: Value) -> Subtables:
    marks = {of.name(glyph): (number, anchor(at)) for glyph, number, at in value["marks"]}
    bases = {of.name(glyph): [dict(enumerate(map(anchor, part))) for part in parts] for glyph, parts in value["bases"]}
    return builder.buildMarkLigPos(marks, bases, of.numbers)


def cursive(of: Layout, rows: list[Any]) -> Subtables:
    return [builder.buildCursivePosSubtable({of.name(g): (anchor(a), anchor(b)) for g, a, b in rows}, of.numbers)]


GSUB = {
    "single": (1, single),
    "multiple": (2, multiple),
    "alternate": (3, alternate),
    "ligature": (4, ligature),
    "context": (6, context),
    "chain": (6, context),
}
GPOS = {
    "pair": (2, pair),
    "cursive": (3, cursive),
    "markbase": (4, mark_to_base),
    "marklig": (5, mark_to_ligature),
    "chain": (8, context),
}
