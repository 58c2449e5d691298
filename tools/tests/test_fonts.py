"""Fonts of Debian's packages: valid by the format's rules, and the rows say again what fontTools says."""

import itertools
import json
import random
import shutil
import subprocess
import unicodedata
import unittest
from typing import Any, Callable

from support import DEJAVU, DEVANAGARI, FONTS, NASKH, json_of, needs_kuspveli

from fontTools.ttLib import TTFont
from formats.rules import font_faults


def subtables(font: TTFont, tag: str) -> list[list[Any]]:
    """fontTools' subtables of each lookup, extensions resolved."""
    return [[getattr(s, "ExtSubTable", s) for s in lookup.SubTable] for lookup in font[tag].table.LookupList.Lookup]


@needs_kuspveli
class Converted(unittest.TestCase):
    """Each font as it was converted once."""

    @classmethod
    def setUpClass(cls) -> None:
        cls.fonts = {path: (TTFont(path), json_of("font_to_json", path)) for path in FONTS}

    def each(self) -> Any:
        for path, (font, value) in self.fonts.items():
            with self.subTest(path):
                yield font, value

    def test_format(self) -> None:
        """Rows follow the format, whose name is the first key."""
        for _, value in self.each():
            self.assertEqual(list(font_faults(value)), [])
            self.assertEqual(next(iter(value.items())), ("format", "kuspveli-font"))

    def test_metrics(self) -> None:
        """Characters, advances, classes and names, in both directions."""
        for font, value in self.each():
            number = font.getGlyphID
            self.assertEqual(dict(value["cmap"]), {c: number(g) for c, g in font.getBestCmap().items() if number(g)})
            advances = {number(g): w for g, (w, _) in font["hmtx"].metrics.items()}
            self.assertEqual(dict(value["h"]), advances)
            classes = {number(g): c for g, c in font["GDEF"].table.GlyphClassDef.classDefs.items() if c}
            self.assertEqual(dict(value["gdef"]["classes"]), classes)
            self.assertEqual([name for _, name in value["names"]], font.getGlyphOrder())

    def test_extents(self) -> None:
        """Each glyph has the box of its outline, moved to its left side bearing; zeros where it has no outline."""
        for font, value in self.each():
            self.assertEqual([g for g, *_ in value["extents"]], list(range(len(font.getGlyphOrder()))))
            drawn = outlined(font)
            for glyph, left, top, width, height in value["extents"]:
                name = font.getGlyphName(glyph)
                outline = font["glyf"][name]
                if glyph in drawn:
                    self.assertEqual((left, top + height), (font["hmtx"][name][1], outline.yMin))
                    self.assertEqual((width, top), (outline.xMax - outline.xMin, outline.yMax))
                else:
                    self.assertEqual((left, top, width, height), (0, 0, 0, 0))

    @unittest.skipUnless(shutil.which("hb-shape"), "needs hb-shape (libharfbuzz-bin)")
    def test_lines_downwards(self) -> None:
        """Boxes, advances downwards and origins are those that hb-shape prints for single letters."""
        for path, (_, value) in self.fonts.items():
            boxes = {glyph: box for glyph, *box in value["extents"]}
            heights, origins = dict(value["v"]), dict(value["origins"])
            letters = [c for c, _ in value["cmap"] if unicodedata.category(chr(c)) in ("Lu", "Ll", "Lo", "Zs")][:200]
            for glyph in printed(path, letters):
                number = glyph["g"]
                self.assertEqual([glyph[key] for key in ("xb", "yb", "w", "h")], boxes[number], (path, glyph))
                origin = origins.get(number, value["ascender"])
                self.assertEqual((-glyph["ay"], -glyph["dy"]), (heights[number], origin))

    def test_substitutions(self) -> None:
        """Plain substitutions hold the same mappings; contexts as many rules, inputs and records."""
        for font, value in self.each():
            for lookup, given in zip(value["gsub"]["lookups"], subtables(font, "GSUB"), strict=True):
                for rows, subtable in zip(lookup["subtables"], given, strict=True):
                    self.assertEqual(by_rows(lookup["type"], rows, font), by_font_tools(lookup["type"], subtable))

    def test_contexts_apply_alike(self) -> None:
        """For random texts a context's rows choose the same records as fontTools' own structures."""
        for font, value in self.each():
            for table in ("gsub", "gpos"):
                for lookup, given in zip(value[table]["lookups"], subtables(font, table.upper()), strict=True):
                    if lookup["type"] in ("context", "chain"):
                        for rows, subtable in zip(lookup["subtables"], given, strict=True):
                            self.assert_same_choice(font, rows, subtable)

    def assert_same_choice(self, font: TTFont, rows: Any, subtable: Any) -> None:
        draw = random.Random(1)
        alphabet = glyphs_of(rows, font, draw)
        for _ in range(40):
            line = [draw.choice(alphabet) for _ in range(7)]
            names = [font.getGlyphName(glyph) for glyph in line]
            self.assertEqual(chosen_by_rows(rows, line, 3), chosen_by_font_tools(subtable, names, 3))

    def test_pairs(self) -> None:
        """For all covered first glyphs and some second ones, the same two records."""
        for font, value in self.each():
            for lookup, given in zip(value["gpos"]["lookups"], subtables(font, "GPOS"), strict=True):
                for rows, subtable in zip(lookup["subtables"], given, strict=True):
                    if lookup["type"] == "pair":
                        self.assert_same_pairs(font, rows, subtable)

    def assert_same_pairs(self, font: TTFont, rows: Any, subtable: Any) -> None:
        seconds = random.Random(2).sample(range(font["maxp"].numGlyphs), 60)
        for first, second in itertools.product(subtable.Coverage.glyphs, seconds):
            name = font.getGlyphName(second)
            expected = pair_by_font_tools(subtable, first, name)
            self.assertEqual(pair_by_rows(rows, font.getGlyphID(first), second), expected)

    def test_attachments(self) -> None:
        """Anchors of marks on bases, marks and ligatures."""
        for font, value in self.each():
            for lookup, given in zip(value["gpos"]["lookups"], subtables(font, "GPOS"), strict=True):
                for rows, subtable in zip(lookup["subtables"], given, strict=True):
                    if lookup["type"] in ("markbase", "markmark", "marklig"):
                        array = getattr(subtable, "MarkArray", None) or subtable.Mark1Array
                        coverage = getattr(subtable, "MarkCoverage", None) or subtable.Mark1Coverage
                        expected = sorted(
                            [font.getGlyphID(name), r.Class, [r.MarkAnchor.XCoordinate, r.MarkAnchor.YCoordinate]]
                            for name, r in zip(coverage.glyphs, array.MarkRecord)
                        )
                        self.assertEqual(rows["marks"], expected)

    def test_known_rows(self) -> None:
        """Facts that anyone can see in the fonts."""
        dejavu, naskh, devanagari = (self.fonts[path][1] for path in (DEJAVU, NASKH, DEVANAGARI))
        self.assertEqual(dejavu["upem"], 2048)
        self.assertEqual(dict(dejavu["cmap"])[ord("A")], 36)
        self.assertEqual(dict(dejavu["names"])[36], "A")
        self.assertIn("fina", [tag for tag, _ in naskh["gsub"]["features"]])
        self.assertIn("rphf", [tag for tag, _ in devanagari["gsub"]["features"]])
        self.assertEqual([tag for tag, *_ in devanagari["gsub"]["scripts"]], ["dev2", "deva"])


def printed(path: str, letters: list[int]) -> list[dict[str, int]]:
    """The glyphs that hb-shape prints of letters on lines of their own, from top to bottom, where each is one glyph."""
    words = ["--output-format=json", "--no-glyph-names", "--show-extents", "--direction=ttb", "--features=-vert"]
    text = "".join(f"{chr(letter)}\n" for letter in letters)
    ran = subprocess.run(["hb-shape", *words, path], input=text, capture_output=True, text=True, check=True)
    lines = [json.loads(line) for line in ran.stdout.splitlines()]
    return [line[0] for line in lines if len(line) == 1]


def outlined(font: TTFont) -> set[int]:
    return {font.getGlyphID(name) for name in font.getGlyphOrder() if font["glyf"][name].numberOfContours != 0}


# ---- substitutions


def by_rows(kind: str, rows: Any, font: TTFont) -> Any:
    """A subtable of rows with glyphs by names; of a context its counts."""
    name = font.getGlyphName
    if kind == "single":
        return {name(old): name(new) for old, new in rows}
    if kind in ("multiple", "alternate"):
        return {name(old): [name(glyph) for glyph in new] for old, new in rows}
    if kind == "ligature":
        return {name(f): [([name(g) for g in rest], name(new)) for rest, new in all_of] for f, all_of in rows}
    if kind == "reverse":
        return len(rows[2])
    return [len(rows["rules"]), sum(len(rule[3]) for rule in rows["rules"])]


def by_font_tools(kind: str, subtable: Any) -> Any:
    if kind == "single":
        return subtable.mapping
    if kind == "multiple":
        return subtable.mapping
    if kind == "alternate":
        return subtable.alternates
    if kind == "ligature":
        return {f: [(each.Component, each.LigGlyph) for each in all_of] for f, all_of in subtable.ligatures.items()}
    if kind == "reverse":
        return len(subtable.Substitute)
    rules = [rule for _, _, rule in rules_of(subtable)]
    return [len(rules), sum(len(rule.SubstLookupRecord) for rule in rules)]


# ---- contexts


def rules_of(subtable: Any) -> list[tuple[str, Any, Any]]:
    """fontTools' rules of a context, each with its format and what its first item is."""
    if subtable.Format == 3:
        return [("coverage", None, subtable)]
    found = []
    attributes = vars(subtable)
    sets = next(value for key, value in attributes.items() if key.endswith("Set") and isinstance(value, list))
    firsts = subtable.Coverage.glyphs if subtable.Format == 1 else range(len(sets))
    for first, rule_set in zip(firsts, sets):
        for rules in vars(rule_set).values() if rule_set is not None else ():
            if isinstance(rules, list):
                found += [("glyphs" if subtable.Format == 1 else "classes", first, rule) for rule in rules]
    return found


def chosen_by_font_tools(subtable: Any, line: list[str], at: int) -> Any:
    """The records of the first rule that matches at a place, by fontTools' own structures."""
    chained = hasattr(subtable, "LookAheadCoverage") or hasattr(subtable, "LookAheadClassDef") or is_chain(subtable)
    for form, first, rule in rules_of(subtable):
        if fits(subtable, form, first, rule, line, at, chained):
            records = getattr(rule, "SubstLookupRecord", None) or getattr(rule, "PosLookupRecord", None) or []
            return [[record.SequenceIndex, record.LookupListIndex] for record in records]
    return None


def is_chain(subtable: Any) -> bool:
    return type(subtable).__name__.startswith("Chain")


def fits(subtable: Any, form: str, first: Any, rule: Any, line: list[str], at: int, chained: bool) -> bool:
    """Whether a rule's input, what is before it and what is ahead stand there, nearest glyph first before it."""
    behind = line[:at][::-1]
    if form == "coverage":
        if not chained:
            return all_fit(rule.Coverage, line[at:], in_coverage)
        ahead = line[at + len(rule.InputCoverage) :]
        return (
            all_fit(rule.InputCoverage, line[at:], in_coverage)
            and all_fit(rule.BacktrackCoverage, behind, in_coverage)
            and all_fit(rule.LookAheadCoverage, ahead, in_coverage)
        )
    if line[at] not in subtable.Coverage.glyphs:
        return False
    rest = rule.Input if chained or form == "glyphs" else rule.Class
    wanted = [first, *rest]
    if not chained:
        return all_fit(wanted, line[at:], equal(None if form == "glyphs" else subtable.ClassDef))
    names = ("InputClassDef", "BacktrackClassDef", "LookAheadClassDef")
    maps = [None if form == "glyphs" else getattr(subtable, name) for name in names]
    return (
        all_fit(wanted, line[at:], equal(maps[0]))
        and all_fit(rule.Backtrack, behind, equal(maps[1]))
        and all_fit(rule.LookAhead, line[at + len(wanted) :], equal(maps[2]))
    )


def in_coverage(want: Any, got: str) -> bool:
    return got in want.glyphs


def equal(classes: Any) -> Callable[[Any, str], bool]:
    """Whether a glyph is the item that is wanted, or has its class."""
    return lambda want, got: want == (got if classes is None else classes.classDefs.get(got, 0))


def all_fit(wanted: list[Any], given: list[Any], fit: Any) -> bool:
    return len(wanted) <= len(given) and all(fit(want, got) for want, got in zip(wanted, given))


def chosen_by_rows(rows: Any, line: list[int], at: int) -> Any:
    """The records of the first rule that matches at a place, by the rows."""
    maps = [dict(each) for each in rows.get("classes", [[], [], []])]

    def fit(part: int) -> Any:
        if rows["format"] == "coverage":
            return lambda want, got: got in want
        if rows["format"] == "glyphs":
            return lambda want, got: want == got
        return lambda want, got: want == maps[part].get(got, 0)

    if "first" in rows and line[at] not in rows["first"]:
        return None
    for back, given, ahead, records in rows["rules"]:
        if (
            all_fit(given, line[at:], fit(1))
            and all_fit(back, line[:at][::-1], fit(0))
            and all_fit(ahead, line[at + len(given) :], fit(2))
        ):
            return records
    return None


def glyphs_of(rows: Any, font: TTFont, draw: random.Random) -> list[int]:
    """Glyphs that a context speaks of, and a few others."""
    found: set[int] = set(rows.get("first", []))
    for each in rows.get("classes", []):
        found.update(glyph for glyph, _ in each)
    if rows["format"] != "classes":
        for rule in rows["rules"]:
            for item in itertools.chain(*rule[:3]):
                found.update(item if isinstance(item, list) else [item])
    kept = draw.sample(sorted(found), min(12, len(found)))
    return kept + draw.sample(range(font["maxp"].numGlyphs), 2)


# ---- pairs


def pair_by_font_tools(subtable: Any, first: str, second: str) -> Any:
    if subtable.Format == 1:
        record_set = subtable.PairSet[subtable.Coverage.glyphs.index(first)]
        records = [r for r in record_set.PairValueRecord if r.SecondGlyph == second]
        record = records[0] if records else None
    else:
        row = subtable.Class1Record[subtable.ClassDef1.classDefs.get(first, 0)]
        record = row.Class2Record[subtable.ClassDef2.classDefs.get(second, 0)]
    if record is None:
        return None
    return [numbers(record.Value1), numbers(record.Value2) if subtable.ValueFormat2 else None]


def numbers(value: Any) -> list[int]:
    return [getattr(value, name, 0) for name in ("XPlacement", "YPlacement", "XAdvance", "YAdvance")]


def pair_by_rows(rows: Any, first: int, second: int) -> Any:
    if isinstance(rows, list):
        return next(([a, b] for f, s, a, b in rows if (f, s) == (first, second)), None)
    if first not in rows["first"]:
        return None
    class1, class2 = dict(rows["class1"]), dict(rows["class2"])
    return rows["records"][class1.get(first, 0)][class2.get(second, 0)]


if __name__ == "__main__":
    unittest.main()
