"""The rules of the two formats, as a checker: shapes, ranges, order of keys, indices.

Faults are lines; a valid file has none.
"""

from typing import Any, Callable, Iterator

from unicodejson.lists import (
    CATEGORIES,
    INDIC_CATEGORIES,
    INDIC_POSITIONS,
    JOINING_TYPES,
    KINDS,
    THAI_ACTIONS,
    UNIVERSAL_CATEGORIES,
)

Check = Callable[[Any], bool]
Faults = Iterator[str]


# ---- cells


def word(cell: Any) -> bool:
    return type(cell) is int and 0 <= cell <= 0xFFFF


def signed(cell: Any) -> bool:
    return type(cell) is int and -0x8000 <= cell <= 0x7FFF


def character(cell: Any) -> bool:
    return type(cell) is int and (0 <= cell < 0xD800 or 0xE000 <= cell <= 0x10FFFF)


def tag(cell: Any) -> bool:
    return isinstance(cell, str) and 1 <= len(cell) <= 4 and all(" " <= c <= "~" for c in cell)


def text(cell: Any) -> bool:
    return isinstance(cell, str)


def byte(cell: Any) -> bool:
    return type(cell) is int and 0 <= cell <= 255


def one_of(names: list[str]) -> Check:
    return lambda cell: cell in names


def below(limit: int) -> Check:
    return lambda cell: type(cell) is int and 0 <= cell < limit


def list_of(check: Check) -> Check:
    return lambda cell: isinstance(cell, list) and all(map(check, cell))


def row_of(*checks: Check) -> Check:
    return lambda cell: isinstance(cell, list) and len(cell) == len(checks) and all(c(x) for c, x in zip(checks, cell))


def or_null(check: Check) -> Check:
    return lambda cell: cell is None or check(cell)


value_record = row_of(signed, signed, signed, signed)
anchor = or_null(row_of(signed, signed))


def rows(where: str, given: Any, check: Check, key: Callable[[Any], Any] | None) -> Faults:
    """Rows of one shape, whose keys rise strictly where there is a key."""
    if not isinstance(given, list):
        yield f"{where}: no list"
        return
    before = None
    for place, row in enumerate(given):
        if not check(row):
            yield f"{where}[{place}]: shape or range of {row!r:.80}"
        elif key is not None:
            if before is not None and not before < key(row):
                yield f"{where}[{place}]: {key(row)!r} is not above {before!r}: {row!r:.80}"
            before = key(row)


def first(row: Any) -> Any:
    return row[0]


def first_two(row: Any) -> Any:
    return row[0], row[1]


# ---- FONT


def font_faults(font: dict[str, Any]) -> Faults:
    """The faults of a font."""
    for key, check in (("upem", word), ("ascender", signed)):
        if not check(font.get(key, 0)):
            yield f"{key}: range"
    yield from rows("cmap", font.get("cmap", []), row_of(character, word), first)
    yield from rows("variants", font.get("variants", []), row_of(character, character, word), first_two)
    yield from rows("h", font.get("h", []), row_of(word, word), first)
    yield from rows("v", font.get("v", []), row_of(word, word), first)
    yield from rows("origins", font.get("origins", []), row_of(word, signed), first)
    yield from rows("extents", font.get("extents", []), row_of(word, signed, signed, signed, signed), first)
    yield from rows("names", font.get("names", []), row_of(word, text), first)
    gdef = font.get("gdef", {})
    yield from rows("gdef classes", gdef.get("classes", []), row_of(word, word), first)
    yield from rows("gdef attach", gdef.get("attach", []), row_of(word, word), first)
    yield from rows("gdef sets", gdef.get("sets", []), list_of(word), None)
    for key in ("gsub", "gpos"):
        if key in font:
            yield from table_faults(key, font[key], len(gdef.get("sets", [])))


def table_faults(where: str, table: dict[str, Any], set_count: int) -> Faults:
    features, lookups = table.get("features", []), table.get("lookups", [])
    if not isinstance(lookups, list):
        yield f"{where} lookups: no list"
        return
    yield from rows(f"{where} features", features, row_of(tag, list_of(below(len(lookups)))), None)
    yield from rows(f"{where} scripts", table.get("scripts", []), row_of(tag, always, always), first)
    for script, default, systems in table.get("scripts", []):
        if default is not None:
            yield from system_faults(f"{where} {script}", default, len(features))
        yield from rows(f"{where} {script} systems", systems, row_of(tag, always), first)
        for language, system in systems:
            yield from system_faults(f"{where} {script} {language}", system, len(features))
    for place, lookup in enumerate(lookups):
        yield from lookup_faults(f"{where} lookup {place}", where, lookup, set_count, len(lookups))


def always(cell: Any) -> bool:
    return True


def system_faults(where: str, system: dict[str, Any], count: int) -> Faults:
    features = system.get("features", [])
    if not isinstance(features, list):
        yield f"{where} features: no list"
        return
    indices = [*features, *([system["required"]] if "required" in system else [])]
    if not list_of(below(count))(indices):
        yield f"{where}: index of a feature that is not there"


def lookup_faults(where: str, table: str, lookup: dict[str, Any], set_count: int, count: int) -> Faults:
    if not word(lookup.get("flags", 0)):
        yield f"{where}: flags"
    if "set" in lookup and not below(set_count)(lookup["set"]):
        yield f"{where}: set that is not there"
    checks = SUBSTITUTIONS if table == "gsub" else POSITIONS
    if lookup.get("type") not in checks:
        yield f"{where}: type {lookup.get('type')!r}"
        return
    subtables = lookup.get("subtables", [])
    if not isinstance(subtables, list):
        yield f"{where} subtables: no list"
        return
    for place, subtable in enumerate(subtables):
        yield from checks[lookup["type"]](f"{where} subtable {place}", subtable, count)


def by_first(check: Check) -> Callable[[str, Any, int], Faults]:
    return lambda where, subtable, count: rows(where, subtable, check, first)


def pairs(where: str, subtable: Any, count: int) -> Faults:
    if isinstance(subtable, list):
        yield from rows(where, subtable, row_of(word, word, value_record, or_null(value_record)), first_two)
        return
    records = subtable.get("records", [])
    if not list_of(word)(subtable.get("first", [])):
        yield f"{where}: first"
    # Without records no second class is past its list, as no class of a mark is without anchors.
    shortest = min((len(row) for row in records), default=0x10000)
    yield from rows(f"{where} class1", subtable.get("class1", []), row_of(word, below(len(records))), first)
    yield from rows(f"{where} class2", subtable.get("class2", []), row_of(word, below(shortest)), first)
    yield from rows(f"{where} records", records, list_of(row_of(value_record, or_null(value_record))), None)


def attachments(components: bool) -> Callable[[str, Any, int], Faults]:
    """Marks and bases: each mark's class has an anchor in every list."""

    def faults(where: str, subtable: Any, count: int) -> Faults:
        bases = subtable.get("bases", [])
        lists = [each for _, given in bases for each in (given if components else [given])]
        limit = min(map(len, lists), default=0x10000)
        yield from rows(f"{where} marks", subtable.get("marks", []), row_of(word, below(limit), anchor), first)
        anchors = list_of(list_of(anchor)) if components else list_of(anchor)
        yield from rows(f"{where} bases", bases, row_of(word, anchors), first)

    return faults


def contexts(where: str, subtable: Any, count: int) -> Faults:
    """Rules by the items of their format; one without input matches nothing."""
    items = {"glyphs": word, "classes": word, "coverage": list_of(word)}.get(subtable.get("format"))
    if items is None:
        yield f"{where}: format"
        return
    if subtable["format"] == "classes":
        classes = subtable.get("classes", [[], [], []])
        if not list_of(word)(subtable.get("first", [])) or len(classes) != 3:
            yield f"{where}: first or classes"
        for each in classes:
            yield from rows(f"{where} classes", each, row_of(word, word), first)
    records = list_of(row_of(word, below(count)))
    rule = row_of(list_of(items), list_of(items), list_of(items), records)
    yield from rows(f"{where} rules", subtable.get("rules", []), rule, None)


def reverses(where: str, subtable: Any, count: int) -> Faults:
    if not row_of(list_of(list_of(word)), list_of(list_of(word)), always)(subtable):
        yield f"{where}: shape"
    else:
        yield from rows(where, subtable[2], row_of(word, word), first)


SUBSTITUTIONS = {
    "single": by_first(row_of(word, word)),
    "multiple": by_first(row_of(word, list_of(word))),
    "alternate": by_first(row_of(word, list_of(word))),
    "ligature": by_first(row_of(word, list_of(row_of(list_of(word), word)))),
    "context": contexts,
    "chain": contexts,
    "reverse": reverses,
}
POSITIONS = {
    "single": by_first(row_of(word, value_record)),
    "pair": pairs,
    "cursive": by_first(row_of(word, anchor, anchor)),
    "markbase": attachments(False),
    "markmark": attachments(False),
    "marklig": attachments(True),
    "context": contexts,
    "chain": contexts,
}


# ---- TABLES


def tables_faults(tables: dict[str, Any]) -> Faults:
    """The faults of tables."""
    for key, check, row_key in TABLE_ROWS:
        yield from rows(key, tables.get(key, []), check, row_key)
    for shaper, machine in tables.get("syllables", {}).items():
        yield from machine_faults(shaper, machine)


def thai_key(row: Any) -> Any:
    return row[0], THAI_ACTIONS.index(row[1])


def language_key(row: Any) -> Any:
    return row[0].encode()


def few_tags(cell: Any) -> bool:
    return list_of(tag)(cell) and len(cell) <= 3


TABLE_ROWS: list[tuple[str, Check, Callable[[Any], Any]]] = [
    ("splits", row_of(character, character, character), first),
    ("pairs", row_of(character, character, character), first_two),
    ("classes", row_of(character, byte), first),
    ("mirrored", row_of(character, character), first),
    ("vertical", row_of(character, character), first),
    ("pictographic", row_of(character, character), first),
    ("joining", row_of(character, one_of(JOINING_TYPES)), first),
    ("indic", row_of(character, one_of(INDIC_CATEGORIES), one_of(INDIC_POSITIONS)), first),
    ("universal", row_of(character, one_of(UNIVERSAL_CATEGORIES)), first),
    ("thai", row_of(character, one_of(THAI_ACTIONS), character, character), thai_key),
    ("languages", row_of(text, few_tags), language_key),
]


def machine_faults(shaper: str, machine: dict[str, Any]) -> Faults:
    if shaper not in KINDS:
        yield f"syllables: no shaper {shaper!r}"
        return
    state, category = below(machine.get("states", 0)), one_of(CATEGORIES[shaper])

    def step_key(row: Any) -> Any:
        return row[0], CATEGORIES[shaper].index(row[1])

    yield from rows(f"{shaper} next", machine.get("next", []), row_of(state, category, state), step_key)
    yield from rows(f"{shaper} accept", machine.get("accept", []), row_of(state, one_of(KINDS[shaper])), first)
