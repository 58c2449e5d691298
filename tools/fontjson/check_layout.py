"""How many rows a table of OpenType Layout makes, and that its ranges follow the format.

The fields are walked by fontTools' own lists of them. What one offset names is walked once, and counts each time.
"""

import struct
from collections import Counter
from functools import lru_cache
from typing import Any, NamedTuple

from fontTools.ttLib.tables import otTables
from fontTools.ttLib.tables.otBase import FormatSwitchingBaseTable
from fontTools.ttLib.tables.otConverters import (
    DeltaValue,
    ExtSubTable,
    FeatureParams,
    Struct,
    SubTable,
    Table,
    ValueFormat,
    ValueRecord,
    VarDataValue,
    VarIdxMapValue,
)

from fontjson.limits import MOST_RECORDS, MOST_SUBTABLES, most_rows, refuse

# Formats of value records: a bit for each field of two bytes, these for offsets of device tables.
DEVICES = 0xF0
EXTENSIONS = {"GSUB": 7, "GPOS": 9}
# What tables say to those below them: counts, formats of value records, a feature's tag.
State = tuple[tuple[str, Any], ...]


class Size(NamedTuple):
    """Rows (records, numbers of arrays, glyphs of coverages and classes), and subtables of lookups."""

    rows: int
    subtables: int

    def plus(self, other: "Size", times: int = 1) -> "Size":
        return Size(self.rows + times * other.rows, self.subtables + times * other.subtables)


NOTHING = Size(0, 0)


def check_layout(tag: str, data: bytes) -> tuple[Size, int]:
    """The size of GDEF, GSUB or GPOS, and its records that are walked one by one.

    Refuses what is beyond the limits, and ranges that overlap.
    """
    walk = Walk(tag, data)
    return walk.table(getattr(otTables, tag), 0, {}), walk.steps


class Walk:
    """One table's bytes, and the sizes of what was walked so far."""

    def __init__(self, tag: str, data: bytes) -> None:
        self.tag = tag
        self.data = data
        self.most_rows = most_rows(len(data))
        self.known: dict[tuple[Any, int, State], Size] = {}
        self.steps = 0

    def walked(self) -> None:
        """Counts a record that is walked. What is walked is reached, so the table has at least as many."""
        self.steps += 1
        if self.steps > MOST_RECORDS:
            raise refuse(f"table {self.tag}: more than {MOST_RECORDS:,} records")

    def number(self, at: int, length: int = 2) -> int:
        """An unsigned number; past the end 0, since fontTools refuses the table itself."""
        return int.from_bytes(self.data[at : at + length], "big")

    def within(self, size: Size) -> Size:
        if size.rows > self.most_rows:
            raise refuse(f"table {self.tag}: more than {self.most_rows:,} rows in {len(self.data):,} bytes")
        if size.subtables > MOST_SUBTABLES:
            raise refuse(f"table {self.tag}: more than {MOST_SUBTABLES:,} subtables")
        return size

    def table(self, kind: Any, at: int, state: dict[str, Any]) -> Size:
        """The size of what an offset names."""
        key = (kind, at, tuple(state.items()))
        known = self.known.get(key)
        if known is None:
            size, _ = Record(self, kind, at, at, dict(state)).walk()
            if kind is otTables.Coverage:
                size = size.plus(Size(self.ranges(at, "coverage"), 0))
            elif kind is otTables.ClassDef:
                size = size.plus(Size(self.ranges(at, "classes"), 0))
            known = self.known[key] = self.within(size)
        return known

    def ranges(self, at: int, what: str) -> int:
        """The glyphs of ranges, which don't overlap; the last glyph of one may be the next one's first, as in Inter."""
        if self.number(at) != 2:
            return 0
        count = max(min(self.number(at + 2), (len(self.data) - at - 4) // 6), 0)
        values = struct.unpack(f">{3 * count}H", self.data[at + 4 : at + 4 + 6 * count])
        total, last = 0, 0
        for start, end in sorted(zip(values[::3], values[1::3])):
            if start < last:
                raise refuse(f"table {self.tag}: ranges of {what} overlap at glyph {start}")
            total += max(end - start + 1, 0)
            last = max(end, last)
        return total

    def covered(self, at: int) -> int:
        """The glyphs of a coverage; one of an unknown format has none."""
        return self.number(at + 2) if self.number(at) == 1 else self.ranges(at, "coverage")


class Record:
    """The fields of one table or record, from `at` on; its offsets count from `start`."""

    def __init__(self, walk: Walk, kind: Any, start: int, at: int, state: dict[str, Any]) -> None:
        self.whole = walk
        self.kind = kind
        self.start = start
        self.at = at
        self.state = state
        self.values: dict[str, Any] = {}
        self.covered = 0

    def walk(self) -> tuple[Size, int]:
        """The record's size with all below it, and where it ends."""
        self.whole.walked()
        size = Size(1, 0)
        for field in self.fields():
            # Whether a field is there is an expression in fontTools' list.
            if not field.repeat and field.aux and not eval(field.aux, None, self.values):
                continue
            field = self.resolved(field)
            size = size.plus(self.array(field, self.count(field)) if field.repeat else self.single(field))
        return size, self.at

    def fields(self) -> list[Any]:
        if not issubclass(self.kind, FormatSwitchingBaseTable):
            return self.kind.converters
        form = self.whole.number(self.at)
        self.at += 2
        return self.kind.converters.get(form, [])

    def resolved(self, field: Any) -> Any:
        """A field whose kind another field says."""
        if isinstance(field, ExtSubTable):
            kind = self.values["ExtensionLookupType"]
            if kind == EXTENSIONS.get(self.whole.tag):
                raise refuse(f"table {self.whole.tag}: an extension of an extension")
            return field.getConverter(self.whole.tag, kind)
        if isinstance(field, SubTable):
            return field.getConverter(self.whole.tag, self.values["LookupType"])
        if isinstance(field, FeatureParams):
            return field.getConverter(self.state.get("FeatureTag", ""))
        return field

    def count(self, field: Any) -> int:
        given = field.repeat
        number = given if isinstance(given, int) else self.values.get(given, self.state.get(given, 0))
        return max(number + field.aux, 0)

    def single(self, field: Any) -> Size:
        """A field that is there once."""
        if isinstance(field, Table):
            offset = self.whole.number(self.at, field.staticSize)
            self.at += field.staticSize
            if not offset:
                return NOTHING
            if field.name == "Coverage":
                self.covered = self.whole.covered(self.start + offset)
            return self.whole.table(field.tableClass, self.start + offset, self.state)
        if isinstance(field, ValueRecord):
            return self.value_records(field, 1)
        if isinstance(field, Struct):
            return self.structs(field, 1)
        if isinstance(field, DeltaValue):
            return Size(max(self.values["EndSize"] - self.values["StartSize"] + 1, 0), 0)
        if isinstance(field, VarIdxMapValue):
            return Size(self.values["MappingCount"], 0)
        self.read(field)
        return NOTHING

    def read(self, field: Any) -> None:
        """A number or a tag, which other fields may need."""
        value: Any = self.whole.number(self.at, field.staticSize)
        if field.name == "FeatureTag":
            value = self.whole.data[self.at : self.at + 4].decode("latin-1")
        self.values[field.name] = value
        if isinstance(field, ValueFormat):
            self.state[field.which] = value
        elif field.isPropagated:
            self.state[field.name] = value
        self.at += field.staticSize

    def array(self, field: Any, count: int) -> Size:
        if isinstance(field, Table):
            return self.offsets(field, count)
        if isinstance(field, ValueRecord):
            return self.value_records(field, count)
        if isinstance(field, Struct):
            return self.structs(field, count)
        if isinstance(field, VarDataValue):
            return Size(count * (1 + self.values["VarRegionCount"]), 0)
        count = self.fitting(count, field.staticSize)
        self.at += count * field.staticSize
        return Size(count, 0)

    def offsets(self, field: Any, count: int) -> Size:
        """Tables by offsets, each of which may be named often."""
        width = field.staticSize
        count = self.fitting(count, width)
        # Sets of pairs without a glyph are not read, and in fonts in use they may be of any bytes.
        read = min(count, self.covered) if field.name == "PairSet" else count
        places = Counter(self.whole.number(self.at + n * width, width) for n in range(read))
        self.at += count * width
        subtables = count if isinstance(field, SubTable) and not isinstance(field, ExtSubTable) else 0
        size = Size(count, subtables)
        for offset, times in places.items():
            if offset:
                named = self.whole.table(field.tableClass, self.start + offset, self.state)
                size = self.whole.within(size.plus(named, times))
        return self.whole.within(size)

    def structs(self, field: Any, count: int) -> Size:
        """Records that follow one another."""
        alike = flat(field.tableClass, tuple(self.state.items()))
        if alike is not None:
            count = self.fitting(count, alike.width)
            self.at += count * alike.width
            return self.whole.within(Size(count * alike.rows, 0))
        size = NOTHING
        for _ in range(count):
            record = Record(self.whole, field.tableClass, self.start, self.at, dict(self.state))
            added, self.at = record.walk()
            size = self.whole.within(size.plus(added))
        return size

    def value_records(self, field: Any, count: int) -> Size:
        form = self.state.get(field.which, 0)
        width = 2 * form.bit_count()
        count = self.fitting(count, width)
        size = Size(count * (1 + form.bit_count()), 0)
        first = 2 * (form & ~DEVICES & 0xF).bit_count()
        for record in range(count if form & DEVICES else 0):
            for place in range((form & DEVICES).bit_count()):
                offset = self.whole.number(self.at + record * width + first + 2 * place)
                if offset:
                    size = size.plus(self.whole.table(otTables.Device, self.start + offset, {}))
        self.at += count * width
        return self.whole.within(size)

    def fitting(self, count: int, width: int) -> int:
        """How many of so many records of a width the table has room for; those without bytes all have."""
        return min(count, max(len(self.whole.data) - self.at, 0) // width) if width else count


class Flat(NamedTuple):
    """The bytes and rows of a record that names no table."""

    width: int
    rows: int


@lru_cache(maxsize=None)
def flat(kind: Any, state: State) -> Flat | None:
    """The width and rows of a kind of record, where all its records have the same; else None."""
    if issubclass(kind, FormatSwitchingBaseTable):
        return None
    values = dict(state)
    width, rows = 0, 1
    for field in kind.converters:
        if field.repeat not in values if field.repeat else field.aux:
            return None
        times = values[field.repeat] + field.aux if field.repeat else 1
        part = flat_field(field, state, values)
        if part is None:
            return None
        width, rows = width + times * part.width, rows + times * part.rows
    return Flat(width, rows)


def flat_field(field: Any, state: State, values: dict[str, Any]) -> Flat | None:
    if isinstance(field, ValueRecord):
        form = values.get(field.which, 0)
        return None if form & DEVICES else Flat(2 * form.bit_count(), 1 + form.bit_count())
    if isinstance(field, Table):
        return None
    if isinstance(field, Struct):
        return flat(field.tableClass, state)
    return Flat(field.staticSize, 0)
