"""Small fonts that would take much: tables written byte by byte, each against one rule or limit."""

import io
import struct
import zlib
from typing import Any, Callable, Iterator

from fontTools.cffLib import SubrsIndex, cffStandardStrings
from fontTools.fontBuilder import FontBuilder
from fontTools.misc.psCharStrings import T2CharString
from fontTools.pens.t2CharStringPen import T2CharStringPen
from fontTools.pens.ttGlyphPen import TTGlyphPen
from fontTools.ttLib import TTFont
from fontTools.ttLib.tables.DefaultTable import DefaultTable

ALL = (0, 0xFFFF)
EMPTY = struct.pack(">HHH", 1, 0, 0)
MIB = 1 << 20

# Each kind with a font of it, and words of the one line that refuses it.
Kind = tuple[str, Callable[[], bytes], str]


def words(*numbers: int) -> bytes:
    """Numbers of two bytes."""
    return struct.pack(f">{len(numbers)}H", *numbers)


def longs(*numbers: int) -> bytes:
    return struct.pack(f">{len(numbers)}L", *numbers)


def plain(first: str = "a") -> TTFont:
    """A font of three glyphs, of which the one of the letter a has a name."""
    made = FontBuilder(1000, isTTF=True)
    names = [".notdef", first, "b"]
    made.setupGlyphOrder(names)
    made.setupCharacterMap({ord("a"): first, ord("b"): "b"})
    made.setupGlyf({name: TTGlyphPen(None).glyph() for name in names})
    made.setupHorizontalMetrics({name: (500, 0) for name in names})
    made.setupHorizontalHeader(ascent=800, descent=-200)
    made.setupPost()
    return made.font


def saved(font: TTFont) -> bytes:
    file = io.BytesIO()
    font.save(file, reorderTables=None)
    return file.getvalue()


def with_tables(tables: dict[str, bytes]) -> bytes:
    """The plain font with other tables, which stay as they are."""
    font = TTFont(io.BytesIO(saved(plain())), recalcBBoxes=False)
    for tag, data in tables.items():
        font[tag] = DefaultTable(tag)
        font[tag].data = data
    return saved(font)


# ---- cmap


def cmap(*subtables: bytes, platform: int = 3, encoding: int = 10) -> bytes:
    head, at = words(0, len(subtables)), 4 + 8 * len(subtables)
    for subtable in subtables:
        head += words(platform, encoding) + longs(at)
        at += len(subtable)
    return with_tables({"cmap": head + b"".join(subtables)})


def groups(form: int, *ranges: tuple[int, int]) -> bytes:
    """A subtable of format 12 or 13."""
    rows = b"".join(longs(first, last, 1) for first, last in ranges)
    return words(form, 0) + longs(16 + len(rows), 0, len(ranges)) + rows


def segments(*ranges: tuple[int, int]) -> bytes:
    """A subtable of format 4."""
    firsts, lasts = zip(*ranges, ALL[1:] * 2)
    count = len(firsts)
    body = words(2 * count, 0, 0, 0, *lasts, 0, *firsts, *([1] * count), *([0] * count))
    return words(4, 6 + len(body), 0) + body


def selectors(count: int, *ranges: tuple[int, int]) -> bytes:
    """A subtable of format 14: selectors that share ranges of characters."""
    at = 10 + 11 * count
    rows = b"".join(longs(0xE0100 + n)[1:] + longs(at, 0) for n in range(count))
    shared = longs(len(ranges)) + b"".join(longs(first)[1:] + bytes([more]) for first, more in ranges)
    return words(14) + longs(at + len(shared), count) + rows + shared


def many_subtables() -> bytes:
    """As many subtables as fit in a table's list, which overlap."""
    count = 5000
    head = b"".join(words(0, 0) + longs(4 + 8 * count + 2 * n) for n in range(count))
    return with_tables({"cmap": words(0, count) + head + words(6) * count})


def high_bytes() -> bytes:
    """Format 2, where each high byte has 65,535 low ones."""
    keys = words(*([8] * 256))
    headers = words(0, 0, 0, 0) + words(0, 0xFFFF, 0, 2)
    body = keys + headers + words(*([1] * 30000))
    return cmap(words(2, 6 + len(body), 0) + body, encoding=1)


# ---- layout


def layout(tag: str, scripts: bytes = EMPTY[:2], features: bytes = EMPTY[:2], lookups: bytes = EMPTY[:2]) -> bytes:
    at = 10
    offsets = []
    for part in (scripts, features, lookups):
        offsets.append(at)
        at += len(part)
    return with_tables({tag: longs(0x00010000) + words(*offsets) + scripts + features + lookups})


def shared(count: int, head: bytes, part: bytes) -> bytes:
    """A list of so many offsets, all of one part, after a head of its own."""
    return head + words(count) + words(len(head) + 2 + 2 * count) * count + part


def lookup(kind: int, *subtables: bytes, again: int = 1) -> bytes:
    """A lookup that names its one subtable often."""
    return shared(again, words(kind, 0), subtables[0])


def one_lookup(tag: str, kind: int, subtable: bytes, again: int = 1) -> bytes:
    return layout(tag, lookups=shared(1, b"", lookup(kind, subtable, again=again)))


def coverage(*ranges: tuple[int, int]) -> bytes:
    return words(2, len(ranges)) + b"".join(words(first, last, 0) for first, last in ranges)


def classes(*ranges: tuple[int, int]) -> bytes:
    return words(2, len(ranges)) + b"".join(words(first, last, 1) for first, last in ranges)


def single(covered: bytes) -> bytes:
    """A single substitution of format 1."""
    return words(1, 6, 1) + covered


def contexts() -> bytes:
    """A context whose input glyphs all have one coverage, of each glyph."""
    count = 30000
    at = 6 + 2 * count
    return words(3, count, 0) + words(at) * count + coverage(ALL)


def shared_scripts() -> bytes:
    """Scripts that share one script, whose languages share one system."""
    count = 3000
    scripts = words(count) + (b"latn" + words(2 + 6 * count)) * count
    systems = words(0, count) + (b"DEU " + words(4 + 6 * count)) * count
    return layout("GSUB", scripts=scripts + systems + words(0, 0xFFFF, count) + words(*([0] * count)))


def rules_of_rules() -> bytes:
    """A context whose sets share one set, whose rules share one rule."""
    count = 3000
    rule = words(2, 0, 1)
    return (
        words(1, 6 + 2 * count, count) + words(6 + 2 * count + 10) * count + coverage((0, 0)) + shared(count, b"", rule)
    )


def sets_of_ligatures() -> bytes:
    count = 3000
    ligature = words(1, 2, 2)
    return (
        words(1, 6 + 2 * count, count)
        + words(6 + 2 * count + 10) * count
        + coverage((0, 0))
        + shared(count, b"", ligature)
    )


def pairs_of_nothing() -> bytes:
    """Pairs by 65,535 times 65,535 classes, whose records have no bytes."""
    return words(2, 16, 0, 0, 26, 26, 0xFFFF, 0xFFFF) + coverage(ALL) + classes()


def shared_pairs() -> bytes:
    """Sets of pairs that share one set."""
    count = 3000
    pairs = words(count) + b"".join(words(n) for n in range(count))
    return words(1, 10 + 2 * count, 0, 0, count) + words(20 + 2 * count) * count + coverage(ALL) + pairs


def shared_components() -> bytes:
    """Ligatures that share their components, each with an anchor for each of many classes."""
    count, many = 1000, 500
    ligatures = shared(count, b"", words(30) + words(*([0] * 30 * many)))
    marks = words(0)
    return words(1, 12, 12, many, 22, 24) + coverage(ALL) + marks + ligatures


def extension(kind: int) -> bytes:
    """An extension of an extension."""
    return words(1, kind) + longs(8) + words(1, kind) + longs(8)


def attachments() -> bytes:
    """GDEF's attachment points, which share one list."""
    count = 3000
    points = words(count) + words(*range(count))
    listed = words(4 + 2 * count, count) + words(14 + 2 * count) * count + coverage(ALL) + points
    return with_tables({"GDEF": longs(0x00010000) + words(0, 12, 0, 0) + listed})


def mark_sets() -> bytes:
    """Sets of marks that share one coverage, of each glyph."""
    count = 10000
    sets = words(1, count) + longs(4 + 4 * count) * count + coverage(ALL)
    return with_tables({"GDEF": longs(0x00010002) + words(0, 0, 0, 0, 14) + sets})


def many_names() -> bytes:
    """Records of the table name, which share one text."""
    count, length = 2000, 60000
    records = words(3, 1, 0x409, 256, length, 0) * count
    return with_tables({"name": words(0, count, 6 + len(records)) + records + bytes(length)})


def varied_widths() -> bytes:
    """HVAR, whose lists of deltas share one list."""
    count = 3000
    deltas = words(count, 0, 0)
    store = words(1) + longs(8 + 4 * count + len(deltas)) + words(count) + longs(8 + 4 * count) * count + deltas
    regions = words(1, 0)
    return with_tables({"fvar": b"", "HVAR": longs(0x00010000, 20, 0, 0, 0) + store + regions})


def gdef_classes(*ranges: tuple[int, int]) -> bytes:
    return with_tables({"GDEF": longs(0x00010000) + words(12, 0, 0, 0) + classes(*ranges)})


# ---- outlines


def glyf(outlines: list[bytes]) -> bytes:
    """A font whose glyphs have these outlines."""
    made = FontBuilder(1000, isTTF=True)
    names = [".notdef", *(f"g{n}" for n in range(1, len(outlines)))]
    made.setupGlyphOrder(names)
    made.setupCharacterMap({0x61: names[-1]})
    made.setupGlyf({name: TTGlyphPen(None).glyph() for name in names})
    made.setupHorizontalMetrics({name: (500, 0) for name in names})
    made.setupHorizontalHeader(ascent=800, descent=-200)
    made.setupPost(keepGlyphNames=False)
    font = TTFont(io.BytesIO(saved(made.font)), recalcBBoxes=False)
    places = [0]
    for outline in outlines:
        places.append(places[-1] + len(outline))
    return saved(with_outlines(font, b"".join(outlines), places))


def with_outlines(font: TTFont, data: bytes, places: list[int]) -> TTFont:
    for tag, table in (("glyf", data), ("loca", longs(*places))):
        font[tag] = DefaultTable(tag)
        font[tag].data = table
    font["head"].indexToLocFormat = 1
    return font


def composite(*parts: int) -> bytes:
    """An outline made of glyphs, each at 0."""
    body = struct.pack(">5h", -1, 0, 0, 0, 0)
    for n, part in enumerate(parts):
        body += words(0x0002 | (0x0020 if n + 1 < len(parts) else 0), part) + bytes(2)
    return body + bytes(-len(body) % 4)


def dots() -> bytes:
    """65,535 points in 528 bytes: one flag that repeats, and no coordinates of its own."""
    flags = bytes([0x39, 255]) * 256
    return struct.pack(">5hHH", 1, 0, 0, 0, 0, 0xFFFE, 0) + flags + bytes(2)


# ---- CFF


def cff(programs: dict[str, list[Any]], subroutines: list[list[Any]]) -> bytes:
    """A font whose charstrings and subroutines are these programs."""
    made = FontBuilder(1000, isTTF=False)
    # A box of the font would be found by drawing all glyphs.
    made.font.recalcBBoxes = False
    names = [".notdef", *programs]
    made.setupGlyphOrder(names)
    made.setupCharacterMap({0x61: names[-1]})
    empty = T2CharStringPen(500, None).getCharString()
    made.setupCFF("Hostile", {}, {name: empty for name in names}, {})
    made.setupHorizontalMetrics({name: (500, 0) for name in names})
    made.setupHorizontalHeader(ascent=800, descent=-200)
    made.setupPost()
    top = made.font["CFF "].cff.topDictIndex[0]
    top.Private.Subrs = SubrsIndex()
    for program in subroutines:
        top.Private.Subrs.append(T2CharString(program=program, private=top.Private))
    for name, program in programs.items():
        top.CharStrings[name].program = program
    return saved(made.font)


def call(index: int) -> list[Any]:
    """A call of a subroutine, where there are below 1,240 of them."""
    return [index - 107, "callsubr"]


def nested_calls(levels: int, times: int) -> bytes:
    """Subroutines of which each calls the next one some times, and the last one draws."""
    calls = [call(level + 1) * times + ["return"] for level in range(levels - 1)]
    return cff({"a": [*call(0), "endchar"]}, [*calls, [10, "hmoveto", "return"]])


def accents() -> bytes:
    """Accented glyphs of accented glyphs: each of A to Z is the next one twice."""
    letters = [chr(code) for code in range(ord("A"), ord("Z") + 1)]
    made = {
        letter: [0, 0, ord(letters[n + 1]), ord(letters[n + 1]), "endchar"] if n < 25 else ["endchar"]
        for n, letter in enumerate(letters)
    }
    return cff(dict(reversed(made.items())), [["return"]])


def long_names() -> bytes:
    """Glyphs that share one long name, by the list of names of CFF."""
    # Names of the standard and others in turn have no ranges of numbers, so each glyph has two bytes of its own.
    others = [f"x{n}" for n in range(300)]
    names = ["x" * 60000, *(name for pair in zip(cffStandardStrings[1:], others) for name in pair)]
    font = TTFont(io.BytesIO(cff({name: ["endchar"] for name in names}, [["return"]])), recalcBBoxes=False)
    table = bytearray(font.reader["CFF "])
    # The list has its format in front, and lacks the first glyph.
    at = font["CFF "].cff.topDictIndex[0].rawDict["charset"] + 1
    table[at : at + 2 * len(names)] = table[at : at + 2] * len(names)
    font["CFF "] = DefaultTable("CFF ")
    font["CFF "].data = bytes(table)
    return saved(font)


# ---- packed files


def zeros(mebibytes: int) -> bytes:
    """A stream of zlib that unpacks to so many MiB of zeros: one block of a MiB, repeated."""
    packer = zlib.compressobj(9, zlib.DEFLATED, -15)
    block = packer.compress(bytes(MIB)) + packer.flush(zlib.Z_FULL_FLUSH)
    check = (mebibytes * MIB % 65521) << 16 | 1
    return b"\x78\xda" + block * mebibytes + b"\x03\x00" + longs(check)


def woff(mebibytes: int, told: int, in_metadata: bool = False) -> bytes:
    """A WOFF file whose one table or metadata unpacks to so many MiB, and that tells another length."""
    stream = zeros(mebibytes)
    at = 44 + (0 if in_metadata else 20)
    entry = b"" if in_metadata else b"GSUB" + longs(at, len(stream), told, 0)
    meta = (at, len(stream), told) if in_metadata else (0, 0, 0)
    head = b"wOFF" + longs(0x00010000, at + len(stream)) + words(0 if in_metadata else 1, 0)
    return head + longs(told) + words(1, 0) + longs(*meta, 0, 0) + entry + stream


def woff2(mebibytes: int, told: int) -> bytes:
    """A WOFF2 file whose stream unpacks to so many MiB, and whose one table has another length."""
    import brotli

    packer = brotli.Compressor(quality=1)
    stream = b"".join(packer.process(bytes(MIB)) for _ in range(mebibytes)) + packer.finish()
    # GSUB is known by its number 28; lengths have seven bits in each byte, the last one without the eighth.
    length = bytes([*(0x80 | told >> shift & 0x7F for shift in (28, 21, 14, 7) if told >> shift), told & 0x7F])
    entry = bytes([28]) + length
    size = 48 + len(entry) + len(stream)
    head = b"wOF2" + longs(0x00010000, size) + words(1, 0) + longs(told, len(stream)) + words(1, 0)
    return head + longs(0, 0, 0, 0, 0) + entry + stream


# ---- all of them


def kinds() -> Iterator[Kind]:
    yield from (
        ("cmap 12, groups that overlap", lambda: cmap(groups(12, *[(0, 0x10FFFF)] * 200)), "overlap"),
        ("cmap 13, groups that overlap", lambda: cmap(groups(13, *[(0, 0x10FFFF)] * 200)), "overlap"),
        ("cmap 12, a group past Unicode", lambda: cmap(groups(12, (0, 0xFFFFFFFF))), "more than 1,310,720 characters"),
        ("cmap 4, segments that overlap", lambda: cmap(segments(*[(0, 0xFFFE)] * 2000), encoding=1), "overlap"),
        (
            "cmap 14, ranges that overlap",
            lambda: cmap(selectors(1, *[(0, 255)] * 9), platform=0, encoding=5),
            "overlap",
        ),
        (
            "cmap 14, selectors that share ranges",
            lambda: cmap(selectors(3000, *((256 * n, 255) for n in range(4000))), platform=0, encoding=5),
            "more than 1,310,720 characters",
        ),
        ("cmap 2, many low bytes", high_bytes, "past 255"),
        ("cmap, many subtables", many_subtables, "more than 64 subtables"),
    )
    yield from (
        ("coverage that overlaps", lambda: one_lookup("GSUB", 1, single(coverage(*[ALL] * 9000))), "overlap"),
        ("classes that overlap", lambda: gdef_classes(*[ALL] * 9000), "overlap"),
        ("scripts that are shared", shared_scripts, "rows"),
        ("subtables that are shared", lambda: one_lookup("GSUB", 1, single(coverage((1, 999))), 30000), "rows"),
        (
            "lookups that are shared",
            lambda: layout("GSUB", lookups=shared(20000, b"", lookup(1, single(coverage((1, 1))), again=9000))),
            "rows",
        ),
        (
            "subtables without rows",
            lambda: layout("GSUB", lookups=shared(300, b"", shared(300, words(1, 0), b""))),
            "subtables",
        ),
        ("a coverage that is shared", lambda: one_lookup("GSUB", 5, contexts()), "rows"),
        ("rules that are shared", lambda: one_lookup("GSUB", 5, rules_of_rules()), "rows"),
        ("ligatures that are shared", lambda: one_lookup("GSUB", 4, sets_of_ligatures()), "rows"),
        ("pairs without bytes", lambda: one_lookup("GPOS", 2, pairs_of_nothing()), "rows"),
        ("pairs that are shared", lambda: one_lookup("GPOS", 2, shared_pairs()), "rows"),
        ("components that are shared", lambda: one_lookup("GPOS", 5, shared_components()), "rows"),
        ("an extension of an extension", lambda: one_lookup("GSUB", 7, extension(7)), "extension of an extension"),
        ("attachment points that are shared", attachments, "rows"),
        ("sets of marks that are shared", mark_sets, "rows"),
        ("deltas that are shared", varied_widths, "rows"),
        ("texts of the table name that are shared", many_names, "in all records"),
    )
    yield from (
        ("composites that are nested", lambda: glyf([b"", *(composite(n) for n in range(30))]), "deep"),
        ("composites of themselves", lambda: glyf([b"", composite(1)]), "deep"),
        ("composites of many parts", lambda: glyf([b"", *(composite(*[n] * 10) for n in range(30))]), "parts"),
        ("points of one glyph", lambda: glyf([dots(), composite(0, 0, 0)]), "a glyph of more than"),
        ("points of all glyphs", lambda: glyf([dots()] * 1100), "points"),
        ("subroutines that are nested", lambda: nested_calls(12, 1), "subroutines nested more than 10 deep"),
        ("subroutines that are repeated", lambda: nested_calls(9, 20), "bytes of charstrings to run"),
        ("accents of accents", accents, "nested more than"),
        ("names that are shared", long_names, "names of glyphs"),
    )
    yield from (
        ("a WOFF of gigabytes", lambda: woff(3000, 3000 * MIB), "unpacks to more than"),
        ("a WOFF that tells less", lambda: woff(3000, 1000), "another size"),
        ("a WOFF with metadata of gigabytes", lambda: woff(3000, 3000 * MIB, True), "unpacks to more than"),
        ("a WOFF2 of gigabytes", lambda: woff2(2000, 2000 * MIB), "unpacks to more than"),
        ("a WOFF2 that tells less", lambda: woff2(2000, 1000), "another size"),
    )
