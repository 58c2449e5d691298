"""Damaged font files: what font_to_json makes of one is refused by no rule of the format, and not by hb_shape."""

import functools
import io
import logging
import subprocess
from pathlib import Path
from random import Random
from typing import Any

from common.faults import FILES, ToolFault
from common.files import write_over
from common.notes import Notes
from common.writing import object_text
from fontjson.cli import read_font
from fontjson.keep import Kept
from formats.where import font_fault

FONTS = Path("/usr/share/fonts/truetype")
# Fonts with the characters of which small ones are made: some of each kind of table and lookup.
SOURCES = (
    ("dejavu/DejaVuSans.ttf", (*range(0x20, 0x60), 0x66, 0x69, 0x6C, *range(0x300, 0x310), 0x5D0, 0x5BC, 0x1D400)),
    ("noto/NotoNaskhArabic-Regular.ttf", (0x20, *range(0x627, 0x637), 0x644, *range(0x64B, 0x653))),
    ("noto/NotoSansDevanagari-Regular.ttf", (*range(0x900, 0x906), *range(0x915, 0x930), 0x93C, 0x93F, 0x94D, 0x200D)),
)
# Tables whose numbers go into the value, those of layout more often.
DAMAGED = ("GSUB", "GPOS", "GDEF", "GSUB", "GPOS", "GDEF", "cmap", "cmap", "OS/2", "hhea", "hmtx", "head", "maxp", "post", "kern", "CFF ", "vmtx", "VORG")
TEXT = b"a\n"


def needed() -> list[Path]:
    return [FONTS / name for name, _ in SOURCES]


@functools.cache
def small_fonts() -> tuple[bytes, ...]:
    """Fonts of some glyphs with all features, and one with outlines of CFF and a table kern."""
    logging.getLogger("fontTools").setLevel(logging.CRITICAL)
    missing = [path for path in needed() if not path.is_file()]
    if missing:
        raise ToolFault(FILES, f"apt-get install fonts-dejavu-core fonts-noto-core: {missing[0]} is not there")
    return (*(subset(FONTS / name, characters) for name, characters in SOURCES), font_of_cff())


def subset(path: Path, characters: tuple[int, ...]) -> bytes:
    from fontTools import subset as subsetting

    options = subsetting.Options(layout_features=["*"], glyph_names=True, legacy_kern=True, notdef_outline=True, hinting=False)
    with subsetting.load_font(str(path), options) as font:
        subsetter = subsetting.Subsetter(options)
        subsetter.populate(unicodes=characters)
        subsetter.subset(font)
        return saved(font)


def font_of_cff() -> bytes:
    from fontTools.fontBuilder import FontBuilder
    from fontTools.pens.t2CharStringPen import T2CharStringPen
    from fontTools.ttLib import newTable
    from fontTools.ttLib.tables._k_e_r_n import KernTable_format_0

    names = [".notdef", "a", "b", "acute"]
    made = FontBuilder(1000, isTTF=False)
    made.setupGlyphOrder(names)
    made.setupCharacterMap({97: "a", 98: "b", 0x301: "acute", 0x10000: "b"})
    pen = T2CharStringPen(500, None)
    pen.moveTo((0, 0))
    pen.lineTo((400, 0))
    pen.lineTo((400, 700))
    pen.closePath()
    made.setupCFF("A", {}, {name: pen.getCharString() for name in names}, {})
    made.setupHorizontalMetrics({name: (500, 0) for name in names})
    made.setupHorizontalHeader(ascent=800, descent=-200)
    made.setupVerticalHeader(ascent=500, descent=-500)
    made.setupVerticalMetrics({name: (1000, 100) for name in names})
    made.setupVerticalOrigins({"a": 700}, 880)
    made.setupOS2(sTypoAscender=0, usWinAscent=60000)
    made.setupPost()
    kern = KernTable_format_0()
    kern.coverage, kern.apple, kern.kernTable = 1, False, {("a", "b"): -50}
    made.font["kern"] = newTable("kern")
    made.font["kern"].version, made.font["kern"].kernTables = 0, [kern]
    return saved(made.font)


def saved(font: Any) -> bytes:
    file = io.BytesIO()
    font.save(file)
    return file.getvalue()


# ---- damage


def places(font: bytes) -> dict[str, tuple[int, int]]:
    """Where each table stands, and its length."""
    count = int.from_bytes(font[4:6], "big")
    rows = [font[12 + 16 * at : 28 + 16 * at] for at in range(count)]
    return {row[:4].decode("latin-1"): (int.from_bytes(row[8:12], "big"), int.from_bytes(row[12:], "big")) for row in rows}


def damaged(draw: Random) -> bytes:
    """A font with some of its numbers changed."""
    font = bytearray(draw.choice(small_fonts()))
    found = places(font)
    for _ in range(draw.choice((1, 1, 2, 3, 8))):
        tag = draw.choice([tag for tag in DAMAGED if tag in found])
        start, length = found[tag]
        width = draw.choice((1, 2, 2, 2, 4))
        # Counts and formats stand at a table's beginning.
        at = min(draw.randrange(min(length, 64)) if draw.random() < 0.3 else draw.randrange(length), max(length - width, 0))
        at -= at % min(width, 2)
        before = int.from_bytes(font[start + at : start + at + width], "big")
        most = (1 << 8 * width) - 1
        value = draw.choice((0, 1, most, most >> 1, (most >> 1) + 1, before + 1, before - 1, before ^ 1 << draw.randrange(8 * width), draw.randrange(most + 1)))
        font[start + at : start + at + width] = (value & most).to_bytes(width, "big")
    return bytes(font)


# ---- a case


def try_font(program: Path | None, seed: int, number: int, folder: Path) -> tuple[str, list[str]]:
    """What became of a damaged font, and what is wrong with its value: by the rules, and by the program where one is given."""
    font, value, text = (folder / name for name in ("font.ttf", "font.json", "text"))
    write_over(font, damaged(Random(f"{seed} {number}")))
    try:
        made = read_font(str(font), 0, Kept(), Notes(), is_limited=False)
    except ToolFault:
        return "refused", []
    write_over(value, object_text(made))
    fault = font_fault(value)
    wrong = [] if fault is None else [fault]
    if program is not None:
        write_over(text, TEXT)
        write_over(folder / "tables.json", "{}")
        words = [program, "--no-glyph-names", folder / "tables.json", value, text]
        ran = subprocess.run(words, capture_output=True, text=True, check=False, stdin=subprocess.DEVNULL)
        if ran.returncode not in (0, 5):
            wrong.append(f"status {ran.returncode}: {ran.stderr.strip()}")
    return "written", wrong
