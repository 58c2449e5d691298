"""A font's tables against the limits and the format's rules, before they are read whole."""

from typing import Any

from fontjson import limits
from fontjson.check_cmap import check_cmap
from fontjson.check_layout import check_layout
from fontjson.check_outlines import check_glyf

LAYOUT = ("GDEF", "GSUB", "GPOS")
# Tables with the same kind of fields, which are read for instances of variable fonts.
VARIATIONS = ("HVAR", "VVAR", "MVAR", "STAT")


def check_sizes(font: Any) -> dict[str, tuple[int, int]]:
    """What a font has of what is limited, each with its limit; refuses tables that take much more than their bytes.

    The table cmap is first, since glyphs may get their names from it.
    """
    found = {}
    if "cmap" in font:
        subtables, characters = check_cmap(font.reader["cmap"])
        found["cmap: subtables"] = subtables, limits.MOST_SUBTABLES_OF_CMAP
        found["cmap: characters and variants"] = characters, limits.MOST_CHARACTERS
    for tag in LAYOUT + (VARIATIONS if "fvar" in font else ()):
        if tag in font:
            size, records = check_layout(tag, font.reader[tag])
            found[f"{tag}: rows"] = size.rows, limits.most_rows(len(font.reader[tag]))
            found[f"{tag}: subtables"] = size.subtables, limits.MOST_SUBTABLES
            found[f"{tag}: records"] = records, limits.MOST_RECORDS
    if "glyf" in font and "loca" in font:
        most, points = check_glyf(font)
        found["glyf: points"] = points, limits.MOST_POINTS
        found["glyf: points of a glyph"] = most.points, limits.MOST_GLYPH_POINTS
        found["glyf: parts of a glyph"] = most.parts, limits.MOST_PARTS
        found["glyf: levels of parts"] = most.depth, limits.MOST_DEPTH
    if "name" in font:
        found["name: bytes"] = check_name(font.reader["name"]), limits.MOST_NAME_BYTES
    found["names of glyphs: bytes"] = check_names(font), limits.MOST_NAME_BYTES
    return found


def check_name(data: bytes) -> int:
    """The bytes of all records of the table name, which may share them; a record's length is at its byte 8."""
    count = min(int.from_bytes(data[2:4], "big"), max(len(data) - 6, 0) // 12)
    size = sum(int.from_bytes(data[14 + 12 * record : 16 + 12 * record], "big") for record in range(count))
    if size > limits.MOST_NAME_BYTES:
        raise limits.refuse(f"table name: more than {limits.MOST_NAME_BYTES:,} bytes in all records")
    return size


def check_names(font: Any) -> int:
    """The bytes of the names of all glyphs, of which many may share one."""
    size = sum(map(len, font.getGlyphOrder()))
    if size > limits.MOST_NAME_BYTES:
        raise limits.refuse(f"names of glyphs of more than {limits.MOST_NAME_BYTES:,} bytes")
    return size
