"""shape.py FONT TEXT: the line of a text, as hb-shape --no-glyph-names prints it."""

import sys

from kuspveli import Font, Glyph


def shown(glyph: Glyph) -> str:
    offsets = f"@{glyph.x_offset},{glyph.y_offset}" if glyph.x_offset or glyph.y_offset else ""
    return f"{glyph.number}={glyph.cluster}{offsets}+{glyph.x_advance}"


print("|".join(map(shown, Font.open(sys.argv[1]).shape(sys.argv[2]))))
