"""How many points and parts the outlines of glyf have, and how deep its composites are nested."""

import struct
from typing import Any, NamedTuple

from fontjson.limits import MOST_DEPTH, MOST_GLYPH_POINTS, MOST_PARTS, MOST_POINTS, refuse

# The length of a glyph's header: the number of contours, and a box.
HEADER = 10


class Drawn(NamedTuple):
    """A glyph with its parts in their places: its points, its parts with those of these, and how deep they nest."""

    points: int = 0
    parts: int = 0
    depth: int = 0


def check_glyf(font: Any) -> tuple[Drawn, int]:
    """The most of all glyphs, and all points in the file; refuses what is beyond the limits.

    Outlines don't overlap in the file: each begins where the one before it ends, or fontTools refuses the font.
    """
    glyphs = font["glyf"].glyphs
    points = sum(own_points(glyph) for glyph in glyphs.values())
    if points > MOST_POINTS:
        raise refuse(f"table glyf: more than {MOST_POINTS:,} points")
    known: dict[str, Drawn] = {}
    drawn = [of_glyph(font["glyf"], name, known, 0) for name in glyphs]
    most = [max(sizes) for sizes in zip(Drawn(), *drawn)]
    return Drawn(*most), points


def own_points(glyph: Any) -> int:
    """The points of a glyph's own outline: one more than the last contour's last point."""
    data = getattr(glyph, "data", b"")
    contours = struct.unpack(">h", data[:2])[0] if len(data) >= HEADER else 0
    if contours <= 0:
        return 0
    last = HEADER + 2 * (contours - 1)
    return int.from_bytes(data[last : last + 2], "big") + 1


def of_glyph(glyf: Any, name: str, known: dict[str, Drawn], above: int) -> Drawn:
    """A glyph with the parts that it is made of; `above` is how deep it is nested itself."""
    if name not in known:
        if above > MOST_DEPTH:
            raise refuse(f"table glyf: composites nested more than {MOST_DEPTH} deep")
        points, parts, depth = own_points(glyf.glyphs[name]), 0, 0
        for part in glyf.glyphs[name].getComponentNames(glyf):
            of_part = of_glyph(glyf, part, known, above + 1) if part in glyf.glyphs else Drawn()
            points, parts, depth = points + of_part.points, parts + 1 + of_part.parts, max(depth, of_part.depth + 1)
        if depth > MOST_DEPTH:
            raise refuse(f"table glyf: composites nested more than {MOST_DEPTH} deep")
        if parts > MOST_PARTS:
            raise refuse(f"table glyf: a composite of more than {MOST_PARTS:,} parts")
        if points > MOST_GLYPH_POINTS:
            raise refuse(f"table glyf: a glyph of more than {MOST_GLYPH_POINTS:,} points")
        known[name] = Drawn(points, parts, depth)
    return known[name]
