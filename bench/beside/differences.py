"""Where two printed lines of glyphs differ."""

from dataclasses import dataclass, replace
from itertools import zip_longest

from shaping.glyphs import Glyph, read_line


@dataclass(frozen=True)
class Difference:
    """How many glyphs differ and the first of them; whether all of them differ in their clusters alone."""

    told: str
    in_clusters_alone: bool


def difference(own: str, theirs: str) -> Difference | None:
    """What two lines differ in, of number, cluster, offset and advance; None where they are the same."""
    if own == theirs:
        return None
    pairs = list(zip_longest(read_line(own), read_line(theirs)))
    unlike = [(at, *pair) for at, pair in enumerate(pairs) if pair[0] != pair[1]]
    if not unlike:
        return None
    in_clusters = all(without_cluster(mine) == without_cluster(other) for _, mine, other in unlike)
    at, mine, other = unlike[0]
    first = f"first glyph {at}: {shown(mine)} where HarfBuzz has {shown(other)}"
    what = "differ in clusters alone" if in_clusters else "differ"
    return Difference(f"{len(unlike)} of {len(pairs)} glyphs {what}, {first}", in_clusters)


def without_cluster(glyph: Glyph | None) -> Glyph | None:
    return None if glyph is None else replace(glyph, cluster=0)


def shown(glyph: Glyph | None) -> str:
    """A glyph as it is printed, with all its fields."""
    if glyph is None:
        return "none"
    return f"{glyph.number}={glyph.cluster}@{glyph.x_offset},{glyph.y_offset}+{glyph.x_advance},{glyph.y_advance}"
