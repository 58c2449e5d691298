"""A picture of shaped texts: each glyph's outline in its position, and below it which characters it stands for.

It is made of lines, outlines and labels, in units of the font with y upwards; `svg` and `png` write it.
"""

import unicodedata
from dataclasses import dataclass, field
from pathlib import Path
from typing import Any, Callable

from common.notes import Progress
from common.printing import clean
from fontjson.limits import reading
from fontjson.variations import Place
from shaping.glyphs import Glyph
from shaping.texts import name_of

# The units of the em (OpenType, head.unitsPerEm), and those that are taken where a font has others.
LEAST_UPEM, MOST_UPEM, USUAL_UPEM = 16, 16384, 1000
# Sizes in parts of an em.
MARGIN, LABEL, GAP = 0.3, 0.16, 0.5
COLOURS = ("#1b4f72", "#a04000", "#196f3d", "#6c3483", "#7b7d7d", "#922b21")
PEN, BASELINE = "#e06060", "#c0c0c0"
# Widths of a label's characters in parts of its size, as of usual fonts without serifs.
NARROW, USUAL, WIDE = 0.33, 0.62, 1.0

Point = tuple[float, float]
# What a pen was asked to draw, by the names of fontTools' pens.
Drawn = list[tuple[str, Any]]


@dataclass(frozen=True)
class Placed:
    """A glyph, and the point from which its outline is drawn: the pen with the glyph's offset."""

    glyph: Glyph
    x: int
    y: int
    pen_x: int
    pen_y: int


@dataclass(frozen=True)
class Box:
    left: float
    bottom: float
    right: float
    top: float

    def joined(self, other: "Box") -> "Box":
        return Box(
            min(self.left, other.left), min(self.bottom, other.bottom),
            max(self.right, other.right), max(self.top, other.top),
        )  # fmt: skip


@dataclass(frozen=True)
class Line:
    start: Point
    end: Point
    colour: str
    width: float


@dataclass(frozen=True)
class Outline:
    at: Point
    drawn: Drawn
    colour: str
    title: str


@dataclass(frozen=True)
class Label:
    """A label from its left lower corner on: its ASCII words, the characters after them, and what a pointer shows."""

    at: Point
    words: str
    characters: str
    colour: str
    title: str

    @property
    def whole(self) -> str:
        return f"{self.words} {self.characters}"


@dataclass
class Picture:
    """What is drawn of all texts; the left upper corner is (0, 0), so y is at most 0."""

    upem: int
    width: float = 0
    height: float = 0
    lines: list[Line] = field(default_factory=list)
    outlines: list[Outline] = field(default_factory=list)
    labels: list[Label] = field(default_factory=list)

    @property
    def label_size(self) -> float:
        return LABEL * self.upem


class Outlines:
    """The outlines of a font file's glyphs, of a variable font at a place, with their boxes."""

    def __init__(self, path: Path, index: int, place: Place | None) -> None:
        from fontjson.source import open_font  # first: it says where fontTools is missing
        from fontjson.drawing import drawn_glyphs

        self.source = open_font(str(path), index, Progress("shape"))
        if place is not None:
            self.source.take_instance(place)
        self.glyphs = drawn_glyphs(self.source.font)
        self.names = self.source.font.getGlyphOrder()
        self.upem = drawn_upem(self.source.font["head"].unitsPerEm)

    def drawn(self, glyph: int) -> Drawn:
        from fontTools.pens.recordingPen import DecomposingRecordingPen

        pen = DecomposingRecordingPen(self.glyphs)
        self.draw(glyph, pen)
        drawn: Drawn = pen.value
        return drawn

    def box(self, glyph: int) -> Box | None:
        from fontTools.pens.boundsPen import BoundsPen

        pen = BoundsPen(self.glyphs)
        self.draw(glyph, pen)
        return None if pen.bounds is None else Box(*pen.bounds)

    def draw(self, glyph: int, pen: Any) -> None:
        """Draws nothing for a number that the font has no glyph for."""
        if glyph < len(self.names):
            self.glyphs[self.names[glyph]].draw(pen)

    def name(self, glyph: int) -> str:
        return str(self.names[glyph]) if glyph < len(self.names) else f"gid{glyph}"


def drawn_upem(upem: int) -> int:
    """The units of the em by which a picture is drawn: those of a font that says none of the range that OpenType has for
    them are taken for 1,000, as in HarfBuzz (hb_face_get_upem)."""
    return upem if LEAST_UPEM <= upem <= MOST_UPEM else USUAL_UPEM


def placed(glyphs: list[Glyph]) -> list[Placed]:
    """The glyphs from the line's start on, each where the pen stands."""
    found = []
    x = y = 0
    for glyph in glyphs:
        found.append(Placed(glyph, x + glyph.x_offset, y + glyph.y_offset, x, y))
        x, y = x + glyph.x_advance, y + glyph.y_advance
    return found


def clusters_of(text: str, glyphs: list[Glyph]) -> dict[int, str]:
    """Each cluster's characters: those from its byte up to the next cluster's."""
    starts = sorted({glyph.cluster for glyph in glyphs})
    whole = text.encode("utf-8")
    ends = [*starts[1:], len(whole)]
    return {start: whole[start:end].decode("utf-8", "replace") for start, end in zip(starts, ends)}


def picture(
    font: Path,
    index: int,
    texts: list[tuple[str, list[Glyph]]],
    is_vertical: bool = False,
    place: Place | None = None,
    is_limited: bool = True,
) -> Picture:
    """The picture of all texts, one below the other."""
    with reading(str(font), is_limited):
        outlines = Outlines(font, index, place)
        with outlines.source.font:
            return picture_of(outlines, texts, is_vertical)


def picture_of(outlines: Outlines, texts: list[tuple[str, list[Glyph]]], is_vertical: bool) -> Picture:
    upem = outlines.upem
    whole, margin = Picture(upem), MARGIN * upem
    width, height = 0.0, margin
    for text, glyphs in texts:
        row, box = row_of(text, placed(glyphs), outlines, is_vertical)
        add(whole, row, margin - box.left, -height - box.top)
        width = max(width, box.right - box.left)
        height += box.top - box.bottom + GAP * upem
    whole.width, whole.height = width + 2 * margin, max(height - GAP * upem + margin, 2 * margin)
    return whole


def add(whole: Picture, row: Picture, x: float, y: float) -> None:
    """Adds a row, moved from the line's start to where it is in the picture."""

    def moved(point: Point) -> Point:
        return point[0] + x, point[1] + y

    whole.lines += [Line(moved(each.start), moved(each.end), each.colour, each.width) for each in row.lines]
    whole.outlines += [Outline(moved(each.at), each.drawn, each.colour, each.title) for each in row.outlines]
    whole.labels += [Label(moved(each.at), each.words, each.characters, each.colour, each.title) for each in row.labels]


def row_of(text: str, glyphs: list[Placed], outlines: Outlines, is_vertical: bool) -> tuple[Picture, Box]:
    """A text's glyphs and its clusters beside them, drawn around the line's start, with their box."""
    upem = outlines.upem
    row, whole = Picture(upem), Box(0, -0.25 * upem, 0.2 * upem, 0.8 * upem)
    clusters = clusters_of(text, [each.glyph for each in glyphs])
    colours = {cluster: COLOURS[at % len(COLOURS)] for at, cluster in enumerate(clusters)}
    for each in glyphs:
        whole = whole.joined(room_of(each, outlines))
    ends = ((0, whole.bottom), (0, whole.top)) if is_vertical else ((whole.left, 0), (whole.right, 0))
    row.lines.append(Line(*ends, BASELINE, upem / 200))
    for each in glyphs:
        row.lines += pen_marks(each, upem)
        drawn = outlines.drawn(each.glyph.number)
        row.outlines.append(Outline((each.x, each.y), drawn, colours[each.glyph.cluster], title_of(each, outlines)))
    label = labels_beside if is_vertical else labels_below
    return row, whole.joined(label(row, glyphs, clusters, colours, whole))


def room_of(each: Placed, outlines: Outlines) -> Box:
    """What a glyph takes of the picture: its outline, and its advance."""
    glyph = each.glyph
    ends = each.pen_x + glyph.x_advance, each.pen_y + glyph.y_advance
    room = Box(min(each.pen_x, ends[0]), min(each.pen_y, ends[1]), max(each.pen_x, ends[0]), max(each.pen_y, ends[1]))
    box = outlines.box(glyph.number)
    if box is None:
        return room
    return room.joined(Box(each.x + box.left, each.y + box.bottom, each.x + box.right, each.y + box.top))


def pen_marks(each: Placed, upem: int) -> list[Line]:
    """A tick where the pen stands, and from there a line to a glyph that has an offset."""
    x, y, size = each.pen_x, each.pen_y, upem / 40
    marks = [Line((x, y - size), (x, y + size), PEN, upem / 250)]
    if each.glyph.x_offset or each.glyph.y_offset:
        marks.append(Line((x, y), (each.x, each.y), PEN, upem / 250))
    return marks


def title_of(each: Placed, outlines: Outlines) -> str:
    """A glyph's name, position and cluster."""
    glyph = each.glyph
    said = f"{clean(outlines.name(glyph.number))} ({glyph.number}), cluster {glyph.cluster}"
    said += f", advance {glyph.x_advance},{glyph.y_advance}"
    if glyph.x_offset or glyph.y_offset:
        said += f", offset {glyph.x_offset},{glyph.y_offset}"
    return said


# ---- labels


Labels = Callable[[Picture, list[Placed], dict[int, str], dict[int, str], Box], Box]


def labels_below(
    row: Picture, glyphs: list[Placed], clusters: dict[int, str], colours: dict[int, str], whole: Box
) -> Box:
    """Under the advances of each cluster a bar with its number and its characters; the box of all."""
    size, lowest = row.label_size, whole
    free: list[float] = []
    for cluster, characters in sorted(clusters.items(), key=lambda pair: span(glyphs, pair[0])[0]):
        left, right = span(glyphs, cluster)
        # A label that would touch the one before it stands a row lower.
        level = next((at for at, end in enumerate(free) if end <= left), len(free))
        y = whole.bottom - size * (0.8 + 1.4 * level)
        label = label_of((left, y - size * 1.05), cluster, characters, colours[cluster])
        row.lines.append(Line((left, y), (max(right, left + size / 4), y), colours[cluster], size / 5))
        row.labels.append(label)
        end = left + width_of(label.whole) * size
        free[level : level + 1] = [end + size]
        lowest = lowest.joined(Box(left, y - 1.4 * size, end, y))
    return lowest


def labels_beside(
    row: Picture, glyphs: list[Placed], clusters: dict[int, str], colours: dict[int, str], whole: Box
) -> Box:
    """To the right of a vertical line each cluster's number and characters, where its first glyph stands."""
    size, widest, lowest = row.label_size, whole, whole.top
    tops = {cluster: max(each.pen_y for each in glyphs if each.glyph.cluster == cluster) for cluster in clusters}
    for cluster, top in sorted(tops.items(), key=lambda pair: (-pair[1], pair[0])):
        # Glyphs without advances stand in one place, and their labels below each other.
        lowest = min(top, lowest) - 1.2 * size
        label = label_of((whole.right + size, lowest), cluster, clusters[cluster], colours[cluster])
        row.labels.append(label)
        widest = widest.joined(Box(label.at[0], lowest, label.at[0] + width_of(label.whole) * size, lowest + size))
    return widest


def span(glyphs: list[Placed], cluster: int) -> tuple[float, float]:
    """From where to where the advances of a cluster's glyphs reach."""
    own = [each for each in glyphs if each.glyph.cluster == cluster]
    ends = [x for each in own for x in (each.pen_x, each.pen_x + each.glyph.x_advance)]
    return min(ends), max(ends)


def label_of(at: Point, cluster: int, characters: str, colour: str) -> Label:
    """A cluster's number and characters; these last, since what runs backward would turn numbers after it round."""
    words = f"{cluster}: {' '.join(f'{ord(each):04X}' for each in characters)}"
    return Label(at, words, visible(characters), colour, ", ".join(map(name_of, characters)))


def width_of(label: str) -> float:
    """How wide a label is, in parts of its size."""
    return sum(map(width_of_character, label))


def width_of_character(character: str) -> float:
    if unicodedata.category(character) in ("Mn", "Me", "Cf"):
        return 0
    if unicodedata.east_asian_width(character) in ("W", "F"):
        return WIDE
    return NARROW if character in " :" else USUAL


def visible(characters: str) -> str:
    """Characters without controls, which a picture can't have."""
    return "".join(each if each.isprintable() else "\N{REPLACEMENT CHARACTER}" for each in characters)
