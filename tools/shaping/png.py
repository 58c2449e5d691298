"""A picture as PNG, by cairo. Labels have no characters, only their numbers: cairo's own text has one font."""

import io
from typing import Any

from common.faults import FILES, ToolFault
from shaping.picture import Drawn, Picture

# Of an em, and of each side of a picture.
PIXELS = 192
MOST_PIXELS = 16_000


def png(picture: Picture) -> bytes:
    try:
        import cairo
    except ImportError as missing:
        raise ToolFault(FILES, "cairo is missing: apt-get install python3-cairo, or take --svg") from missing
    scale = min(PIXELS / picture.upem, MOST_PIXELS / picture.width, MOST_PIXELS / picture.height)
    sides = [max(1, round(side * scale)) for side in (picture.width, picture.height)]
    surface = cairo.ImageSurface(cairo.Format.RGB24, *sides)
    context = cairo.Context(surface)
    context.set_source_rgb(1, 1, 1)
    context.paint()
    context.scale(scale, scale)
    draw_lines(context, picture)
    draw_outlines(context, picture)
    draw_labels(context, picture)
    out = io.BytesIO()
    surface.write_to_png(out)
    return out.getvalue()


def draw_lines(context: Any, picture: Picture) -> None:
    for line in picture.lines:
        context.set_line_width(line.width)
        context.set_source_rgb(*rgb(line.colour))
        context.move_to(line.start[0], -line.start[1])
        context.line_to(line.end[0], -line.end[1])
        context.stroke()


def draw_outlines(context: Any, picture: Picture) -> None:
    for outline in picture.outlines:
        context.save()
        context.translate(outline.at[0], -outline.at[1])
        context.scale(1, -1)
        trace(context, outline.drawn)
        context.restore()
        context.set_source_rgba(*rgb(outline.colour), 0.8)
        context.fill()


def draw_labels(context: Any, picture: Picture) -> None:
    context.select_font_face("sans-serif")
    context.set_font_size(picture.label_size)
    for label in picture.labels:
        context.set_source_rgb(*rgb(label.colour))
        context.move_to(label.at[0], -label.at[1])
        context.show_text(label.words)


def trace(context: Any, drawn: Drawn) -> None:
    """Gives cairo a glyph's outline."""
    from fontTools.pens.cairoPen import CairoPen
    from fontTools.pens.recordingPen import RecordingPen

    record = RecordingPen()
    record.value = drawn
    record.replay(CairoPen(None, context))


def rgb(colour: str) -> tuple[float, ...]:
    return tuple(int(colour[at : at + 2], 16) / 255 for at in (1, 3, 5))
