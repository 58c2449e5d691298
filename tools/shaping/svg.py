"""A picture as SVG."""

from xml.sax.saxutils import escape

from shaping.picture import Drawn, Label, Line, Outline, Picture

# Of an em.
PIXELS = 96


def svg(picture: Picture) -> str:
    scale = PIXELS / picture.upem
    parts = [*map(line, picture.lines), *map(outline, picture.outlines), *map(label, picture.labels)]
    return (
        f'<svg xmlns="http://www.w3.org/2000/svg" width="{picture.width * scale:.0f}" '
        f'height="{picture.height * scale:.0f}" viewBox="0 0 {picture.width:.0f} {picture.height:.0f}" '
        f'font-family="sans-serif" font-size="{picture.label_size:.0f}">\n'
        f'<rect width="100%" height="100%" fill="white"/>\n{"".join(parts)}</svg>\n'
    )


def line(drawn: Line) -> str:
    (x1, y1), (x2, y2) = drawn.start, drawn.end
    ends = f'x1="{x1:.0f}" y1="{-y1:.0f}" x2="{x2:.0f}" y2="{-y2:.0f}"'
    return f'<line {ends} stroke="{drawn.colour}" stroke-width="{drawn.width:.1f}"/>\n'


def outline(drawn: Outline) -> str:
    """A glyph's outline; its title is shown where one points at it."""
    x, y = drawn.at
    moved = f'transform="translate({x:.0f} {-y:.0f}) scale(1 -1)"'
    path = f'<path d="{path_of(drawn.drawn)}" fill="{drawn.colour}" fill-opacity="0.8"/>'
    return f"<g {moved}><title>{escape(drawn.title)}</title>{path}</g>\n"


def path_of(drawn: Drawn) -> str:
    from fontTools.pens.recordingPen import RecordingPen
    from fontTools.pens.svgPathPen import SVGPathPen

    record, pen = RecordingPen(), SVGPathPen(None)
    record.value = drawn
    record.replay(pen)
    return str(pen.getCommands())


def label(drawn: Label) -> str:
    x, y = drawn.at
    at = f'x="{x:.0f}" y="{-y:.0f}" fill="{drawn.colour}"'
    return f"<text {at}><title>{escape(drawn.title)}</title>{escape(drawn.whole)}</text>\n"
