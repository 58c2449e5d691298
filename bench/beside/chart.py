"""A chart of ratios: some bars for each set, and a line at what HarfBuzz takes."""

from xml.sax.saxutils import escape

from beside.kept import Kept
from beside.table import Row

# Sizes in pixels.
WIDTH, NAMES, ROW, BAR, HEAD, FOOT = 800, 240, 24, 7, 58, 34
# The bars of a set by their columns, each with its colour and what it is.
BARS = (
    ("page", "#2f6f9f", "a page"),
    ("words", "#e08e45", "words, by kept plans"),
    ("anew", "#8a9a5b", "a word and its plan"),
)
# How far the names of the bars stand apart in the legend.
APART = 170
INK, GRID = "#222", "#ddd"


def chart(kept: Kept) -> str:
    """The SVG of all sets, one below the other."""
    end = limit(kept.rows)
    scale = (WIDTH - NAMES - 30) / end
    bottom = HEAD + ROW * len(kept.rows)
    rows = "".join(row_of(row, HEAD + ROW * at, scale) for at, row in enumerate(kept.rows))
    return (
        f'<svg xmlns="http://www.w3.org/2000/svg" width="{WIDTH}" height="{bottom + FOOT}" '
        f'viewBox="0 0 {WIDTH} {bottom + FOOT}" font-family="sans-serif" font-size="12" fill="{INK}">\n'
        f'<rect width="100%" height="100%" fill="white"/>\n'
        f"{legend(kept)}{grid(end, scale, bottom)}{rows}{line_at_one(scale, bottom)}</svg>\n"
    )


def limit(rows: list[Row]) -> float:
    """Where the axis ends: a little past the longest bar and past 1."""
    ratios = (ratio_of(row, what) for row in rows for what, _, _ in BARS)
    return max([1.0, *(ratio for ratio in ratios if ratio is not None)]) + 0.12


def ratio_of(row: Row, what: str) -> float | None:
    return row.pairs[what].ratio if what in row.pairs else None


def legend(kept: Kept) -> str:
    """What is drawn, and the colours."""
    version = kept.run["harfbuzz"].split()[-1]
    taken = "Instructions over those" if kept.is_counted else "Processor time over that"
    title = escape(f"{taken} of HarfBuzz {version}: shorter is better")
    parts = [f'<text x="12" y="20" font-size="14" font-weight="bold">{title}</text>\n']
    for at, (_, colour, about) in enumerate(BARS):
        x = NAMES + APART * at
        parts.append(
            f'<rect x="{x}" y="31" width="12" height="12" fill="{colour}"/><text x="{x + 18}" y="41">{about}</text>\n'
        )
    return "".join(parts)


def grid(end: float, scale: float, bottom: int) -> str:
    """A thin line at each quarter, with its number below."""
    parts = []
    for quarter in range(int(end * 4) + 1):
        x = NAMES + quarter / 4 * scale
        parts.append(f'<path d="M{x:.1f} {HEAD - 4}V{bottom}" stroke="{GRID}"/>')
        parts.append(f'<text x="{x:.1f}" y="{bottom + 16}" text-anchor="middle">{quarter / 4:g}</text>\n')
    return "".join(parts)


def row_of(row: Row, top: int, scale: float) -> str:
    parts = [f'<text x="{NAMES - 8}" y="{top + 15}" text-anchor="end">{escape(row.title)}</text>\n']
    for at, (what, colour, about) in enumerate(BARS):
        ratio = ratio_of(row, what)
        if ratio is not None:
            y, width = top + at * BAR + 1, ratio * scale
            shape = f'<rect x="{NAMES}" y="{y}" width="{width:.1f}" height="{BAR - 1}" fill="{colour}">'
            parts.append(f"{shape}<title>{escape(row.title)}: {about}: {ratio:.2f}</title></rect>\n")
    return "".join(parts)


def line_at_one(scale: float, bottom: int) -> str:
    x = NAMES + scale
    return (
        f'<path d="M{x:.1f} {HEAD - 8}V{bottom + 2}" stroke="#b03030" stroke-width="2"/>'
        f'<text x="{x:.1f}" y="{bottom + 31}" text-anchor="middle" fill="#b03030">HarfBuzz</text>\n'
    )
