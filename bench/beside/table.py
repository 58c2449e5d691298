"""What a run measured, the tables in Markdown, and the rows above a mark."""

from dataclasses import dataclass, field

from beside.differences import Difference
from common.documents import table_lines

# The columns of ratios, each with its mark and what it is.
MARKS = {
    "program": (1.0, "the program beside hb-shape"),
    "page": (0.75, "a page"),
    "more": (0.78, "each page more"),
    "words": (0.85, "words"),
    "turns": (0.85, "two scripts in turn"),
    "anew": (0.85, "the plan made anew"),
}
MEMORY = (1.1, "memory")
# What is taken once, and so stands in numbers of its own.
ONCE = ("font", "first")
NONE = "-"
MEGA = 1e6
MIB = 1 << 20


@dataclass(frozen=True)
class Pair:
    """What HarfBuzz takes, and what the program or the library takes."""

    theirs: float
    own: float

    @property
    def ratio(self) -> float | None:
        """How often what HarfBuzz takes is in the other; None where nothing was measured above zero."""
        return self.own / self.theirs if self.theirs > 0 and self.own > 0 else None

    def over(self, units: int) -> "Pair":
        return Pair(self.theirs / units, self.own / units)


@dataclass(frozen=True)
class Row:
    """A set, and what was measured of it by the columns' names; where glyphs differ."""

    name: str
    font: str
    pairs: dict[str, Pair] = field(default_factory=dict)
    glyphs: str = "same"

    @property
    def title(self) -> str:
        return f"{self.name}, {self.font}"

    def shown(self, what: str) -> str:
        """The ratio of a column; nothing where it isn't measured."""
        return shown(self.pairs[what].ratio) if what in self.pairs else NONE


def of_glyphs(unlike: Difference | None) -> str:
    if unlike is None:
        return "same"
    return "clusters differ" if unlike.in_clusters_alone else "differ"


def shown(ratio: float | None) -> str:
    return "?" if ratio is None else f"{ratio:.2f}"


# ---- tables


def ratios(rows: list[Row]) -> list[str]:
    """The table of the ratios that were measured."""
    there = [what for what in MARKS if any(what in row.pairs for row in rows)]
    return table_lines([["Set", *there], *([row.title, *map(row.shown, there)] for row in rows)])


def tables(rows: list[Row]) -> list[str]:
    """The ratios; what reading a font and a first word take; the peaks of memory where they were taken."""
    lines = [*ratios(rows), "", *table_lines([once_head(), *([row.title, *once_cells(row)] for row in rows)])]
    peaks = [[row.title, *peak_cells(row)] for row in rows if "memory" in row.pairs]
    return [*lines, "", *table_lines([["Set", "memory", "HarfBuzz", "ratio"], *peaks])] if peaks else lines


def once_head() -> list[str]:
    return ["Set", *(cell for what in ONCE for cell in (what, "HarfBuzz"))]


def once_cells(row: Row) -> list[str]:
    pairs = [row.pairs.get(what) for what in ONCE]
    return [cell for pair in pairs for cell in ((millions(pair.own), millions(pair.theirs)) if pair else (NONE, NONE))]


def millions(number: float) -> str:
    return f"{number / MEGA:.0f}" if number >= 10 * MEGA else f"{number / MEGA:.2f}"


def peak_cells(row: Row) -> list[str]:
    pair = row.pairs["memory"]
    return [f"{pair.own / MIB:.0f}", f"{pair.theirs / MIB:.0f}", row.shown("memory")]


# ---- marks


def summary(rows: list[Row]) -> list[str]:
    """The rows above a mark, for each column that was measured."""
    marks = {**MARKS, "memory": MEMORY}
    measured = {what: [row for row in rows if what in row.pairs] for what in marks}
    return [above(*marks[what], what, there) for what, there in measured.items() if there]


def above(mark: float, about: str, what: str, rows: list[Row]) -> str:
    """Names the rows whose ratio, as it is shown, is above a mark, and those without one."""
    found = [row for row in rows if row.shown(what) == "?" or float(row.shown(what)) > mark]
    named = ", ".join(f"{row.title} ({row.shown(what)})" for row in found)
    return f"Above {mark} in {about}: {named or 'none'} ({len(found)} of {len(rows)})."
