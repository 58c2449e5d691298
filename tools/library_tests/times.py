"""What a call takes beside HarfBuzz's: words by a kept plan, and texts of several scripts in turn."""

from dataclasses import dataclass
from datetime import date
from pathlib import Path

from common.documents import table_lines, wrapped
from common.host import first_line, host
from library_tests import drivers
from library_tests.cases import Script, Words, turns
from library_tests.drivers import Beside, Tested
from shaping.converting import font_value
from sources.crates import ROOT

# A word by the kept plan is to cost less than so many of HarfBuzz's.
MOST = 2.0
RUNS = 3
HEAD = ["Texts", "µs", "HarfBuzz", "ratio", "instructions", "HarfBuzz", "ratio"]


@dataclass(frozen=True)
class Row:
    """What a call for some words takes: the least microseconds of several runs, and instructions."""

    name: str
    times: Beside
    instructions: Beside

    @property
    def is_slow(self) -> bool:
        return self.times.ratio >= MOST

    def line(self) -> str:
        taken = f"{self.times.own:.2f} µs, HarfBuzz {self.times.theirs:.2f} µs ({self.times.ratio:.2f})"
        counts = f"{self.instructions.own:,.0f} instructions, HarfBuzz {self.instructions.theirs:,.0f}"
        notes = f"{'' if self.times.is_same else ', other glyphs'}{', too much' if self.is_slow else ''}"
        return f"{self.name}: {taken}; {counts} ({self.instructions.ratio:.2f}){notes}"

    def cells(self) -> list[str]:
        """The row of the table."""
        name = self.name if self.times.is_same else f"{self.name} (other glyphs)"
        taken = [f"{number:.2f}" for number in (self.times.own, self.times.theirs, self.times.ratio)]
        counts = [f"{number:,.0f}" for number in (self.instructions.own, self.instructions.theirs)]
        return [name, *taken, *counts, f"{self.instructions.ratio:.2f}"]


def measure(tested: Tested, tables: Path, scripts: list[Script]) -> list[Row]:
    """The rows of a word of each script, of words one after another, and of texts of several scripts in turn."""
    chosen = [Words(f"{one.name}, one word", one.font, [one.cases[0].text]) for one in scripts] + turns()
    fonts = {words.font: font_value(tested.values, words.font, 0) for words in chosen}
    least: dict[str, Beside] = {}
    # Each run is of all words, so that what else the machine does does not meet one of them alone.
    for words in chosen * RUNS:
        found = drivers.times(tested, (tables, fonts[words.font]), words)
        least[words.name] = found.least(least.get(words.name, found))
    return [
        Row(words.name, least[words.name], drivers.instructions(tested, (tables, fonts[words.font]), words))
        for words in chosen
    ]


def table(rows: list[Row], is_proved: bool) -> list[str]:
    """How the rows were taken, and the rows, in Markdown."""
    kit, commit = first_line("rt", "version"), first_line("git", "-C", str(ROOT), "rev-parse", "--short", "HEAD")
    library = f"the library proved with {kit}" if is_proved else f"the unproved library (made by {kit}, with no proof checked)"
    return [
        *wrapped(
            f"By `tools/test_library --table docs/SPEED.md` of {date.today().isoformat()} at commit {commit}, of {library}, "
            f"beside libharfbuzz {drivers.harfbuzz('--modversion')[0]} in the same run, on {host()}. Microseconds are "
            f"processor time, the least of {RUNS} runs; instructions are those that valgrind's callgrind counts, which no "
            "other load of the machine changes."
        ),
        "",
        *table_lines([HEAD, *(row.cells() for row in rows)]),
    ]
