"""Breaks that are forbidden by flag: by hb-shape, by the program, and by the program with --safe-breaks."""

import subprocess
from dataclasses import dataclass
from pathlib import Path
from typing import Iterable

from beside.programs import NUMBERS, THEIRS, failed
from beside.sets import Set
from common.documents import table_lines
from shaping.glyphs import Glyph, read_line

UNSAFE_TO_BREAK = 1
HEAD = ["Set", "Characters", "HarfBuzz", "default", "`--safe-breaks`"]


@dataclass(frozen=True)
class Forbidden:
    """The characters of some lines, and how many of their breaks have a flag by each of the three."""

    title: str
    characters: int
    flagged: tuple[int, ...]

    def cells(self) -> list[str]:
        """Of a table: how many for 1,000 characters."""
        each = (f"{1000 * count / self.characters:.0f}" for count in self.flagged)
        return [self.title, f"{self.characters:,}", *each]


def forbidden(program: Path, chosen: Set, lines: list[str]) -> Forbidden:
    """What is forbidden in the lines of a set."""
    said = [NUMBERS, "--show-flags", "--no-positions", f"--language={chosen.language}", "--bot", "--eot"]
    font, text = str(chosen.font), "".join(f"{line}\n" for line in lines)
    own = [str(program), "--lines", *said]
    printed = (
        printed_of([THEIRS, "--shapers=ot", "--utf8-clusters", *said, font], text),
        printed_of([*own, font], text),
        printed_of([*own, "--safe-breaks", font], text),
    )
    counts = tuple(flagged(read_line(line.strip("[]")) for line in each) for each in printed)
    return Forbidden(chosen.title, sum(map(len, lines)), counts)


def printed_of(words: list[str], text: str) -> list[str]:
    """The lines that a program prints of those of its input."""
    ran = subprocess.run(words, input=text.encode(), capture_output=True, check=False)
    if ran.returncode != 0:
        raise failed(words, ran.returncode, ran.stderr.decode("utf-8", "replace"))
    return ran.stdout.decode("utf-8").splitlines()


def flagged(lines: Iterable[list[Glyph]]) -> int:
    """The clusters after the beginning of a line of which a glyph is unsafe to break."""
    return sum(len({each.cluster for each in line if each.flags & UNSAFE_TO_BREAK} - {0}) for line in lines)


def table_of(rows: list[Forbidden]) -> list[str]:
    """A table in Markdown, with all rows in the last one."""
    counts = [sum(column) for column in zip(*(row.flagged for row in rows))]
    last = Forbidden("all", sum(row.characters for row in rows), tuple(counts))
    return table_lines([HEAD, *(row.cells() for row in [*rows, last])])
