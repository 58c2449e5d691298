"""Promises of this project, tested on a text by shaping it with other options."""

from typing import Iterator

from common.faults import ToolFault
from shaping.glyphs import Glyph, read_line
from shaping.options import Given
from shaping.program import run_one
from shaping.sources import Source
from shaping.texts import Text, script_of

LEVELS = ("0", "1", "2", "3")
MONOTONE = ("0", "1")
# What a run prints, and what these tests set by themselves.
SET_HERE = (
    "--cluster-level", "--unsafe-to-concat", "--safe-to-insert-tatweel", "--safe-breaks", "--no-glyph-names", "--no-clusters",
    "--no-positions", "--no-advances", "--show-extents", "--show-flags",
)  # fmt: skip
PRINTED = ["--no-glyph-names", "--show-flags"]
REQUESTS = ["--unsafe-to-concat", "--safe-to-insert-tatweel", "--safe-breaks"]
# Slices of their texts need not join: the sort of their syllables may put clusters in no order.
INDIC = {"Beng", "Deva", "Gujr", "Guru", "Knda", "Mlym", "Orya", "Taml", "Telu"}


class Promises:
    """The runs of one text, and what they show."""

    def __init__(self, source: Source, text: Text, given: Given) -> None:
        self.source = source
        self.text = text
        self.options = [word for word in given.program if word.split("=")[0] not in SET_HERE]
        self.level = given.value("cluster-level") or "0"
        self.script = (given.value("script") or script_of(text.characters)).title()

    def broken(self) -> Iterator[str]:
        """What of the promises doesn't hold, in words."""
        by_level = {level: self.glyphs(level) for level in LEVELS}
        if not self.has_ranges():
            for level in LEVELS[1:]:
                if placed(by_level[level]) != placed(by_level["0"]):
                    yield f"cluster level {level} gives other glyphs or positions than level 0"
        glyphs = by_level[self.level]
        if clustered(self.glyphs(self.level, REQUESTS)) != clustered(glyphs):
            yield "flags that are asked for change glyphs, clusters or positions"
        yield from self.broken_clusters(glyphs)
        if self.script not in INDIC and glyphs:
            for level in MONOTONE:
                if not join(self.slices(level), len(self.text.bytes)):
                    yield f"at cluster level {level} the slices don't join to the text"

    def broken_clusters(self, glyphs: list[Glyph]) -> Iterator[str]:
        starts = {len(self.text.characters[:at].encode()) for at in range(len(self.text.characters))}
        for glyph, following in zip(glyphs, [*glyphs[1:], None]):
            if glyph.cluster not in starts:
                yield f"cluster {glyph.cluster} is no byte at which a character begins"
            if following is not None and following.cluster == glyph.cluster and following.flags != glyph.flags:
                yield f"the glyphs of cluster {glyph.cluster} have different flags"

    def has_ranges(self) -> bool:
        """Whether a feature is requested for a range of clusters, which depend on the level."""
        return any(word.startswith("--features") and "[" in word for word in self.options)

    def glyphs(self, level: str, more: list[str] | None = None) -> list[Glyph]:
        return read_line(self.run(level, more or [])[0])

    def slices(self, level: str) -> list[tuple[int, int]]:
        """The slices of a text, none where the program says that there are none."""
        lines = self.run(level, ["--slices"])[1:]
        if lines == ["no slices"]:
            return []
        pairs = (tuple(map(int, line.split())) for line in lines)
        return [(start, end) for start, end in pairs]

    def run(self, level: str, more: list[str]) -> list[str]:
        options = [*self.options, *PRINTED, f"--cluster-level={level}", *more]
        line = run_one(self.source, self.text, options)
        if line.status:
            raise ToolFault(line.status, f"{self.text.where}: {' '.join(options)}: {line.fault}")
        return line.glyphs.split("\n")[:-1]


def placed(glyphs: list[Glyph]) -> list[tuple[int, ...]]:
    return [(g.number, g.x_offset, g.y_offset, g.x_advance, g.y_advance) for g in glyphs]


def clustered(glyphs: list[Glyph]) -> list[tuple[int, ...]]:
    return [(glyph.cluster, *place) for glyph, place in zip(glyphs, placed(glyphs))]


def join(slices: list[tuple[int, int]], length: int) -> bool:
    """Whether slices follow each other from the text's start to its end."""
    ordered = sorted(slices)
    ends = [0, *(end for _, end in ordered)]
    return [start for start, _ in ordered] == ends[:-1] and ends[-1] == length
