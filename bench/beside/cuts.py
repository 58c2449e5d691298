"""Lines of paragraphs, and sets of cuts, by the library's calls for the law of safe breaks."""

import os
import sys
import unicodedata
from dataclasses import dataclass
from itertools import cycle
from random import Random
from typing import Any, Iterable, Iterator

from beside.composed import composed
from beside.pages import CLAUSE, list_of, spelled, turns_of
from beside.sets import Set
from building.places import LIBRARY
from building.ready import ready_place
from common.documents import table_lines
from common.faults import FILES, ToolFault
from sources.crates import ROOT

# The characters of a paragraph, and those of a line at most.
PARAGRAPH, LINE = 3000, 60
# Points that letters of a script get in turn: vowels of Hebrew with dagesh, and of Arabic with shadda.
POINTS = {"HEBREW": "\u05b8\u05bc\u05b0\u05b6", "ARABIC": "\u064e\u0651\u0650\u0652"}
KINDS = ("as they are", "decomposed", "with points", "few points", "mixed")
# With few points one word in so many has some.
RARE = 20
# More characters of a context than count.
CONTEXT = 10
OTHERS = "the others"
MOST_CUTS = 10
LEVELS = (0, 1)
# BOT, EOT and PRODUCE_SAFE_BREAKS of a text; UNSAFE_TO_BREAK and UNSAFE_TO_CONCAT of a glyph, of which no law speaks of
# the second one.
BEGINS, ENDS, SAFE_BREAKS = 1, 2, 256
UNSAFE_TO_BREAK, UNSAFE_TO_CONCAT = 1, 2
# A glyph's number, cluster, flags, advances and offsets.
Shown = tuple[int, ...]


def library(name: str) -> Any:
    """The bindings for Python over the library of the sources that stand here."""
    file = next(path for path in ready_place(name, LIBRARY).files if path.suffix == ".so")
    os.environ["KUSPVELI_LIBRARY"] = str(file)
    sys.path.insert(0, str(ROOT / "bindings" / "python"))
    try:
        import kuspveli
    except (AttributeError, ImportError, OSError) as missing:
        raise ToolFault(FILES, str(missing)) from missing
    return kuspveli


# ---- paragraphs


@dataclass(frozen=True)
class Paragraph:
    """A text, and the indices of its characters before which a line may begin."""

    text: str
    breaks: tuple[int, ...]

    def ends(self, most: int) -> list[int]:
        """Where its lines end but for the last one: at the last break that leaves at most so many characters, else there."""
        found, begin = [], 0
        while begin + most < len(self.text):
            begin = max((at for at in self.breaks if begin < at <= begin + most), default=begin + most)
            found.append(begin)
        return found


def paragraph(words: Iterable[str], between: str, stop: str) -> Paragraph:
    """The words that fit, with a break after each and its separator."""
    text, breaks = "", [0]
    for number, word in enumerate(words, 1):
        if len(text) + len(word) > PARAGRAPH:
            break
        text += word + (between if number % CLAUSE else stop)
        breaks.append(len(text))
    return Paragraph(text, tuple(breaks[1:-1]))


def paragraphs(chosen: Set, characters: frozenset[int]) -> dict[str, Paragraph]:
    """A set's paragraph of each kind, but for those that would be the one as it is, or that the font has no script for."""
    plain = paragraph(words_of(chosen), chosen.between, chosen.stop)
    made = {
        "decomposed": paragraph(map(decomposed, words_of(chosen)), chosen.between, chosen.stop),
        "with points": paragraph(pointed(words_of(chosen), 1), chosen.between, chosen.stop),
        "few points": paragraph(pointed(words_of(chosen), RARE), chosen.between, chosen.stop),
        "mixed": paragraph(cycle(turns_of(chosen, characters)), " ", ". "),
    }
    return {KINDS[0]: plain} | {kind: one for kind, one in made.items() if one.text not in ("", plain.text)}


def words_of(chosen: Set) -> Iterator[str]:
    return spelled(composed(list_of(chosen.words)), chosen.is_decomposed)


def decomposed(word: str) -> str:
    return unicodedata.normalize("NFD", word)


def pointed(words: Iterable[str], every: int) -> Iterator[str]:
    """Words of a script with points: each Nth one has a point at each letter, the others have none."""
    for number, word in enumerate(words):
        bare = "".join(each for each in word if unicodedata.category(each)[0] != "M")
        whole = "".join(each + point_of(each, at) for at, each in enumerate(bare))
        yield word if whole == bare else bare if number % every else whole


def point_of(letter: str, at: int) -> str:
    script = unicodedata.name(letter, "").split(" ")[0]
    points = POINTS.get(script, "") if unicodedata.category(letter) == "Lo" else ""
    return points[at % len(points)] if points else ""


# ---- shares of lines


@dataclass(frozen=True)
class Share:
    """How many lines a paragraph has, how many keep their glyphs by flags alone, and how many by the law."""

    lines: int = 0
    by_flags: int = 0
    by_law: int = 0

    def __add__(self, other: "Share") -> "Share":
        return Share(self.lines + other.lines, self.by_flags + other.by_flags, self.by_law + other.by_law)

    def cell(self, count: int) -> str:
        """Of a table: so many of the lines in percent."""
        return f"{100 * count / self.lines:.0f}" if self.lines else "–"


def share_of(font: Any, language: str, given: Paragraph) -> Share:
    """The lines of a paragraph that keep its glyphs."""
    ends = given.ends(LINE)
    font.shape_arrays(given.text, language=language, flags=SAFE_BREAKS, clusters="characters")
    own = [sum(line.glyphs is not None for line in font.cut_lines(ends, 0, lawful=each)) for each in (False, True)]
    return Share(len(ends) + 1, *own)


def rows_of(shares: dict[str, dict[str, Share]]) -> dict[str, dict[str, Share]]:
    """The rows of a table: those of which the law speaks nowhere are one."""
    rows = {name: row for name, row in shares.items() if any(share.by_law for share in row.values())}
    others = [row for name, row in shares.items() if name not in rows]
    return rows | {OTHERS: {kind: sum((row[kind] for row in others), Share()) for kind in KINDS}} if others else rows


def shares_table(rows: dict[str, dict[str, Share]]) -> list[str]:
    """A table in Markdown: percents of lines, by flags of all kinds of paragraphs, then by the law of each kind."""
    return table_lines([["Set", "by flags", *KINDS], *([name, *cells_of(row)] for name, row in rows.items())])


def cells_of(row: dict[str, Share]) -> list[str]:
    total = sum(row.values(), Share())
    return [total.cell(total.by_flags), *(row[kind].cell(row[kind].by_law) for kind in KINDS)]


# ---- sets of cuts


@dataclass(frozen=True)
class Tried:
    """Sets of cuts of texts: how many cuts they have, how many of these the law speaks of, and the lines between two such
    that differ, each as a text, where it begins and ends, and its level."""

    cuts: int = 0
    lawful: int = 0
    differing: tuple[tuple[str, int, int, int], ...] = ()

    def __add__(self, other: "Tried") -> "Tried":
        return Tried(self.cuts + other.cuts, self.lawful + other.lawful, self.differing + other.differing)


@dataclass(frozen=True)
class Trial:
    """A font, once for whole texts and once for their lines, and the language of the texts."""

    whole: Any
    part: Any
    language: str

    def tried(self, text: str, sets: int, draw: Random) -> Tried:
        """Cuts a text at both levels, for each so many sets of up to ten of its safe breaks at once."""
        found = Tried()
        for level in LEVELS:
            glyphs = shaped(self.whole, text, 0, len(text), self.settings(level))
            safe = safe_cuts(glyphs)
            for _ in range(sets if safe else 0):
                cuts = sorted(draw.sample(safe, min(len(safe), draw.randint(1, MOST_CUTS))))
                found += self.tried_set(text, glyphs, cuts, level)
        return found

    def tried_set(self, text: str, glyphs: list[Shown], cuts: list[int], level: int) -> Tried:
        """Shapes each line between cuts of which the law speaks, and compares it with the text's own glyphs."""
        settings = self.settings(level) | {"direction": self.whole.direction(), "script": self.whole.script()}
        kept = [line for line in self.whole.cut_lines(cuts, 0, lawful=True) if line.glyphs is not None]
        differing = tuple(
            (text, line.start, line.end, level)
            for line in kept
            if shaped(self.part, text, line.start, line.end, settings) != glyphs[line.glyphs.start : line.glyphs.stop]
        )
        ends = {end for line in kept for end in (line.start, line.end)}
        return Tried(len(cuts), len(ends.intersection(cuts)), differing)

    def settings(self, level: int) -> dict[str, Any]:
        return {"language": self.language, "cluster_level": level}


def shaped(font: Any, text: str, begin: int, end: int, settings: dict[str, Any]) -> list[Shown]:
    """The glyphs of a part of a text between the others as its context, with the clusters of the text."""
    flags = SAFE_BREAKS | (0 if begin else BEGINS) | (0 if end < len(text) else ENDS)
    around = {"before": text[max(begin - CONTEXT, 0) : begin], "after": text[end : end + CONTEXT]}
    given = font.shape_arrays(text[begin:end], flags=flags, clusters="characters", **around, **settings)
    clusters = (cluster + begin for cluster in given.clusters)
    flags_of = (each & ~UNSAFE_TO_CONCAT for each in given.flags)
    positions = (given.x_advances, given.y_advances, given.x_offsets, given.y_offsets)
    return list(zip(given.numbers, clusters, flags_of, *positions))


def safe_cuts(glyphs: list[Shown]) -> list[int]:
    """The clusters but 0 of which no glyph is unsafe to break."""
    unsafe = {cluster for _, cluster, flags, *_ in glyphs if flags & UNSAFE_TO_BREAK}
    return sorted({each[1] for each in glyphs} - unsafe - {0})
