"""What breaks prints by the library's calls: shares of lines, and sets of cuts that are tried."""

import time
from pathlib import Path
from random import Random
from typing import Any

from fontTools.ttLib import TTFont

from beside.cuts import KINDS, Paragraph, Share, Trial, Tried, library, paragraphs, rows_of, share_of, shares_table
from beside.sets import Set
from common.notes import Progress

# Sets of cuts of a text at a level before the next one, and the characters of a text.
SETS_OF_CUTS, TEXT = 10, 120


def print_kept(name: str, chosen: list[Set]) -> None:
    """Prints the table of the lines that keep their paragraph's glyphs."""
    bindings, progress = library(name), Progress(name)
    shares: dict[str, dict[str, Share]] = {}
    for each in chosen:
        progress.step(each.title)
        row = shares.setdefault(each.name, dict.fromkeys(KINDS, Share()))
        with bindings.Font.open(each.font) as font:
            for kind, given in paragraphs(each, characters_of(each.font)).items():
                row[kind] += share_of(font, each.language, given)
    progress.end()
    print("\n".join(shares_table(rows_of(shares))))


def try_cuts(name: str, chosen: list[Set], wanted: int, seed: int) -> bool:
    """Cuts the texts of sets in turn, until so many cuts are some of which the law speaks; whether all lines are alike."""
    bindings, progress, draw = library(name), Progress(name), Random(seed)
    tried = {each.title: Tried() for each in chosen}
    works = [(each, trial_of(bindings, each), texts_of(each)) for each in chosen]
    begun, lawful = time.monotonic(), 0
    while works and lawful < wanted:
        for work in list(works):
            each, trial, texts = work
            found = Tried()
            for text in texts:
                found += trial.tried(text, SETS_OF_CUTS, draw)
                progress.step(each.title, lawful + found.lawful, wanted)
            tell_differing(each, found)
            tried[each.title] += found
            lawful += found.lawful
            if not found.lawful:
                works.remove(work)
    progress.end()
    for title, found in tried.items():
        print(f"{title}: {found.lawful:,} of {found.cuts:,} cuts, {len(found.differing):,} lines differ")
    different = sum(len(found.differing) for found in tried.values())
    print(f"{lawful:,} cuts of which the law speaks, in {time.monotonic() - begun:.0f} s: {different:,} lines differ")
    return different == 0


def trial_of(bindings: Any, chosen: Set) -> Trial:
    return Trial(bindings.Font.open(chosen.font), bindings.Font.open(chosen.font), chosen.language)


def texts_of(chosen: Set) -> list[str]:
    """Parts of a set's paragraphs of each kind."""
    return [text for each in paragraphs(chosen, characters_of(chosen.font)).values() for text in parts_of(each)]


def parts_of(given: Paragraph) -> list[str]:
    ends = given.ends(TEXT)
    return [given.text[begin:end] for begin, end in zip([0, *ends], [*ends, len(given.text)])]


def tell_differing(chosen: Set, found: Tried) -> None:
    for text, begin, end, level in found.differing:
        numbers = " ".join(f"U+{ord(each):04X}" for each in text)
        print(f"differs: {chosen.font}: {begin} to {end} at level {level} of {numbers}", flush=True)


def characters_of(path: Path) -> frozenset[int]:
    with TTFont(path, lazy=True) as font:
        return frozenset(font.getBestCmap())
