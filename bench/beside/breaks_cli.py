"""The command line of breaks."""

import argparse
import json
import random
from collections import Counter
from concurrent.futures import ProcessPoolExecutor
from dataclasses import dataclass
from functools import partial
from pathlib import Path
from typing import Any, Callable, Iterator

from beside.cuts_cli import print_kept, try_cuts
from beside.flags import Forbidden, forbidden, table_of
from beside.fonts_cli import USUAL, fonts_of
from beside.fonts_texts import scripts_of, words_of
from beside.fonts_try import WITH_BOXES
from beside.pages import CLAUSE, text_of
from beside.sets import SETS, Set
from building.places import KUSPVELI
from building.ready import ready_program, ready_trials
from common.faults import ToolFault
from common.notes import Notes
from common.parsing import Words
from fontjson.cli import read_font
from fontjson.program import reader
from fuzzing.in_process import run_stream
from fuzzing.streams import font_line, tables_line, text_line, words_line
from shaping.cache import cache_folder
from shaping.converting import tables_file

NAME = "breaks"
ABOUT = """Shapes lines in each font of some folders with PRODUCE_SAFE_BREAKS, at both monotone levels, cuts each at every
break that is safe, and compares the glyphs of the pieces with those of the whole, by the program shape_trials. The lines
are words of bench/beside/words that the font has all characters of, and strings of its letters and marks, the same ones at
each run; with --pages they are the clauses of the texts of bench/real, each in its font. Printed are the breaks of each
script that were tried, each line whose pieces differ, as unsure where that may be for a known reason, and each line at
which the program ends or whose answer breaks another promise. The status is 1 where a line is printed that isn't unsure.
With --flags those clauses are shaped alone, and a table says how many breaks for 1,000 characters are forbidden by flag, by
hb-shape, by the program and by the program with --safe-breaks. With --kept a table says how many lines of paragraphs of 3,000
characters keep the paragraph's glyphs, by flags alone and where the library's calls say that the law of safe breaks speaks of
them. With --cuts N parts of those paragraphs are cut at up to ten safe breaks at once, at both levels, until the law speaks of
N cuts by these calls, and the lines between them are compared with the whole; the status is 1 where one differs."""
# Words of a line, and its least and greatest lengths by chance.
LONGEST = 8
STRINGS = (2, 12)
# No word of a page has more characters.
LONG_WORD = 40
GLYPHS = 65536


@dataclass(frozen=True)
class Line:
    """A line with its script."""

    script: str
    text: str


@dataclass(frozen=True)
class Tried:
    """What came of one font: breaks by script, and the lines that aren't as they should be, each after what it shows."""

    font: str
    breaks: Counter[str]
    differing: tuple[tuple[str, str], ...] = ()
    refused: str = ""


def parser() -> argparse.ArgumentParser:
    words = Words(prog=NAME, description=ABOUT)
    words.add_argument("folders", nargs="*", type=Path, default=[USUAL], metavar="FOLDER", help=f"or a font ({USUAL})")
    words.add_argument("--every", type=int, default=1, metavar="N", help="each Nth font alone (1)")
    words.add_argument("--pages", action="store_true", help="clauses of the texts of bench/real, in place of the folders")
    words.add_argument("--flags", action="store_true", help="what is forbidden in those clauses, in place of cuts")
    words.add_argument("--kept", action="store_true", help="which lines of paragraphs keep their glyphs, in place of cuts")
    words.add_argument("--cuts", type=int, default=0, metavar="N", help="sets of cuts, until the law speaks of N cuts")
    words.add_argument("--lines", type=int, default=200, metavar="N", help="lines for each font (200)")
    words.add_argument("--jobs", type=int, default=1, metavar="N", help="processes that try fonts (1)")
    words.add_argument("--seed", type=int, default=1, metavar="N", help="which lines are drawn (1)")
    return words


def main(given: list[str]) -> int:
    """Cuts; its status is 1 where a line isn't as it should be for no known reason."""
    options = parser().parse_args(given)
    if options.flags:
        print("\n".join(table_of(list(all_forbidden(options.lines, options.every)))))
        return 0
    if options.kept:
        print_kept(NAME, standing_sets(options.every))
        return 0
    if options.cuts:
        return 0 if try_cuts(NAME, standing_sets(options.every), options.cuts, options.seed) else 1
    program = ready_trials(NAME)
    reader()  # before there are processes, each of which would look for it
    tried: list[Tried] = []
    with cache_folder() as kept, ProcessPoolExecutor(options.jobs) as pool:
        tables = tables_file(kept).read_bytes().replace(b"\n", b" ")
        for each in pool.map(*works(program, tables, options)):
            tried.append(each)
            told(each)
    total = sum((each.breaks for each in tried), Counter[str]())
    for script, count in sorted(total.items()):
        print(f"{script} {count:,}")
    found = Counter(name for each in tried for name, _ in each.differing)
    wrong = found.total() - found["unsure"]
    fonts = {each.font for each in tried if not each.refused}
    print(f"{sum(total.values()):,} breaks in {len(fonts):,} fonts; wrong lines: {wrong:,}, unsure: {found['unsure']:,}")
    return 1 if wrong else 0


def all_forbidden(count: int, every: int) -> Iterator[Forbidden]:
    """What flags forbid in the clauses of the sets whose font is there."""
    program = ready_program(NAME, target=KUSPVELI)
    for chosen in standing_sets(every):
        yield forbidden(program, chosen, clauses_of(chosen, count))


def standing_sets(every: int) -> list[Set]:
    """Each Nth set, but for those whose font isn't there, which are told."""
    for chosen in SETS[::every]:
        if not chosen.font.is_file():
            told(missing(chosen))
    return [chosen for chosen in SETS[::every] if chosen.font.is_file()]


def missing(chosen: Set) -> Tried:
    """Of a set whose font isn't installed."""
    refused = f"apt-get install {chosen.package}: {chosen.font} is not there"
    return Tried(str(chosen.font), Counter(), refused=refused)


def works(program: Path, tables: bytes, options: argparse.Namespace) -> tuple[Callable[[Any], Tried], list[Any]]:
    """What is called, and with what: sets of bench/real, or fonts."""
    if options.pages:
        return partial(try_set, program, tables, options.lines), list(SETS[:: options.every])
    return partial(try_font, program, tables, options.lines, options.seed), fonts_of(options.folders)[:: options.every]


def told(tried: Tried) -> None:
    """Prints what came of a font that isn't alike."""
    if tried.refused:
        print(f"refused: {tried.refused}", flush=True)
    for name, text in tried.differing:
        print(f"{name}: {tried.font}: {' '.join(f'U+{ord(each):04X}' for each in text)}", flush=True)


def try_set(program: Path, tables: bytes, count: int, chosen: Set) -> Tried:
    """Cuts the clauses of a set's text in its font."""
    if not chosen.font.is_file():
        return missing(chosen)
    lines = [Line(chosen.name, clause) for clause in clauses_of(chosen, count)]
    return tried_lines(program, tables, chosen.font, [f"--language={chosen.language}"], lambda characters: lines)


def clauses_of(chosen: Set, count: int) -> list[str]:
    """The first clauses of a set's text."""
    clauses = text_of(chosen, count * CLAUSE * LONG_WORD).split(chosen.stop)
    return clauses[:count]


def try_font(program: Path, tables: bytes, count: int, seed: int, font: Path) -> Tried:
    """Cuts the lines of a font."""
    draw = random.Random(f"{seed}/{font.name}")
    return tried_lines(program, tables, font, [], lambda characters: list(lines_of(characters, count, draw)))


def tried_lines(
    program: Path, tables: bytes, font: Path, words: list[str], lines_for: Callable[[frozenset[int]], list[Line]]
) -> Tried:
    """Cuts lines for a font that has some characters."""
    breaks: Counter[str] = Counter()
    try:
        value = read_font(str(font), 0, WITH_BOXES, Notes())
    except ToolFault as fault:
        return Tried(str(font), breaks, refused=str(fault))
    lines = lines_for(frozenset(row[0] for row in value.get("cmap", [])))
    head = [tables_line(tables), font_line(GLYPHS, json.dumps(value).encode()), words_line(["--bot", "--eot", *words])]
    differing: list[tuple[str, str]] = []
    for script in dict.fromkeys(line.script for line in lines):
        texts = [line.text for line in lines if line.script == script]
        ran = run_stream(program, b"".join([*head, *map(text_line, texts)]))
        if ran.ending is not None:
            differing.append(ended_line(program, head, texts, ran.ending))
            continue
        breaks[script] += int(ran.lines[-1].split()[4])
        for each in ran.lines[:-1]:
            name, number, *rest = each.split()
            differing.append((name if rest in ([], ["breaks"]) else f"{name} {rest[0]}", texts[int(number)]))
    return Tried(str(font), breaks, tuple(differing))


def ended_line(program: Path, head: list[bytes], texts: list[str], ending: str) -> tuple[str, str]:
    """The first text at which the program ends by itself, after how it does; no text where it ends at none alone."""
    for text in texts:
        alone = run_stream(program, b"".join([*head, text_line(text)])).ending
        if alone is not None:
            return alone, text
    return ending, ""


def lines_of(characters: frozenset[int], count: int, draw: random.Random) -> Iterator[Line]:
    """Lines of words and of strings, in the scripts of a font in turn."""
    scripts = scripts_of(characters)
    for at in range(count if scripts else 0):
        script, letters = scripts[at % len(scripts)]
        words = [word for word in words_of(script) if characters.issuperset(map(ord, word))]
        if words and at % 2 == 0:
            yield Line(script, " ".join(draw.choice(words) for _ in range(draw.randint(1, LONGEST))))
        else:
            yield Line(script, "".join(draw.choice(letters) for _ in range(draw.randint(*STRINGS))))
