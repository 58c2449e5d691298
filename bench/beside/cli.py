"""The command line of real."""

import argparse
import os
import shutil
import subprocess
import tempfile
from concurrent.futures import ThreadPoolExecutor
from pathlib import Path
from typing import Callable

from fontTools.ttLib import TTFont

from beside.chart import chart
from beside.differences import Difference, difference
from beside.kept import INSTRUCTIONS, NANOSECONDS, Kept, read_kept, run_of, told_run, write_kept
from beside.pages import text_of, words_of
from beside.programs import THEIRS, Files, build_driver, printed_by
from beside.opening import opening_lines
from beside.sets import OPENED, PACKAGES, SETS, Set
from beside.steps import Steps
from beside.table import Row, of_glyphs, ratios, summary, tables
from beside.works import LARGE, PAGE, Measure, measure_of, take_counts, take_peaks, take_times
from building.places import LIBRARY, PROGRAM, standing
from building.ready import usable
from common.documents import replace_part
from common.faults import FILES, WORDS, ToolFault
from common.files import write_file
from common.parsing import Words
from shaping.cache import cache_folder
from shaping.converting import font_value, tables_file

NAME = "real"
# Programs that a run needs, each with its package.
PROGRAMS = ((THEIRS, "libharfbuzz-bin"), ("gcc", "gcc"), ("pkg-config", "pkg-config"), ("valgrind", "valgrind"))
# Pages of the longer text. Instructions know no caches, so by them one is measured only where it is asked for.
PAGES, COUNTED_PAGES = 11, 1
BEGIN, END = (f"<!-- bench/real --table {word} -->" for word in ("begins", "ends"))
BEGIN_OPENING, END_OPENING = (f"<!-- bench/real --opening --table {word} -->" for word in ("begins", "ends"))

ABOUT = f"""Measures the library for C beside libharfbuzz, and the program beside hb-shape, on real fonts of Debian's
packages and composed texts that don't repeat. Prints tables in Markdown: what Kuspveli takes over what HarfBuzz takes.

  program  a character, by the programs, past the first word
  page     a character of a page ({PAGE:,} characters), by the libraries with a plan that both keep
  more     the same, of what each page after the first takes
  words    a word of 300 different ones of five to eight characters, with plans that are kept
  turns    a text of two scripts in turn, with numbers between, with plans that are kept
  anew     a word whose plan is made for it
  font     reading a font and shaping a word in it, in millions
  first    the same with the tables: what a process takes up to its first word, in millions

By default in nanoseconds of processor time, of which the least of all rounds counts; by --instructions in those that
callgrind counts, where the machine has other work too. Both sides come in turn in one run. Before it all texts are
shaped once, and glyphs, clusters, offsets and advances compared. Below the tables stand the rows above a mark, and
where glyphs differ."""
AFTER = f"""Needs {THEIRS} (libharfbuzz-bin), gcc, pkg-config, valgrind and libharfbuzz-dev, python3-fonttools,
unicode-data, and the fonts ({', '.join(PACKAGES)}).
The status is 1 where glyphs differ otherwise than docs/DIFFERENCES.md says.

examples:
  bench/real                            all sets
  bench/real --only Arabic --only Urdu  these alone
  bench/real --instructions --jobs 4    by instructions, four sets at once
  bench/real --memory                   also the peak of memory for {LARGE:,} characters
  bench/real --glyphs                   compares glyphs, and measures nothing
  bench/real --opening                  opening font files by their bytes, whole and without boxes and names
  bench/real --texts FOLDER             writes the pages and words, and measures nothing
  bench/real --keep docs/speed.json     keeps the numbers, which the next line shows and draws again
  bench/real --from docs/speed.json --table docs/SPEED.md --chart docs/pictures/speed.svg"""


def main(words: list[str]) -> int:
    """Measures; its status is 1 where glyphs differ otherwise than docs/DIFFERENCES.md says."""
    options = read_options(words)
    if options.kept is not None:
        show(read_kept(options.kept), options)
        return 0
    sets = list(OPENED) if options.opening else chosen_sets(options.only)
    if options.texts is not None:
        write_texts(options.texts, sets)
        return 0
    need(sets, None if options.opening else options.program, options.library)
    if options.cpu is not None:
        os.sched_setaffinity(0, {options.cpu})
    with tempfile.TemporaryDirectory() as made, cache_folder() as values:
        if options.opening:
            return show_opening(sets, options, Path(made))
        return measure_all(sets, options, Path(made), values)


# ---- words


def read_options(words: list[str]) -> argparse.Namespace:
    layout = argparse.RawDescriptionHelpFormatter
    parser = Words(prog=NAME, description=ABOUT, epilog=AFTER, formatter_class=layout)
    add_sizes(parser)
    parser.add_argument("--memory", action="store_true", help=f"also the peak of memory for {LARGE:,} characters")
    parser.add_argument("--glyphs", action="store_true", help="compare glyphs, and measure nothing")
    parser.add_argument("--opening", action="store_true", help="measure opening some font files and a first word alone")
    parser.add_argument("--texts", type=Path, metavar="FOLDER", help="write the pages and words, and measure nothing")
    program, library = standing(PROGRAM).file, standing(LIBRARY).file
    parser.add_argument("--program", type=Path, default=program, metavar="FILE", help="the program to measure")
    parser.add_argument("--library", type=Path, default=library, metavar="FILE", help="the archive to measure")
    parser.add_argument("--keep", type=Path, metavar="FILE", help="keep the numbers in a file")
    shown = "measure nothing, and show the numbers of such a file"
    parser.add_argument("--from", type=Path, dest="kept", metavar="FILE", help=shown)
    parser.add_argument("--chart", type=Path, metavar="FILE", help="draw the numbers into a file (SVG)")
    written = "write the ratios, or the table of --opening, into a document, between its two lines for them"
    parser.add_argument("--table", type=Path, metavar="FILE", help=written)
    options = parser.parse_args(words)
    options.pages = options.pages or (COUNTED_PAGES if options.instructions else PAGES)
    if options.pages < 2 and not options.instructions:
        raise ToolFault(WORDS, "--pages: a slope needs two lengths, so 2 pages or more")
    if options.jobs > 1 and not options.instructions:
        raise ToolFault(WORDS, "--jobs: times are taken one after another; it is for --instructions")
    return options


def add_sizes(parser: Words) -> None:
    """The words for how much is measured, and how."""
    only = "sets whose name or font has this word; may be given again"
    parser.add_argument("--only", action="append", metavar="WORD", help=only)
    pages = f"pages of the longer text ({PAGES}); by instructions there is none, and neither program nor more"
    parser.add_argument("--pages", type=number, metavar="N", help=pages)
    parser.add_argument("--runs", type=number, default=5, metavar="N", help="runs of which the least times count (5)")
    parser.add_argument("--cpu", type=processor, metavar="N", help="the one processor to run on")
    counted = "count instructions by callgrind, in one run, in place of times"
    parser.add_argument("--instructions", action="store_true", help=counted)
    jobs = "sets whose instructions are counted at once (1)"
    parser.add_argument("--jobs", type=number, default=1, metavar="N", help=jobs)


def number(text: str) -> int:
    if not (text.isascii() and text.isdigit() and int(text)):
        raise argparse.ArgumentTypeError(f"no number above 0: {text!r}")
    return int(text)


def processor(text: str) -> int:
    if not (text.isascii() and text.isdigit() and int(text) in os.sched_getaffinity(0)):
        raise argparse.ArgumentTypeError(f"no processor of this machine: {text!r}")
    return int(text)


def chosen_sets(words: list[str] | None) -> list[Set]:
    """The sets that have one of the words in their name, all where no word is given."""
    for word in words or []:
        if not any(has_word(chosen, word) for chosen in SETS):
            raise ToolFault(WORDS, f"--only: no set has {word!r}: {'; '.join(chosen.title for chosen in SETS)}")
    return [chosen for chosen in SETS if words is None or any(has_word(chosen, word) for word in words)]


def has_word(chosen: Set, word: str) -> bool:
    return word.casefold() in chosen.title.casefold()


def need(sets: list[Set], program: Path | None, library: Path) -> None:
    """Refuses before anything is made where a program, the library or a font is missing."""
    if program is not None and not os.access(program, os.X_OK):
        raise ToolFault(FILES, f"{program} is not there: tools/build proves and builds it")
    if not library.is_file():
        raise ToolFault(FILES, f"{library} is not there: tools/build_library proves and builds it")
    packages = {chosen.package for chosen in sets if not chosen.font.is_file()}
    packages |= {package for command, package in PROGRAMS if not shutil.which(command)}
    if "pkg-config" not in packages and subprocess.run(["pkg-config", "--exists", "harfbuzz"], check=False).returncode:
        packages.add("libharfbuzz-dev")
    if packages:
        raise ToolFault(FILES, f"apt-get install {' '.join(sorted(packages))}: what is measured or read is not there")
    if program is not None:
        usable(NAME, program)


def write_texts(folder: Path, sets: list[Set]) -> None:
    folder.mkdir(parents=True, exist_ok=True)
    for chosen in sets:
        write_file(folder / f"{chosen.title}.txt", text_of(chosen, PAGE) + "\n")
        write_file(folder / f"{chosen.title}, words.txt", "\n".join(words_of(chosen)) + "\n")


def command_of(options: argparse.Namespace) -> str:
    """The command that takes such numbers again."""
    only = "".join(f" --only {word}" for word in options.only or [])
    how = " --instructions" if options.instructions else f" --runs {options.runs}"
    pages = "" if options.pages == (COUNTED_PAGES if options.instructions else PAGES) else f" --pages {options.pages}"
    asked = "".join(f" --{word}" for word in ("opening", "memory") if getattr(options, word))
    return f"bench/real{how}{pages}{asked}{only}"


# ---- a run


def show_opening(sets: list[Set], options: argparse.Namespace, made: Path) -> int:
    """Measures opening font files by their bytes, and prints the table, or writes it into a document."""
    driver = build_driver(made, options.library)
    run = run_of(command_of(options), INSTRUCTIONS if options.instructions else NANOSECONDS, options.library)
    told = told_run(run, "the library", f"that of {run['harfbuzz']}")
    lines = [*told, "", *opening_lines(sets, driver, options.runs, options.instructions, made)]
    if options.table is not None:
        replace_part(options.table, BEGIN_OPENING, END_OPENING, lines)
    print("\n".join(lines))
    return 0


def measure_all(sets: list[Set], options: argparse.Namespace, made: Path, values: Path) -> int:
    """Compares the glyphs of all sets, measures them, and shows the tables and the summary."""
    driver, tables_made, steps = build_driver(made, options.library), tables_file(values), Steps(NAME, len(sets))
    measures: dict[str, Measure] = {}
    for at, chosen in enumerate(sets):
        files = Files(chosen, options.program, tables_made, font_value(values, chosen.font, 0), driver)
        measures[chosen.title] = measure_of(files, characters_of(chosen.font), options.pages, made / str(at))
    unlike: dict[str, Difference | None] = {}
    steps.each("glyphs", measures, lambda measure: unlike.update({measure.title: differences(measure)}))
    if options.glyphs:
        print("\n".join(f"{title}: {other.told if other else 'same'}" for title, other in unlike.items()))
    else:
        take_all(measures, options, steps, lambda: keep(kept_of(measures, unlike, options), options))
        kept = kept_of(measures, unlike, options)
        keep(kept, options)
        show(kept, options)
        told = [f"{title}: {other.told}" for title, other in unlike.items() if other is not None]
        print("\n".join(["", *summary(kept.rows), *told]))
    return 1 if any(is_fault(chosen, unlike[chosen.title]) for chosen in sets) else 0


def kept_of(measures: dict[str, Measure], unlike: dict[str, Difference | None], options: argparse.Namespace) -> Kept:
    """What was taken so far."""
    unit = INSTRUCTIONS if options.instructions else NANOSECONDS
    rows = [row_of(measure, unlike[title]) for title, measure in measures.items() if measure.taken]
    return Kept(run_of(command_of(options), unit, options.program), rows)


def keep(kept: Kept, options: argparse.Namespace) -> None:
    if options.keep is not None:
        write_kept(options.keep, kept)


def show(kept: Kept, options: argparse.Namespace) -> None:
    """Prints what was measured with its tables; writes and draws the ratios where that is asked."""
    if options.chart is not None:
        write_file(options.chart, chart(kept))
    if options.table is not None:
        replace_part(options.table, BEGIN, END, [*kept.told(), "", *ratios(kept.rows)])
    print("\n".join([*kept.told(), "", *tables(kept.rows)]))


def take_all(
    measures: dict[str, Measure], options: argparse.Namespace, steps: Steps, after_set: Callable[[], None]
) -> None:
    """Takes what is asked of all sets; a set that is counted is kept at once, since counting takes minutes."""
    if options.instructions:
        with ThreadPoolExecutor(options.jobs) as pool:
            begun = {pool.submit(take_counts, measure): title for title, measure in measures.items()}
            steps.follow("counted", begun, after_set)
    else:
        # A run is of all sets, so that what else the machine does for some seconds meets few runs of a set.
        for run in range(options.runs):
            steps.each(f"run {run + 1}", measures, take_times)
    if options.memory:
        steps.each("memory", measures, take_peaks)


def row_of(measure: Measure, unlike: Difference | None) -> Row:
    chosen = measure.files.chosen
    return Row(chosen.name, chosen.font_name, measure.pairs(), of_glyphs(unlike))


def characters_of(path: Path) -> frozenset[int]:
    with TTFont(path, lazy=True) as font:
        return frozenset(font.getBestCmap())


# ---- glyphs


def differences(measure: Measure) -> Difference | None:
    """Where the glyphs of a text differ, the program's from those of hb-shape or the library's from those of
    libharfbuzz, first where not in clusters alone; None where nowhere."""
    files, texts = measure.files, [work.texts for work in measure.works if work.name in ("page", "font")]
    by_programs = [["".join(printed_by(words)) for words in (files.own(text), files.theirs(text))] for text in texts]
    lines = printed_by(files.rounds(0, [work.word() for work in measure.works if work.kind == "kept"]))
    pairs = (*by_programs, *zip(lines[::2], lines[1::2], strict=True))
    found = [unlike for own, theirs in pairs if (unlike := difference(own, theirs.strip("[]"))) is not None]
    return min(found, key=lambda unlike: unlike.in_clusters_alone, default=None)


def is_fault(chosen: Set, unlike: Difference | None) -> bool:
    """Whether glyphs differ otherwise than the set's are known to."""
    return unlike is not None and not (chosen.has_own_clusters and unlike.in_clusters_alone)

