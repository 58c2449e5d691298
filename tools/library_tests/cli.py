"""The command line of test_library."""

import json
import shutil
import sys
import tempfile
import time
from concurrent.futures import ThreadPoolExecutor
from pathlib import Path

from attacks import fonts as attacks
from building.places import LIBRARY, PROGRAM, Place, Target
from building.ready import ready_place, unproved_place
from common.documents import replace_part
from common.faults import FILES, ToolFault
from common.files import write_over
from common.parsing import Words
from fuzzing.converted import small_fonts
from library_tests import drivers
from library_tests.cases import SETTINGS, Case, Script, scripts
from library_tests.drivers import Tested
from library_tests.times import measure, table
from shaping.cache import cache_folder
from shaping.converting import font_value, tables_file
from shaping.program import run_one
from shaping.sources import Converted
from shaping.texts import Text

NAME = "test_library"
ABOUT = """Tests the library for C: its header as C99, C11 and C++ beside HarfBuzz's numbers and structs; the same texts from
C, Rust (where cargo is there) and Python as from the program, with their slices, by a font's JSON and by its file; what
the calls for font files answer, also of damaged ones; a client's advances and scale beside HarfBuzz's, where a text has
HarfBuzz's glyphs; each allocation freed, by valgrind and by counts over many calls on
four threads; calls of every kind with drawn arguments, under valgrind; each allocation of a call refused in turn; the stack that the header asks for;
and what a word of each script takes by the kept plan, words of four scripts and texts of several scripts in turn,
beside HarfBuzz's. It takes the proved program and library where they are built of the sources that stand here, else
those without proofs, which it makes first, and says so. By --table it measures alone, and the table stands in a
document between its two lines."""
# The room for the first call of each text: small, so that some texts are read again.
ROOM = 8
SHOWN = ("--no-glyph-names", "--show-flags", "--slices")
CALLS = 1_000_000
# The script whose font file is read with each of its allocations refused, and the calls that shape in it.
REFUSED, FEW_CALLS = "Tamil", 20_000
# How many calls are drawn, and the seed.
DRAWN, SEED = 100_000, 1
# How deep arrays and objects may nest in a file.
DEEPEST = 127
BEGIN, END = (f"<!-- tools/test_library --table {word} -->" for word in ("begins", "ends"))


def main(words: list[str]) -> int:
    """Tests; its status is 1 where something is not as it is to be."""
    parser = Words(prog=NAME, description=ABOUT)
    parser.add_argument("--calls", type=int, default=CALLS, metavar="N", help=f"calls of one run ({CALLS:,})")
    parser.add_argument("--unproved", action="store_true", help="test what is compiled without proofs (out/unproved)")
    modes = parser.add_mutually_exclusive_group()
    modes.add_argument("--no-times", action="store_true", help="don't compare times")
    modes.add_argument("--table", type=Path, metavar="FILE", help="compare times alone, and write their table into a document")
    options = parser.parse_args(words)
    for command in ("gcc", "g++", "pkg-config", "valgrind"):
        if shutil.which(command) is None:
            raise ToolFault(FILES, f"the command {command} is not on the path (docs/TOOLS_FOR_DEVELOPERS.md names the packages)")
    with cache_folder() as values, tempfile.TemporaryDirectory() as work:
        tested = Tested(place_of(LIBRARY, options.unproved), values, Path(work))
        tables, all_scripts = tables_file(values), scripts()
        wrong = 0
        if options.table is None:
            program = place_of(PROGRAM, options.unproved).file
            wrong += tell_tests(program, tested, tables, all_scripts, options.calls)
        if not options.no_times:
            wrong += tell_times(tested, tables, all_scripts, options.table)
    print(f"{NAME}: {f'{wrong} wrong' if wrong else 'passed'}")
    return 1 if wrong else 0


def place_of(target: Target, is_unproved: bool) -> Place:
    """Where a target of the sources that stand here stands, which is made where it is not there."""
    return unproved_place(NAME, target, "--unproved") if is_unproved else ready_place(NAME, target)


def tell_tests(program: Path, tested: Tested, tables: Path, all_scripts: list[Script], calls: int) -> int:
    """Runs each test but that of times, and tells it; how much is wrong."""
    values, work, library = tested.values, tested.work, tested.library
    drivers.check_header(work)
    tell("header", "C99, C11 and C++, HarfBuzz's numbers and layouts")
    fonts = {script.font: font_value(values, script.font, 0) for script in all_scripts}
    expected = {
        script.name: lines_of_program(program, tables, fonts[script.font], script.cases)
        for script in all_scripts
    }
    wrong = 0
    for driver in drivers.build(work, library):
        found = 0
        for script in all_scripts:
            for given in ((tables, fonts[script.font]), (drivers.OWN_TABLES, script.font)):
                lines = driver.lines(*given, ROOM, script.cases)
                wrong += tell_differences(driver.name, script, expected[script.name], lines)
            found += len(script.cases)
        tell(driver.name, f"{found} texts in {len(all_scripts)} scripts, by JSON and by font files")
    latin, *_ = all_scripts
    some = [case.text for case in latin.cases if case.settings == SETTINGS[0] and case.text][:4]
    tell("font files", drivers.try_fonts(work, library, tables, latin.font, some[0]))
    for script in all_scripts:
        tell(f"settings of {script.name}", drivers.try_settings(work, library, script))
    drawn = drivers.random_calls(work, library, list(small_fonts()), SEED, min(calls, DRAWN))
    tell("drawn calls, under valgrind", drawn)
    tell("memory", drivers.count_calls(work, library, (tables, fonts[latin.font]), calls, some))
    refused = next(script for script in all_scripts if script.name == REFUSED)
    of_file = (drivers.OWN_TABLES, refused.font), min(calls, FEW_CALLS), [refused.cases[0].text]
    tell("memory by a font file", drivers.count_calls(work, library, *of_file))
    return wrong + tell_stacks(tested, tables, fonts[latin.font], latin.font)


def lines_of_program(program: Path, tables: Path, font: Path, cases: list[Case]) -> list[str]:
    """The program's line for each case."""

    def line(case: Case) -> str:
        made = run_one(
            Converted(program, tables, font), Text(case.text.encode(), case.text), [*SHOWN, *case.settings.words]
        )
        glyphs, *slices = made.glyphs.rstrip("\n").split("\n")
        return made.fault if made.status else f"{glyphs};{','.join(slices)}"

    with ThreadPoolExecutor() as pool:
        return list(pool.map(line, cases))


def tell_differences(driver: str, script: Script, expected: list[str], found: list[str]) -> int:
    """Tells the cases whose line differs; how many there are."""
    if len(found) != len(expected):
        raise ToolFault(FILES, f"{driver}: {len(found)} lines for the {len(expected)} texts of {script.name}")
    differ = [row for row in zip(script.cases, expected, found, strict=True) if row[1] != row[2]]
    for case, wanted, line in differ:
        print(f"{driver}: {script.name}: {case.text!r} {case.settings.words}: {line} where the program has {wanted}")
    return len(differ)


def tell_stacks(tested: Tested, tables: Path, font: Path, file: Path) -> int:
    """Tells what the calls take of the stack, with files whose values nest as deep as they may, and deeper, and a font whose
    lookups call each other as deep as they may, and a font file; how many calls answered another status."""
    nested = {depth: '{"x":' + '{"a":' * depth + "1" + "}" * depth + "}" for depth in (DEEPEST - 1, DEEPEST)}
    called = attacks.chain_of_calls(50)
    files = {
        "plain": (tables.read_text(), font.read_text(), "office"),
        "deep": (nested[DEEPEST - 1], nested[DEEPEST - 1], "office"),
        "too deep": ("{}", nested[DEEPEST], "office"),
        "deep calls": ("{}", json.dumps(called.font), called.text),
    }
    by_file = ["OK"] * 3
    read, refused = ["OK"] * 3 + by_file + ["OK"] * 4, ["OK", "J1 NotJson", "J1 NotJson", *by_file, *["NoFont"] * 4]
    wrong, most = 0, [0, 0]
    for name, texts in files.items():
        paths = [tested.work / f"stack.{at}" for at in range(len(texts))]
        for path, text in zip(paths, texts, strict=True):
            write_over(path, text)
        statuses, *taken = drivers.stack_taken(tested.work, tested.library, [*paths, file])
        most = [max(pair) for pair in zip(most, taken, strict=True)]
        if statuses != (refused if name == "too deep" else read):
            print(f"stack: {name}: {', '.join(statuses)}")
            wrong += 1
    tell("stack", f"at most {most[0]:,} bytes where tables or a font are read, {most[1]:,} elsewhere")
    return wrong


def tell_times(tested: Tested, tables: Path, all_scripts: list[Script], document: Path | None) -> int:
    """Tells what words take beside HarfBuzz's, and writes the table into a document; how many cost too much."""
    rows = measure(tested, tables, all_scripts)
    for row in rows:
        tell("time", row.line())
    if document is not None:
        replace_part(document, BEGIN, END, table(rows, tested.library.is_proved))
    return sum(row.is_slow for row in rows)


def tell(what: str, how: str) -> None:
    print(f"{NAME}: {time.strftime('%H:%M:%S')} {what}: {how}", flush=True)
    sys.stdout.flush()
