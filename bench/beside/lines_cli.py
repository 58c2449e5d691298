"""The command line of lines: what a line takes by the program and by tools/shape beside hb-shape, and by several.

The time of one line, in which tables and font are read, is taken from each, so what is left is that of the other lines.
"""

import filecmp
import resource
import shlex
import shutil
import subprocess
import tempfile
import time
from itertools import islice
from pathlib import Path
from typing import Callable, Iterator

from beside.pages import WORDS, read_words
from beside.programs import used_by
from building.places import BUILD, PROGRAM, standing
from common.faults import FILES, ToolFault
from common.files import faults_of, write_over
from common.parsing import Words
from shaping.cache import TOOLS, cache_folder
from shaping.converting import font_value, tables_file

# The seconds of a clock, and beside it those of the processors.
Times = tuple[float, ...]

NAME = "lines"
ABOUT = """Processor time of lines by hb_shape --lines and by tools/shape --text-file beside hb-shape, and the time of
many lines by one process and by several, which parallel --pipe (Debian's parallel) hands them to."""
FONT = "/usr/share/fonts/truetype/dejavu/DejaVuSans.ttf"
WORD, SHOWN = "office", 1000
THEIRS, FARM = "hb-shape", "parallel"
JOBS = (1, 2, 4)
# More bytes than a line of the text has.
LONGEST = 64
# The tool looks for the program itself.
SHAPE = TOOLS / "shape"


def main(words: list[str]) -> int:
    """Prints both tables; its status is 1 where several processes print other lines than one."""
    parser = Words(prog=NAME, description=ABOUT)
    parser.add_argument("--words", type=int, default=100_000, metavar="N", help="lines of one word beside hb-shape")
    parser.add_argument("--lines", type=int, default=1_000_000, metavar="N", help="lines of several processes")
    parser.add_argument("--runs", type=int, default=5, metavar="N", help="runs of which the least time counts")
    options = parser.parse_args(words)
    for tool in (THEIRS, FARM):
        if shutil.which(tool) is None:
            raise ToolFault(FILES, f"{tool} is missing")
    program = standing(PROGRAM).file
    if not program.is_file():
        raise ToolFault(FILES, f"no program is built: {BUILD}")
    with tempfile.TemporaryDirectory() as name, cache_folder() as folder:
        files = tables_file(folder), font_value(folder, Path(FONT), 0)
        read = [str(program), "--lines", "--keep-going", *map(str, files)]
        print(beside(read, Path(name), options.words, options.runs))
        rows, is_same = farmed([*read, "-"], Path(name), options.lines, options.runs)
        print(rows)
    return 0 if is_same else 1


def beside(read: list[str], folder: Path, count: int, runs: int) -> str:
    """The processor time of lines of one word, by hb-shape, the program and the tool."""
    one, many = folder / "one", folder / "many"
    write_over(one, f"{WORD}\n")
    write_over(many, f"{WORD}\n" * (count + 1))
    of: dict[str, Callable[[Path], list[str]]] = {
        THEIRS: lambda text: [THEIRS, "--shapers=ot", "--utf8-clusters", f"--text-file={text}", FONT],
        "hb_shape": lambda text: [*read, str(text)],
        "tools/shape": lambda text: [str(SHAPE), FONT, f"--text-file={text}"],
    }
    taken = {name: past(lambda text: (used_by(words(text)).seconds,), one, many, runs) for name, words in of.items()}
    each = {name: seconds / count * SHOWN * 1e3 for name, (seconds,) in taken.items()}
    figures = ", ".join(f"{name} {taken:.2f} ms ({taken / each[THEIRS]:.2f})" for name, taken in each.items())
    return f"{SHOWN:,} lines of {WORD}, of {count:,}: {figures}"


def past(measure: Callable[[Path], Times], one: Path, many: Path, runs: int) -> Times:
    """What many lines take more than one; runs of both take turns, and of each the least of each time counts."""
    pairs = [(measure(one), measure(many)) for _ in range(runs)]
    of_one, of_many = ([min(column) for column in zip(*times)] for times in zip(*pairs))
    return tuple(late - early for early, late in zip(of_one, of_many))


def farmed(words: list[str], folder: Path, count: int, runs: int) -> tuple[str, bool]:
    """The time of lines by so many processes, past that of a line for each of them, and its part of linear; whether all
    printed the lines of one process, in their order."""
    text, plain = folder / "text", folder / "plain"
    write_lines(text, count)
    print_plain(words, text, plain)
    taken: dict[int, Times] = {}
    for jobs in JOBS:
        few, out = folder / f"few{jobs}", folder / f"out{jobs}"
        write_over(few, f"{WORD}\n" * jobs)
        # A block ends with a line, so the last one may be shorter than the others.
        blocks = {few: len(f"{WORD}\n"), text: text.stat().st_size // jobs + LONGEST}
        taken[jobs] = past(lambda given: timed(words, given, out, jobs, blocks[given]), few, text, runs)
        if not filecmp.cmp(plain, out, shallow=False):
            return f"{count:,} lines: {jobs} processes print other lines than one", False
    first, _ = taken[1]
    figures = ", ".join(
        f"by {jobs} {seconds:.2f} s ({first / seconds / jobs:.2f} of linear; {used:.2f} s of processors)"
        for jobs, (seconds, used) in taken.items()
    )
    return f"{count:,} lines: {figures}", True


def write_lines(file: Path, count: int) -> None:
    """Lines of a word each, in an order that looks like chance."""
    words = read_words(WORDS / "latin.txt")
    with faults_of(file), open(file, "w", encoding="utf-8") as out:
        out.writelines(f"{words[at]}\n" for at in islice(chances(len(words)), count))


def print_plain(words: list[str], text: Path, out: Path) -> None:
    """The lines by one process."""
    with open(text, "rb") as given, open(out, "wb") as printed:
        subprocess.run(words, stdin=given, stdout=printed, check=True)


def timed(words: list[str], text: Path, out: Path, jobs: int, block: int) -> Times:
    """The seconds in which so many processes print the lines, each those of one block of so many bytes; and those of
    all processors."""
    farm = [FARM, "--pipe", "--keep-order", f"--jobs={jobs}", f"--block={block}", shlex.join(words)]
    before, begun = processors(), time.monotonic()
    with open(text, "rb") as given, open(out, "wb") as printed:
        subprocess.run(farm, stdin=given, stdout=printed, stderr=subprocess.DEVNULL, check=True)
    return time.monotonic() - begun, processors() - before


def processors() -> float:
    """The processor time of the processes that ended."""
    used = resource.getrusage(resource.RUSAGE_CHILDREN)
    return used.ru_utime + used.ru_stime


def chances(below: int) -> Iterator[int]:
    """Numbers below another, by a linear congruence: every Python gives the same ones."""
    state = 1
    while True:
        state = (state * 1103515245 + 12345) % 2**31
        yield (state >> 8) % below
