"""The command line of fuzz."""

import argparse
import multiprocessing
import queue
import tempfile
import time
from itertools import count
from pathlib import Path
from typing import Any, Iterator

from building.places import PROGRAM, standing
from building.ready import ready_trials, usable
from common.faults import FILES as FILES_STATUS
from common.faults import WORDS, ToolFault
from common.files import write_file, write_over
from common.notes import Progress
from common.parsing import Words
from fuzzing import tables
from fuzzing.cases import FILES, GROUP, Case, Cases
from fuzzing.found import Kept, Tally, finding_of, write_case
from fuzzing.in_process import run_in_process
from fuzzing.plants import PLANTS, run_plant
from fuzzing.running import Answer, Limits, Runner, under
from sources.crates import ROOT

NAME = "fuzz"
ABOUT = """Runs the program on random fonts, tables, texts and options, some of them damaged, under limits of time,
memory and stack. Of each kind of answer that is not right (a signal, no end, output before a refusal, a message that
is not documented, a refusal of what follows the format, a shape of what breaks it) the smallest case is kept. The
status is 1 where there is one.

With --laying and --traced vendor and install run instead of the program: in random trees, some of which are laid
against them, and in runs that are ended at a call of the system. Nothing outside may change, nothing be half, and what
was ended has to be completed by a second run. With --fonts font_to_json converts damaged fonts, and what it writes has
to follow the format and is given to the program.

With --in-process many cases run in one process: the program shape_trials reads fonts, settings and texts, shapes each
text in several ways, and tests what the contracts promise of the answers. A line is printed for each case whose answer
breaks a promise; how far it is, and how many cases it takes in a second, is told each minute. With --fonts it reads damaged font
files, each of which has to end as a face or as a fault, and shapes twenty texts in each face. With --plant the program
is compiled with a bug, and cases run until one is wrong."""
EXAMPLES = """examples:
  tools/fuzz --seconds=3600 --jobs=2          for an hour, by two processes
  tools/fuzz --cases=100000 --seed=7          the first 100,000 cases of another seed
  tools/fuzz --seed=7 --case=4711             one of them again: its files and its answer
  tools/fuzz --in-process --cases=1000000     a million cases in one process after another
  tools/fuzz --in-process --seed=7 --case=12  one of them again
  tools/fuzz --in-process --fonts --cases=1000000
                                              a million damaged font files, read by one process
  tools/fuzz --laying --cases=1000            vendor and install in a thousand random trees
  tools/fuzz --plant=merge                    a bug in the sources, and the first case that finds it"""
# So many cases run at once in each process: they wait for the system more than for a processor.
AT_ONCE = 8
# After so many cases a process tells what it found.
TOLD = 256
# A folder in memory, where there is one: each case writes its files.
MEMORY = Path("/dev/shm")


def parser() -> argparse.ArgumentParser:
    words = Words(
        prog=NAME, description=ABOUT, epilog=EXAMPLES, formatter_class=argparse.RawDescriptionHelpFormatter
    )
    words.add_argument("--in-process", action="store_true", help="many cases in one process")
    words.add_argument("--plant", choices=PLANTS, help="a bug that cases in one process have to find")
    words.add_argument("--laying", action="store_true", help="random trees for vendor and install, instead of the program")
    words.add_argument("--traced", action="store_true", help="their runs, ended at calls of the system by strace")
    words.add_argument("--fonts", action="store_true", help="damaged fonts, converted by font_to_json for the program")
    words.add_argument("--refuse", action="store_true", help="with both: fonts without damage, each allocation refused")
    words.add_argument("--texts", type=int, default=20, metavar="N", help="texts in each damaged font that is read (20)")
    words.add_argument("--seconds", type=float, metavar="S", help="stop after S seconds")
    words.add_argument("--cases", type=int, metavar="N", help="stop after N cases (10,000 where nothing is given)")
    words.add_argument("--jobs", type=int, default=1, metavar="N", help="processes side by side (1)")
    words.add_argument("--seed", type=int, default=1, metavar="N", help="which cases are drawn (1)")
    words.add_argument("--first", type=int, default=0, metavar="N", help="the number of the first case (0)")
    words.add_argument("--case", type=int, metavar="N", help="run one case, and write its files to --keep")
    words.add_argument("--program", type=Path, metavar="FILE", help="another program")
    words.add_argument("--against", type=Path, metavar="FILE", help="a program that has to answer the same")
    words.add_argument("--limit", type=float, default=10, metavar="S", help="processor seconds for a run (10)")
    words.add_argument("--memory", type=int, default=1024, metavar="MB", help="memory for a run (1024)")
    words.add_argument("--stack", type=int, default=384, metavar="KB", help="stack for a run (384)")
    words.add_argument("--keep", type=Path, default=ROOT / "out" / "fuzz", metavar="FOLDER", help="where cases are kept")
    return words


def main(given: list[str]) -> int:
    """Runs the cases; its status is 1 where one has an answer that is not right."""
    options = parser().parse_args(given)
    if options.plant is not None:
        return run_plant(options)
    if options.laying or options.traced or (options.fonts and not options.in_process):
        from fuzzing import many

        return (many.run_laying if options.laying else many.run_traced if options.traced else many.run_fonts)(options)
    if options.program is None:
        options.program = ready_trials(NAME) if options.in_process else standing(PROGRAM).file
    for program in filter(None, (options.program, options.against)):
        usable(NAME, program)
    if min(options.jobs, options.stack, options.memory) < 1 or options.first < 0:
        raise ToolFault(WORDS, "--jobs, --stack and --memory are numbers from 1 on, --first from 0 on")
    # Read once here, and not in each process.
    tables.whole_tables()
    tables.rows_by_character()
    tables.machines()
    if options.in_process:
        if options.fonts:
            from fuzzing import font_memory, font_trials  # they need fontTools

            return (font_memory.run_refusals if options.refuse else font_trials.run_font_trials)(options)
        return run_in_process(options)
    return run_case(options) if options.case is not None else run_cases(options)


def limits_of(options: argparse.Namespace) -> Limits:
    return Limits(options.limit, options.memory << 20, options.stack << 10)


# ---- one case, and what a process does


class Work:
    """Draws cases in a folder of its own, runs them and judges their answers."""

    def __init__(self, options: argparse.Namespace, folder: Path) -> None:
        self.folder = folder
        self.cases = Cases(options.seed, folder)
        programs = filter(None, (options.program, options.against))
        self.runners = [Runner(program, folder, limits_of(options)) for program in programs]
        self.written: dict[str, bytes] = {}

    def judged(self, numbers: range) -> list[tuple[Case, Answer, str | None]]:
        """Cases of one group, which run at once, with their answers and the kind of what is wrong with each."""
        cases = [self.cases.case(number) for number in numbers]
        words = [[*case.options, *self.files(case, slot)] for slot, case in enumerate(cases)]
        by_program = []
        for runner in self.runners:
            started = [runner.start(each, slot) for slot, each in enumerate(words)]
            by_program.append([runner.end(each) for each in started])
        return [(case, answers[0], self.finding(case, *answers)) for case, *answers in zip(cases, *by_program)]

    def finding(self, case: Case, answer: Answer, other: Answer | None = None) -> str | None:
        """What is wrong with an answer, or with that of the other program."""
        found = finding_of(case, answer)
        if found is None and other is not None:
            is_same = (answer.status, answer.out, answer.err) == (other.status, other.out, other.err)
            return None if is_same else "another answer of another program"
        return found

    def files(self, case: Case, slot: int) -> list[str]:
        """Writes the files of a case, but for those of its group that stand there already."""
        group = self.cases.group(case.number // GROUP)
        shared = (group.tables.bytes, group.font.bytes)
        names = []
        for name, content in zip(FILES, case.files):
            path = str(self.folder / (name if any(content is each for each in shared) else f"{slot}-{name}"))
            if self.written.get(path) is not content:
                write_over(path, content)
                self.written[path] = content
            names.append(path)
        if case.missing is not None:
            names[case.missing] += ".missing"
        return names


def run_case(options: argparse.Namespace) -> int:
    """Runs one case, and writes it as a finding is kept."""
    status = []

    def run() -> None:
        with work_folder() as folder:
            work = Work(options, Path(folder))
            case, answer, finding = work.judged(range(options.case, options.case + 1))[0]
        write_case(options.keep / f"case-{case.number}", finding or "no finding", options.seed, case, answer)
        print(f"{answer.name()} in {answer.seconds:.3f} s; {finding or 'no finding'}: {options.keep}/case-{case.number}")
        status.append(0 if finding is None else 1)

    under(limits_of(options), run)
    return status[0]


def work_folder() -> "tempfile.TemporaryDirectory[str]":
    return tempfile.TemporaryDirectory(prefix="fuzz-", dir=MEMORY if MEMORY.is_dir() else None)


# ---- many cases, by several processes


def worker(options: argparse.Namespace, number: int, stop: float, found: Any) -> None:
    """Runs every group of cases whose turn it is, and tells what it found from time to time."""

    def work() -> None:
        with work_folder() as folder:
            run_groups(options, number, stop, found, Work(options, Path(folder)))

    try:
        under(limits_of(options), work)
    except KeyboardInterrupt:
        return
    except BaseException as error:  # pylint: disable=broad-exception-caught
        found.put(("failed", f"{type(error).__name__}: {error}"))
    found.put(("ended", number))


def run_groups(options: argparse.Namespace, number: int, stop: float, found: Any, work: Work) -> None:
    """Runs the groups of a process, some cases at once."""
    tally, sizes = Tally(), {}
    for numbers in batches(options, number):
        for case, answer, finding in work.judged(numbers):
            tally.count(case, answer, finding)
            if finding is not None and case.size() < sizes.get(finding, case.size() + 1):
                sizes[finding] = case.size()
                found.put(("found", (finding, case, answer)))
        if tally.answers.total() >= TOLD:
            found.put(("tally", tally))
            tally = Tally()
        if time.monotonic() >= stop:
            break
    found.put(("tally", tally))


def batches(options: argparse.Namespace, number: int) -> Iterator[range]:
    """The numbers of the cases of a process, those of one group that run at once together."""
    last = options.first + options.cases if options.cases is not None else None
    for group in count(options.first // GROUP):
        if last is not None and group * GROUP >= last:
            return
        if group % options.jobs == number:
            start, end = max(options.first, group * GROUP), (group + 1) * GROUP
            end = end if last is None else min(last, end)
            for at in range(start, end, AT_ONCE):
                yield range(at, min(end, at + AT_ONCE))


def run_cases(options: argparse.Namespace) -> int:
    """Runs cases until their number or the time is reached, and tells what came of them."""
    if options.cases is None and options.seconds is None:
        options.cases = 10_000
    start = time.monotonic()
    stop = start + options.seconds if options.seconds is not None else float("inf")
    found: Any = multiprocessing.Queue()
    workers = [
        multiprocessing.Process(target=worker, args=(options, number, stop, found)) for number in range(options.jobs)
    ]
    for each in workers:
        each.start()
    tally = gathered(options, workers, found, start)
    print("\n".join(told_lines(options, tally, time.monotonic() - start)), flush=True)
    return 1 if tally.findings else 0


def gathered(options: argparse.Namespace, workers: list[Any], found: Any, start: float) -> Tally:
    """What all processes found, kept as it comes."""
    tally, kept, running = Tally(), Kept(options.keep), len(workers)
    progress = Progress(NAME)
    try:
        while running:
            try:
                kind, value = found.get(timeout=5)
            except queue.Empty:
                running = sum(each.is_alive() for each in workers)
                continue
            if kind == "tally":
                tally.add(value)
                write_tally(options, tally, time.monotonic() - start)
                progress.step(f"{tally.findings.total()} findings, cases", tally.answers.total(), options.cases or 0)
            elif kind == "found":
                kept.keep(value[0], options.seed, value[1], value[2])
            elif kind == "failed":
                raise ToolFault(FILES_STATUS, f"a process failed after {time.monotonic() - start:.0f} s: {value}")
            else:
                running -= 1
    except KeyboardInterrupt:
        # What was found so far is told.
        pass
    finally:
        for each in workers:
            each.terminate()
            each.join()
        progress.end()
    return tally


def write_tally(options: argparse.Namespace, tally: Tally, seconds: float) -> None:
    """What is told at the end, as it stands now, beside the cases that are kept."""
    options.keep.mkdir(parents=True, exist_ok=True)
    text = "\n".join(told_lines(options, tally, seconds)) + "\n"
    write_file(options.keep / f"seed-{options.seed}.txt", text)


def told_lines(options: argparse.Namespace, tally: Tally, seconds: float) -> Iterator[str]:
    """The counts of answers and findings, and the case of the longest and of the largest run."""
    total = tally.answers.total()
    yield f"seed {options.seed}: {total:,} cases in {seconds:.0f} s, {total / max(seconds, 0.001):.0f} a second"
    for name, times in tally.answers.most_common():
        yield f"{times:10,}  {name}"
    yield f"longest: {tally.longest[0]:.3f} s, case {tally.longest[1]}"
    yield f"largest: {tally.largest[0] >> 20} MB, case {tally.largest[1]}"
    for kind, times in tally.findings.most_common():
        yield f"finding: {kind}: {times:,} times; the smallest is in {options.keep}"
