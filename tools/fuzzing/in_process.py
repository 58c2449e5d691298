"""Many cases in one process: the program shape_trials over streams, a block of cases at a time."""

import argparse
import functools
import multiprocessing
import resource
import signal
import subprocess
import time
from dataclasses import dataclass
from pathlib import Path
from typing import Iterator

from common.files import write_file
from common.printing import emit, tell
from fuzzing.cases import FILES as NAMES
from fuzzing.running import CLOCK
from fuzzing.streams import CASES, FONTS, Block, TrialCase, case_of

NAME = "fuzz"
# The program is stopped where it takes so many seconds of processor time for a block, which takes it less than one.
PATIENCE = 300
# How far it is is told after so many seconds.
TOLD = 60
STOPPED = "no end"


def run_in_process(options: argparse.Namespace) -> int:
    """Runs one case or many; the status is 1 where an answer is wrong."""
    return run_one(options) if options.case is not None else run_many(options)


@dataclass(frozen=True)
class Ran:
    """How a run of the program ended: None, or the words for it; and what it printed."""

    ending: str | None
    lines: list[str]


def confine() -> None:
    """Limits the processor time of the process that is to be the program: on a clock it may take long beside others."""
    resource.setrlimit(resource.RLIMIT_CPU, (PATIENCE, PATIENCE + 1))
    resource.setrlimit(resource.RLIMIT_CORE, (0, 0))


def run_stream(program: Path, stream: bytes) -> Ran:
    """Runs the program over a stream."""
    try:
        ran = subprocess.run(
            [program], input=stream, capture_output=True, timeout=CLOCK * PATIENCE, check=False, preexec_fn=confine
        )
    except subprocess.TimeoutExpired:
        return Ran(STOPPED, [])
    if ran.returncode == -signal.SIGXCPU:
        return Ran(STOPPED, [])
    lines = ran.stdout.decode().splitlines()
    if lines and lines[-1].endswith(" wrong"):
        return Ran(None, lines)
    err = ran.stderr.decode(errors="replace").strip()
    return Ran(f"signal {-ran.returncode}" if ran.returncode < 0 else f"status {ran.returncode} {err}".strip(), lines)


# ---- one case


def run_one(options: argparse.Namespace) -> int:
    """Runs a case by itself, and writes its files."""
    case = case_of(options.seed, options.case)
    folder = write_files(case, options.keep / f"trial-{case.number}")
    promise = promise_broken_by(options.program, case)
    print(line_of(options.seed, case, promise) if promise else f"case {case.number}: nothing is wrong")
    words = " ".join(case.words)
    print(f"tools/hb_shape {words} {' '.join(str(folder / name) for name in NAMES)}")
    return 1 if promise else 0


def write_files(case: TrialCase, folder: Path) -> Path:
    """Writes the files of a case for hb_shape."""
    folder.mkdir(parents=True, exist_ok=True)
    for name, content in zip(NAMES, (case.tables, case.face, case.text.encode())):
        write_file(folder / name, content)
    return folder


def promise_broken_by(program: Path, case: TrialCase) -> str | None:
    """The promise that the answer to a case breaks, or how the program ended."""
    ran = run_stream(program, case.stream())
    wrong = list(wrong_cases(ran.lines))
    return wrong[0][1] if wrong else ran.ending


def wrong_cases(lines: list[str]) -> Iterator[tuple[int, str]]:
    """The numbers of the wrong cases in the stream, with the promises that they break."""
    for line in lines:
        if line.startswith("wrong "):
            _, number, promise = line.split()
            yield int(number), promise


def line_of(seed: int, case: TrialCase, promise: str) -> str:
    """The line of a wrong answer."""
    text = " ".join(f"U+{ord(each):04X}" for each in case.text) or "empty"
    words = " ".join(case.words) or "none"
    return (
        f"wrong: {promise}: seed {seed}, font {case.font}, text {text}, options {words}: "
        f"tools/fuzz --in-process --seed={seed} --case={case.number}"
    )


# ---- many cases


@dataclass(frozen=True)
class BlockRan:
    """What came of a block: how many of its cases were tested, how many breaks were tried, how many of them
    are unsure, and what to print of the wrong ones."""

    tested: int
    breaks: int
    unsure: int
    wrong: list[str]


def run_block(program: Path, seed: int, number: int) -> BlockRan:
    """Tests the cases of a block."""
    block = Block(seed, number)
    ran = run_stream(program, block.stream())
    if ran.ending is not None:
        return ended_block(program, seed, block, ran.ending)
    wrong = [line_of(seed, block.case(at), promise) for at, promise in wrong_cases(ran.lines)]
    counts = ran.lines[-1].split()
    return BlockRan(int(counts[2]), int(counts[4]), int(counts[6]), wrong)


def ended_block(program: Path, seed: int, block: Block, ending: str) -> BlockRan:
    """Finds the first case of a block at which the program ends."""
    for at in range(CASES):
        case = block.case(at)
        found = run_stream(program, case.stream()).ending
        if found is not None:
            return BlockRan(at, 0, 0, [line_of(seed, case, found)])
    return BlockRan(0, 0, 0, [f"wrong: {ending}: seed {seed}, cases from {block.number * CASES} on, and none of them alone"])


def run_many(options: argparse.Namespace) -> int:
    """Runs whole blocks up to a number of cases, and tells what came of them."""
    wanted = options.cases if options.cases is not None else 10_000
    first = options.first // CASES
    numbers = range(first, first + -(-wanted // CASES))
    start = told = time.monotonic()
    blocks = tested = breaks = unsure = wrong = 0
    work = functools.partial(run_block, options.program, options.seed)
    with multiprocessing.Pool(options.jobs, signal.signal, (signal.SIGINT, signal.SIG_IGN)) as pool:
        try:
            for ran in pool.imap_unordered(work, numbers):
                blocks, tested, wrong = blocks + 1, tested + ran.tested, wrong + len(ran.wrong)
                breaks, unsure = breaks + ran.breaks, unsure + ran.unsure
                emit("".join(f"{line}\n" for line in ran.wrong))
                if time.monotonic() >= told + TOLD:
                    told = time.monotonic()
                    tell(NAME, summary(options.seed, blocks, (tested, breaks, unsure, wrong), told - start))
        except KeyboardInterrupt:
            # What was found so far is told.
            pass
    emit(summary(options.seed, blocks, (tested, breaks, unsure, wrong), time.monotonic() - start) + "\n")
    return 1 if wrong else 0


def summary(seed: int, blocks: int, counts: tuple[int, int, int, int], seconds: float) -> str:
    tested, breaks, unsure, wrong = counts
    rate = tested / max(seconds, 0.001)
    passed = blocks * CASES - tested
    over = f", {passed:,} passed over" if passed else ""
    return f"seed {seed}: {tested:,} cases in {blocks * FONTS:,} fonts, {breaks:,} breaks ({unsure:,} unsure), {rate:.0f} a second: {wrong:,} wrong{over}"
