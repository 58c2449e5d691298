"""Many cases of a kind, each by itself in a folder of its own, by several processes: trees, runs that are ended, fonts."""

import argparse
import tempfile
import time
from collections import Counter
from concurrent.futures import ProcessPoolExecutor
from functools import partial
from pathlib import Path
from typing import Any, Callable, Sequence

from building.places import PROGRAM, standing
from building.ready import usable
from common.faults import FILES, ToolFault
from common.notes import Progress
from common.printing import emit
from fontjson.program import reader
from fuzzing import converted, laying, traced

NAME = "fuzz"
# A folder in memory, where there is one.
MEMORY = Path("/dev/shm")
USUAL = 1000

# How a case ended, and what is wrong with it.
Found = tuple[str, list[str]]
Try = Callable[[Any, Path], Found]


def work_folder() -> "tempfile.TemporaryDirectory[str]":
    return tempfile.TemporaryDirectory(prefix="fuzz-", dir=MEMORY if MEMORY.is_dir() else None)


def run_laying(options: argparse.Namespace) -> int:
    """vendor and install in random trees."""
    return run_all(options, numbers(options), partial(laying.try_case, options.seed))


def run_traced(options: argparse.Namespace) -> int:
    """vendor and install, each run ended at a call of the system."""
    if not traced.has_strace():
        raise ToolFault(FILES, "apt-get install strace: no call is ended without it")
    with work_folder() as folder:
        points = traced.chosen(Path(folder), options.cases or USUAL, options.seed)
    return run_all(options, points, traced.try_point)


def run_fonts(options: argparse.Namespace) -> int:
    """font_to_json on damaged fonts, and hb_shape on what it writes."""
    program = usable(NAME, options.program or standing(PROGRAM).file)
    # Before there are processes, each of which would look for them.
    converted.small_fonts()
    reader()
    return run_all(options, numbers(options), partial(converted.try_font, program, options.seed))


def numbers(options: argparse.Namespace) -> Sequence[int]:
    if options.case is not None:
        return [options.case]
    return range(options.first, options.first + (options.cases or USUAL))


def run_all(options: argparse.Namespace, names: Sequence[Any], work: Try) -> int:
    """Tries all, and prints what is wrong with each and how many ended how; the status is 1 where something is wrong."""
    begun, wrong, progress = time.monotonic(), 0, Progress(NAME)
    ends: Counter[str] = Counter()
    with ProcessPoolExecutor(options.jobs) as pool:
        for name, (end, found) in zip(names, pool.map(partial(try_in_folder, work), names, chunksize=4)):
            ends[end] += 1
            wrong += bool(found)
            emit("".join(f"{name}: {each}\n" for each in found))
            progress.step(f"{wrong} findings, cases", ends.total(), len(names))
    progress.end()
    told = ", ".join(f"{times:,} {end}" for end, times in ends.most_common())
    emit(f"seed {options.seed}: {len(names):,} cases in {time.monotonic() - begun:.0f} s ({told}), {wrong} with something wrong\n")
    return 1 if wrong else 0


def try_in_folder(work: Try, case: Any) -> Found:
    with work_folder() as folder:
        return work(case, Path(folder))
