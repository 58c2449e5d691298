"""The tests of a crate as they were built, with their allocations refused."""

import os
import re
import signal
import subprocess
import tempfile
from collections import Counter
from concurrent.futures import ThreadPoolExecutor
from dataclasses import dataclass
from pathlib import Path
from typing import Iterable, Iterator

from common.faults import DATA, ToolFault
from refusing.forks import Forks

PASSED, WANT = "as with all memory", "want of memory"
# A test's line in the list that its program prints.
LISTED = re.compile(r"^(\S+): test$", re.MULTILINE)
NAMED = re.compile(r"error: (?:AllocError|AllocFailed|\w*\(*OutOfMemory|Error\(out of memory\))")
# The gate gives a test so long.
SECONDS = 60
# A test with all its refusals may take so many seconds of processor time. One that would take longer is sampled: its
# first and its last allocations are refused, and of the others as many as come to pass in the time, over all the test.
BUDGET, EDGE = 60, 20


@dataclass(frozen=True)
class End:
    """How a test ended that was refused an allocation, alone or with all that follow it."""

    number: int
    is_alone: bool
    answer: str

    def shown(self) -> str:
        return f"with allocation {self.number}{'' if self.is_alone else ' and all after it'} refused: {self.answer}"


@dataclass(frozen=True)
class Ends:
    """How often a test asks for memory, and how it ended with one and another of its allocations refused."""

    test: str
    allocations: int
    ends: tuple[End, ...]

    @property
    def refused(self) -> int:
        """How many of the allocations were refused."""
        return sum(end.is_alone for end in self.ends)

    def wrong(self) -> list[End]:
        """The ends that are neither want of memory nor the right one."""
        return [end for end in self.ends if end.answer not in (PASSED, WANT)]

    def told(self, crate: str) -> Iterator[str]:
        """The first wrong end, and whether a sample was taken."""
        for end in self.wrong()[:1]:
            yield f"{crate} {self.test}: {len(self.wrong())} of {len(self.ends)} otherwise, {end.shown()}"
        if self.refused < self.allocations:
            yield f"{crate} {self.test}: a sample, {self.refused:,} of {self.allocations:,} allocations"


class Refusing:
    """Runs tests under the functions that refuse memory."""

    def __init__(self, folder: Path, budget: int = BUDGET, at_once: int | None = None) -> None:
        self.folder = folder
        self.budget = budget
        self.at_once = at_once or os.cpu_count() or 1
        self.forks = Forks(folder)

    def all_ends(self, tests: Iterable[tuple[Path, str]]) -> Iterator[Ends]:
        """How tests of programs end, in their order; they run side by side."""
        with ThreadPoolExecutor(self.at_once) as pool:
            yield from pool.map(lambda test: self.ends(*test), tests)

    def ends(self, program: Path, test: str) -> Ends:
        """How a test of a program ends."""
        _, allocations = self.report(program, test)
        lines, again = self.report(program, test, last=allocations, edge=EDGE, budget=self.budget)
        ends = tuple(map(end_of, lines))
        alone, with_all = ([end.number for end in ends if end.is_alone is is_alone] for is_alone in (True, False))
        numbers = range(1, allocations + 1)
        if again != allocations or alone != with_all or not {*numbers[:EDGE], *numbers[-EDGE:]}.issubset(alone):
            raise ToolFault(DATA, f"{program.name} {test} did not ask for memory as often as before")
        return Ends(test, allocations, ends)

    def report(self, program: Path, test: str, **settings: int) -> tuple[list[str], int]:
        """The lines of the children of a run, which has all its memory, and how many allocations there were."""
        with tempfile.NamedTemporaryFile(dir=self.folder, mode="r", encoding="ascii") as report:
            ran = subprocess.run(
                [program, test],
                stdin=subprocess.DEVNULL,
                stdout=subprocess.DEVNULL,
                stderr=subprocess.PIPE,
                env=self.forks.environment(Path(report.name), SECONDS, **settings),
                check=False,
                encoding="utf-8",
                errors="replace",
            )
            answer = answer_of(ran.returncode, ran.stderr)
            if answer != PASSED:
                raise ToolFault(DATA, f"{program.name} {test} fails with all memory: {answer}")
            *lines, last = report.read().splitlines()
        return lines, int(last)


def end_of(line: str) -> End:
    """The end that a line of a report has."""
    number, is_all, status, told = line.split(" ", 3)
    return End(int(number), is_all == "0", answer_of(os.waitstatus_to_exitcode(int(status)), told))


def answer_of(status: int, told: str) -> str:
    """How a run of a test ended, by its status and what it told."""
    if status == 0:
        return PASSED
    if status == -signal.SIGXCPU:
        return "no end"
    ended = f"signal {-status}" if status < 0 else f"status {status}"
    lines = told.strip().splitlines()
    return WANT if status > 0 and NAMED.match(told) else f"{ended}: {lines[0] if lines else 'no message'}"


def programs_in(folder: Path) -> dict[str, Path]:
    """The tests' programs in a folder, or in the folders `out` of crates there, by the names of the crates."""
    found = sorted([*folder.glob("*_tests"), *folder.glob("*/out/*_tests")])
    return {path.name.removesuffix("_tests"): path for path in found}


def tests_of(program: Path) -> list[str]:
    """The names of a program's tests."""
    ran = subprocess.run([program, "--list"], capture_output=True, text=True, check=False, timeout=SECONDS)
    names = LISTED.findall(ran.stdout)
    if f"tests: {len(names)}\n" not in ran.stdout:
        raise ToolFault(DATA, f"{program} did not list its tests")
    return names


def shown(all_ends: list[Ends]) -> str:
    """How many tests there are, how many of their allocations were refused, and how often they ended how."""
    answers = Counter(end.answer for ends in all_ends for end in ends.ends)
    counts = {kind: answers.pop(kind, 0) for kind in (WANT, PASSED)} | {"otherwise": answers.total()}
    told = ", ".join(f"{times:,} {kind}" for kind, times in counts.items() if times)
    refused, allocations = (sum(getattr(ends, kind) for ends in all_ends) for kind in ("refused", "allocations"))
    return f"{len(all_ends)} tests, {refused:,} of {allocations:,} allocations refused: {told or 'no end'}"
