"""Runs of vendor and install that are ended at each of their calls of the system, by strace's fault injection."""

import re
import shutil
import subprocess
from collections import Counter
from dataclasses import dataclass
from pathlib import Path
from random import Random
from typing import Iterator

from common.faults import DATA, FILES, INTERRUPTED, ToolFault
from fuzzing.laying import (
    DONE,
    ENDED,
    FAILED,
    INSTALL,
    REFUSED,
    UNINSTALL,
    VENDOR,
    Breaking,
    Step,
    copied,
    ended_case,
    make_world,
    run_step,
    tried,
)
from sources.crates import ROOT

STRACE = "strace"
# A run in a process of its own; between the two names stand the calls of the tool itself.
BEGIN, END = "/kuspveli-begins", "/kuspveli-ends"
CODE = f"""
import sys
sys.path.insert(0, sys.argv.pop(1))
import common.start
import os
from pathlib import Path
from building.progress import end_by_exit
from common.faults import run_tool
from fuzzing.laying import INSTALL, TO, VENDOR, ENTRIES
from installing import cli as install, placing
from vendoring import cli as vendor

def main(words):
    folder, kind, version = Path(words[0]), words[1], words[2]
    end_by_exit()
    os.path.exists("{BEGIN}")
    if kind == VENDOR:
        vendor.ROOT = folder / version
        vendor.main([str(folder / TO)])
    elif kind == INSTALL:
        install.put_entries(folder / TO, ENTRIES[version])
    else:
        placing.remove_all(folder / TO)
    os.path.exists("{END}")
    return 0

run_tool("traced", main)
"""
CALL = re.compile(r"(?:\[pid +\d+\] )?(\w+)\(")
# Each is a step after others.
STEPS = (
    (Step(INSTALL, "old"),),
    (Step(INSTALL, "old"), Step(INSTALL, "new")),
    (Step(INSTALL, "new"), Step(UNINSTALL)),
    (Step(VENDOR, "old"),),
    (Step(VENDOR, "old"), Step(VENDOR, "new")),
)
# A signal that is sent as a call begins, or the fault that it ends with.
KILLED = "signal=SIGKILL"
ENDINGS = (KILLED, "signal=SIGINT", "signal=SIGTERM", "error=ENOSPC", "error=EIO")
# Calls that these faults are none of, or by which nothing but the run's own end is changed.
NO_FAULTS = ("close", "exit_group", "newfstatat", "fstat", "lseek", "fcntl", "ioctl", "read")
STATUSES = {KILLED: (-9, 128 + 9), "signal=SIGINT": (INTERRUPTED,), "signal=SIGTERM": (128 + 15,)}


@dataclass(frozen=True)
class Point:
    """A call by its name, and which one of the process it is, from 1 on."""

    call: str
    number: int


def has_strace() -> bool:
    """Whether calls can be ended here: strace is there, and may trace."""
    if shutil.which(STRACE) is None:
        return False
    return subprocess.run([STRACE, "-qq", "-o", "/dev/null", "true"], capture_output=True, check=False).returncode == 0


def words_of(step: Step, folder: Path) -> list[str | Path]:
    return ["/usr/bin/python3", "-c", CODE, ROOT / "tools", folder, step.kind, step.version]


def points(step: Step, folder: Path) -> list[Point]:
    """The calls of a step on files, by a run of it."""
    log = folder / "log"
    words: list[str | Path] = [STRACE, "-o", log, "-e", "trace=%file,%desc", *words_of(step, folder)]
    ran = subprocess.run(words, capture_output=True, text=True, check=False)
    if ran.returncode:
        raise ToolFault(FILES, f"{step} by strace: status {ran.returncode}: {ran.stderr[-300:]}")
    met: Counter[str] = Counter()
    found: list[Point] = []
    is_own = False
    for line in log.read_text(errors="replace").splitlines():
        if call := CALL.match(line):
            met[call[1]] += 1
            if BEGIN in line or END in line:
                is_own = BEGIN in line
            elif is_own:
                found.append(Point(call[1], met[call[1]]))
    return found


def breaking_at(point: Point, ending: str) -> Breaking:
    """A run in a process of its own that is ended at a call."""

    def run(step: Step, folder: Path) -> str:
        inject = f"inject={point.call}:{ending}:when={point.number}"
        words = [STRACE, "-qq", "--seccomp-bpf", "-f", "-o", "/dev/null", "-e", f"trace={point.call}", "-e", inject]
        ran = subprocess.run([*words, *words_of(step, folder)], capture_output=True, text=True, check=False)
        return how_ended(ran, ending)

    return Breaking(f"{ending} at {point.call} {point.number}", ending == KILLED, run)


def how_ended(ran: subprocess.CompletedProcess[str], ending: str) -> str:
    """How a process ended; what is none of the right ends in words."""
    said = ran.stderr.splitlines()
    if ran.returncode in STATUSES.get(ending, ()):
        return ENDED if not said else f"{ending}, and it said {said[0]}"
    if ran.returncode == 0 and not said:
        return DONE
    if ran.returncode in (DATA, FILES) and len(said) == 1:
        if ran.returncode == DATA:
            return REFUSED
        is_named = "/" in said[0] or "standard output: " in said[0]
        return FAILED if is_named else f"a fault without a name: {said[0]}"
    return f"status {ran.returncode}: {' '.join(said)[-300:]}"


@dataclass(frozen=True)
class Case:
    """The last of some steps, ended at a call."""

    steps: tuple[Step, ...]
    point: Point
    ending: str


def cases(folder: Path) -> Iterator[Case]:
    """Each call of each step with each ending."""
    for steps in STEPS:
        *before, step = steps
        world = world_of(tuple(before), folder / "world")
        for point in points(step, world):
            for ending in ENDINGS[:3] if point.call in NO_FAULTS else ENDINGS:
                yield Case(steps, point, ending)


def chosen(folder: Path, count: int, seed: int) -> list[Case]:
    """Some of all cases, in an order that looks like chance."""
    found = list(cases(folder))
    Random(seed).shuffle(found)
    return found[:count]


def world_of(before: tuple[Step, ...], folder: Path) -> Path:
    shutil.rmtree(folder, ignore_errors=True)
    make_world(folder)
    for step in before:
        run_step(step, folder)
    return folder


def try_point(case: Case, folder: Path) -> tuple[str, list[str]]:
    """What a run is ended by, and what is wrong with it and with those after it."""
    *before, step = case.steps
    first = world_of(tuple(before), folder / "first")
    other = copied(first, folder / "other")
    ended, wrong = tried(step, first)
    return case.ending, [*wrong, *ended_case(step, first, other, ended, breaking_at(case.point, case.ending))]
