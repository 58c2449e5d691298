"""A run of rt's gate, rt ci, over the tree."""

import os
import re
import subprocess
import threading
import time
from dataclasses import dataclass, field
from pathlib import Path
from typing import TextIO

from building.estimate import Check, Work, in_words, work_of
from building.kit import keeps_proofs
from building.processes import running_checks
from building.progress import Teller, clock
from common.files import faults_of

# What the gate prints of a crate begins with its name, and ends with how it ended.
SECTION = "== "
PASSED = re.compile(r"rt: (\w+)(: its tests are)? (?:(proved)$|is (kept): )")
FAILED = re.compile(r"rt: (\w+)(?:: its tests are)? NOT PROVED")
# Of what else it prints a user is told: full disks, what is not kept, and waiting for another run.
TOLD = re.compile(r"rt: (note: .*|.*; waiting for it)$")
KILLED = "was killed"
TAIL = 30
# Where there is no terminal, a line tells at least so often how far it is, in seconds.
SILENT = 60


@dataclass(frozen=True)
class Failure:
    """What the gate or a build failed with: a crate, where it names one, what it printed of it, and its status."""

    name: str
    lines: list[str]
    status: int = 1

    def was_killed(self) -> bool:
        return any(KILLED in line for line in self.lines)

    def tail(self) -> str:
        return "".join(self.lines[-TAIL:]).rstrip("\n")


def run_gate(root: Path, tree: Path, log: Path, held: int, jobs: int | None, teller: Teller) -> Failure | None:
    """Proves, builds and runs all crates of the tree; once more with one check at a time where one was killed."""
    gate = Gate(root, tree, log, held, teller)
    teller.line(
        f"{len(gate.work.needs)} crates to prove, {in_words(gate.left(jobs))} where none is kept from an earlier run"
    )
    if keeps_proofs():
        teller.line("it may be stopped at any time: what passed is kept, and the next run goes on from there")
    failure = gate.run(jobs)
    if failure is not None and failure.was_killed() and jobs != 1:
        teller.line(f"{failure.name} was killed, most likely for memory: once more, one check at a time")
        failure = gate.run(1)
    return failure


@dataclass
class Gate:
    """A run: where, its log, and an open file whose lock is held until rt ends."""

    root: Path
    tree: Path
    log: Path
    held: int
    teller: Teller
    work: Work = field(init=False)
    passed: set[str] = field(default_factory=set)
    begun: dict[Check, float] = field(default_factory=dict)
    told: float = field(default_factory=time.monotonic)
    lock: threading.Lock = field(default_factory=threading.Lock)

    def __post_init__(self) -> None:
        self.work = work_of(self.tree)

    def run(self, jobs: int | None) -> Failure | None:
        """Proves, builds and runs all that is not kept. With the first crate that fails rt is ended."""
        self.passed.clear()
        self.begun.clear()
        self.work.done.clear()
        with open(self.log, "w", encoding="utf-8") as log, self.start(jobs) as ran:
            try:
                with self.teller.ticking(lambda: self.look(ran.pid, jobs)):
                    return self.read(ran, log)
            except (KeyboardInterrupt, SystemExit):
                kept = ", which are kept: the next run goes on from there" if keeps_proofs() else ""
                passed = f"{len(self.passed)} of {len(self.work.needs)} crates passed{kept}"
                self.teller.line(f"stopped after {self.teller.clock()}: {passed}")
                raise
            finally:
                # What rt started ends with it.
                ran.terminate()

    def start(self, jobs: int | None) -> subprocess.Popen[str]:
        return subprocess.Popen(
            ["rt", "ci"],
            cwd=self.tree,
            env={**os.environ, "RT_JOBS": str(jobs)} if jobs else None,
            stdin=subprocess.DEVNULL,
            stdout=subprocess.PIPE,
            stderr=subprocess.STDOUT,
            encoding="utf-8",
            errors="replace",
            start_new_session=True,
            pass_fds=(self.held,),
        )

    def read(self, ran: subprocess.Popen[str], log: TextIO) -> Failure | None:
        """Tells of each crate as it passes, until rt ends or one fails."""
        section: list[str] = []
        for printed in ran.stdout or ():
            # The tree is gone when this is read.
            line = printed.replace(str(self.tree), str(self.root))
            with faults_of(self.log):
                log.write(line)
                log.flush()
            if line.startswith(SECTION):
                section.clear()
            section.append(line)
            if failed := FAILED.match(line):
                return Failure(failed[1], section)
            if passed := PASSED.match(line):
                self.note(Check(passed[1], passed[2] is not None), is_kept=passed[4] is not None)
            elif told := TOLD.match(line):
                self.tell(told[1])
        return Failure("", section) if ran.wait() else None

    def note(self, check: Check, *, is_kept: bool) -> None:
        """Notes a check that passed, and tells of it where it is a crate's own."""
        with self.lock:
            seconds = None if check not in self.begun else time.monotonic() - self.begun.pop(check)
            self.work.done.add(check)
            if is_kept:
                # The gate says nothing of tests that it kept.
                self.work.done.add(Check(check.crate, True))
            elif seconds is not None:
                self.work.took(check, seconds)
        if not check.is_of_tests:
            self.passed.add(check.crate)
            how = "is kept" if is_kept else f"proved in {clock(seconds)}" if seconds is not None else "proved"
            self.tell(f"[{len(self.passed)}/{len(self.work.needs)}] {self.teller.clock()} {check.crate} {how}")

    def look(self, session: int, jobs: int | None) -> None:
        """Notes which checks run now, tells of each crate that begins, and how far all is."""
        now, found = time.monotonic(), running_checks(session)
        with self.lock:
            new = sorted(check for check in found if check not in self.begun and check not in self.work.done)
            self.begun.update(dict.fromkeys(new, now))
            running = {check: now - self.begun[check] for check in sorted(self.begun) if check in found}
        is_terminal = self.teller.out.isatty()
        for check in new:
            if not is_terminal and not check.is_of_tests:
                self.tell(f"{self.teller.clock()} {check} begins")
        if is_terminal:
            self.teller.renew(self.state(running, jobs))
        elif now - self.told > SILENT:
            self.tell(self.state(running, jobs))

    def state(self, running: dict[Check, float], jobs: int | None) -> str:
        """How far all is, in a line."""
        doing = (
            ", ".join(f"{check} {clock(seconds)}" for check, seconds in running.items()) or "files, programs and tests"
        )
        far = f"{len(self.passed)} of {len(self.work.needs)} crates, {self.teller.clock()} so far"
        return f"{far}, {in_words(self.left(jobs, running))} left; now {doing}"

    def left(self, jobs: int | None, running: dict[Check, float] | None = None) -> float:
        return self.work.seconds_left(jobs or len(os.sched_getaffinity(0)), running or {})

    def tell(self, what: str) -> None:
        self.told = time.monotonic()
        self.teller.line(what)
