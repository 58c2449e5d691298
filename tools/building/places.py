"""What is built and where it stands: in out/ what was proved, in out/unproved/ what was compiled without its proofs,
in out/measured/ what was compiled so to be measured alone.

Each has a stamp beside it, which tells of what and by which kit it was built. Nothing that is run stands in
crates/NAME/out, which rt ci clears."""

import contextlib
import fcntl
import hashlib
import json
import os
import sys
from dataclasses import dataclass
from pathlib import Path
from typing import Iterator

from building.tree import LIST, last_change, needed_lines, stamp_of
from common.files import write_file
from sources.crates import ROOT

UNPROVED, MEASURED = "unproved", "measured"
BUILD, BUILD_LIBRARY, FUZZ = "tools/build", "tools/build_library", "tools/fuzz --in-process"
TESTS = "tests"


@dataclass(frozen=True)
class Target:
    """What is built of a crate: files, and the tool that builds them. A program has words with which it comes to its
    files."""

    name: str
    crate: str
    files: tuple[str, ...]
    tool: str
    kind: str = "program"
    words: tuple[str, ...] = ("tables", "font", "text")


PROGRAM = Target("hb_shape", "hb_shape", ("hb_shape",), BUILD)
KUSPVELI = Target("kuspveli", "kuspveli_program", ("kuspveli",), BUILD, words=("font", "text"))
PROGRAMS = (PROGRAM, KUSPVELI)
TRIALS = Target("shape_trials", "shape_trials", ("shape_trials",), FUZZ)
LIBRARY = Target("libkuspveli", "kuspveli_c", ("libkuspveli.a", "libkuspveli.so"), BUILD_LIBRARY, "library")


def tests_target(crate: str) -> Target:
    """The program of a crate's tests, as rt test builds it."""
    name = f"{crate}_tests"
    return Target(name, crate, (name,), "rt test", TESTS)


@dataclass(frozen=True)
class Stamp:
    """Sums of the sources and of each file that was made of them, and the kit's line."""

    sources: str
    kit: str
    made: dict[str, str]


@dataclass(frozen=True)
class Place:
    """Where a target stands, proved or not. One that is to be measured is unproved, and compiled as if it were proved."""

    target: Target
    is_proved: bool = True
    root: Path = ROOT
    is_measured: bool = False

    @property
    def folder(self) -> Path:
        if self.is_proved:
            return self.root / "out"
        return self.root / "out" / (MEASURED if self.is_measured else UNPROVED)

    @property
    def files(self) -> list[Path]:
        return [self.folder / name for name in self.target.files]

    @property
    def file(self) -> Path:
        return self.files[0]

    @property
    def log(self) -> Path:
        return self.folder / f"{self.target.name}.log"

    @property
    def stamp_file(self) -> Path:
        return self.folder / f"{self.target.name}.built_by"

    @property
    def tree_note(self) -> Path:
        """The file that names the tree of the build that runs."""
        return self.folder / f".{self.target.name}.tree"

    def lines(self) -> dict[str, str]:
        """The lines of crates.txt of the crates that the target is built of."""
        return needed_lines(self.root, self.target.crate)

    def stamp(self) -> Stamp | None:
        """The stamp, where it is that of the files that stand here: none that was copied in has one."""
        try:
            given = json.loads(self.stamp_file.read_text(encoding="utf-8"))
            found = Stamp(given["sources"], given["kit"], given["made"])
            return found if found.made == sums_of(self.files) else None
        except (OSError, ValueError, KeyError, TypeError):
            return None

    def write_stamp(self, sources: str, kit: str) -> None:
        stamp = {"sources": sources, "kit": kit, "made": sums_of(self.files)}
        write_file(self.stamp_file, json.dumps(stamp, indent=1) + "\n")

    def is_built(self, kit: str) -> bool:
        """Whether what stands here was built of the sources that stand in the repository, by that kit."""
        stamp = self.stamp()
        return stamp is not None and stamp.kit == kit and self.is_of_sources(stamp)

    def is_current(self) -> bool:
        """Whether what stands here was built of the sources that stand in the repository, by whichever kit: it is asked
        before each run, so the sources are only read where one is newer than what was made of them."""
        stamp = self.stamp()
        if stamp is None:
            return False
        # Below the folder where it is installed there are no sources that could be newer.
        if not (self.root / LIST).is_file():
            return True
        if min(path.stat().st_mtime_ns for path in self.files) > last_change(self.root, self.lines()):
            return True
        return self.is_of_sources(stamp)

    def is_of_sources(self, stamp: Stamp) -> bool:
        if stamp.sources != stamp_of(self.root, self.lines(), stamp.kit):
            return False
        # A file that was written again with the same text is no newer source.
        with contextlib.suppress(OSError):
            for path in self.files:
                os.utime(path)
        return True

    @contextlib.contextmanager
    def alone(self, name: str) -> Iterator[int]:
        """Keeps other builds of the same out; waits where one is there. The file is open until the block's end."""
        self.folder.mkdir(parents=True, exist_ok=True)
        held = os.open(self.folder / f".{self.target.name}.lock", os.O_RDWR | os.O_CREAT, 0o644)
        try:
            try:
                fcntl.flock(held, fcntl.LOCK_EX | fcntl.LOCK_NB)
            except BlockingIOError:
                print(f"{name}: waiting for another build of {self.target.name}", file=sys.stderr, flush=True)
                fcntl.flock(held, fcntl.LOCK_EX)
            yield held
        finally:
            os.close(held)


def sums_of(paths: list[Path]) -> dict[str, str]:
    return {path.name: hashlib.sha256(path.read_bytes()).hexdigest() for path in paths}


def lines_of(places: list[Place]) -> dict[str, str]:
    """The lines of crates.txt, in its order, of the crates that these targets are built of."""
    return needed_lines(places[0].root, *(place.target.crate for place in places))


def standing(target: Target, root: Path = ROOT) -> Place:
    """Where a target stands to be used: the proved one's place unless an unproved one alone stands there."""
    proved, unproved = Place(target, True, root), Place(target, False, root)
    is_unproved = not all(path.is_file() for path in proved.files) and all(path.is_file() for path in unproved.files)
    return unproved if is_unproved else proved
