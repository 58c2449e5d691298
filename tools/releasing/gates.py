"""What rt ci's log says of crates: which were proved, with how many functions, and how the run ended."""

import re
from dataclasses import dataclass
from pathlib import Path

from building.gate import PASSED
from building.places import LIBRARY, Place
from building.tree import last_change
from common.faults import FILES, ToolFault
from sources.crates import all_needs, read_crates

# A crate's own section; that of its tests has another head.
SECTION = re.compile(r"== (\w+)$")
TESTS = re.compile(r"== \w+: its tests$")
FUNCTIONS = re.compile(r"logic=proved functions=(\d+) ")
LAST = re.compile(r"(\d+) passed, (\d+) failed")
# How much was done in this run, and which must-fail edits were refused.
DONE = re.compile(r"rt: (ok; .*)$")
# The whole gate's log, where it was kept: rt ci | tee out/ci.log.
WHOLE = "ci.log"


@dataclass(frozen=True)
class Log:
    """The crates that passed, each with its number of functions, or None where an earlier run had proved it; what the run
    says of all, its last line, and after it the number of functions of the library's own crate, which tools/build_library
    proves itself."""

    path: Path
    crates: dict[str, int | None]
    done: str
    last: str
    own: int | None

    @property
    def has_passed(self) -> bool:
        """Whether no crate failed, of a run that ended."""
        found = LAST.match(self.last)
        return found is not None and int(found[2]) == 0


def read_log(path: Path) -> Log:
    crates: dict[str, int | None] = {}
    counts: dict[str, int] = {}
    section, done, last, own = "", "", "", None
    for line in path.read_text(encoding="utf-8", errors="replace").splitlines():
        if found := SECTION.match(line):
            section = found[1]
        elif TESTS.match(line):
            section = ""
        elif found := FUNCTIONS.match(line):
            if section:
                counts[section] = int(found[1])
            elif last:
                own = int(found[1])
        elif (found := PASSED.match(line)) and not found[2]:
            crates[found[1]] = None if found[4] else counts.get(found[1])
        elif found := DONE.match(line):
            done = found[1]
        elif LAST.match(line):
            section, last = "", line
    return Log(path, crates, done, last, own)


def gate_of(place: Place) -> Log:
    """The log of the run that built what stands at a place; it has to have passed all crates that this is built on."""
    log, lines = read_log_of(place), place.lines()
    name = place.log.relative_to(place.root)
    missing = [crate for crate in lines if crate not in log.crates]
    if not log.has_passed or missing:
        raise ToolFault(FILES, f"{name} is no log of a run that passed{': it lacks ' + missing[0] if missing else ''}")
    if place.target == LIBRARY and log.own is None:
        raise ToolFault(FILES, f"{name} has no line by which the archive was proved")
    if place.log.stat().st_mtime_ns > place.stamp_file.stat().st_mtime_ns:
        raise ToolFault(FILES, f"{name} is newer than {place.stamp_file.name}, so it is of another run")
    return log


def read_log_of(place: Place) -> Log:
    if not place.log.is_file():
        raise ToolFault(FILES, f"{place.log.relative_to(place.root)} is missing, so nothing says what was proved")
    return read_log(place.log)


def whole_gate(root: Path) -> Log | None:
    """The log of rt ci over all crates, where it is kept and newer than they are."""
    path, crates = root / "out" / WHOLE, read_crates(root)
    if not path.is_file():
        return None
    log = read_log(path)
    missing = [crate for crate in crates if crate not in log.crates]
    if not log.has_passed or missing:
        raise ToolFault(FILES, f"out/{WHOLE} is no log of a run that passed all crates")
    if path.stat().st_mtime_ns < last_change(root, crates):
        raise ToolFault(FILES, f"out/{WHOLE} is older than the crates")
    return log


def functions(root: Path) -> dict[str, int]:
    """The numbers of functions that the logs in out/ have of the sources that stand here: of each crate that of the newest
    log that has one, and is newer than the crate and those that it is built on."""
    found: dict[str, int] = {}
    crates = read_crates(root)
    changes = {crate: last_change(root, all_needs(crate, crates)) for crate in crates}
    for path in sorted((root / "out").glob("*.log"), key=lambda path: path.stat().st_mtime_ns):
        for crate, count in read_log(path).crates.items():
            if count is not None and path.stat().st_mtime_ns > changes.get(crate, 1 << 64):
                found[crate] = count
    return found
