"""The command line of instead: a program is run with the shared object in front of its libraries."""

import os
import shutil
import signal
import subprocess
import tempfile
from dataclasses import dataclass
from pathlib import Path

from building.progress import end_by_exit
from common.faults import FILES, WORDS, ToolFault
from common.printing import emit, tell
from preload.reports import difference_lines, report_lines, rows_of, summed
from preload.shared_object import ready_object

NAME = "instead"
USAGE = """usage: instead [--report[=FILE]] [--compare[=FILE]] PROGRAM [ARGUMENT ..]

Runs a program that uses libharfbuzz, and has Kuspveli shape its texts. What Kuspveli can't shape, and all else that is
asked of libharfbuzz, is libharfbuzz's as before.

  --report[=FILE]   tell at the end how many texts each shaped, and why; with FILE a line of JSON for each process there
  --compare[=FILE]  shape by both, and write each difference; with FILE as a line of JSON for each there

Its status is the program's."""
PRELOAD, LIBRARIES = "LD_PRELOAD", "LD_LIBRARY_PATH"
REPORT, COMPARE = "KUSPVELI_REPORT", "KUSPVELI_COMPARE"
HELP = ("-h", "--help")


@dataclass(frozen=True)
class Given:
    """The words: the program's own, and the files of reports and differences: None for nowhere, "" for standard error."""

    program: list[str]
    report: str | None
    compare: str | None


def main(words: list[str]) -> int:
    if words and words[0] in HELP:
        emit(USAGE + "\n")
        return 0
    given = read_words(words)
    if shutil.which(given.program[0]) is None:
        raise ToolFault(FILES, f"{given.program[0]}: no such program")
    environment = preloaded(ready_object(NAME))
    if given.report is None and given.compare is None:
        os.execvpe(given.program[0], given.program, environment)
    with tempfile.TemporaryDirectory(prefix="kuspveli-instead-") as name:
        return reported(given, environment, Path(name))


def read_words(words: list[str]) -> Given:
    """The tool's own words end with the first that is none of them."""
    found: dict[str, str | None] = {"--report": None, "--compare": None}
    rest = list(words)
    while rest and rest[0].startswith("-"):
        word = rest.pop(0)
        if word == "--":
            break
        option, equals, file = word.partition("=")
        if option not in found or (equals and not file):
            raise ToolFault(WORDS, f"no option: {word} (tools/{NAME} --help)")
        found[option] = file
    if not rest:
        raise ToolFault(WORDS, f"no program is named (tools/{NAME} --help)")
    return Given(rest, found["--report"], found["--compare"])


def preloaded(shared: Path) -> dict[str, str]:
    """The environment of a program with the object in front of what is preloaded already. The loader parts this list at
    spaces and colons, and that of the folders of libraries at colons alone."""
    if ":" in str(shared):
        raise ToolFault(FILES, f"{shared}: nothing is preloaded whose path has a colon")
    if not any(character.isspace() for character in str(shared)):
        return {**os.environ, PRELOAD: before_those(PRELOAD, str(shared))}
    own = {PRELOAD: before_those(PRELOAD, shared.name), LIBRARIES: before_those(LIBRARIES, str(shared.parent))}
    return {**os.environ, **own}


def before_those(name: str, first: str) -> str:
    """A list of the environment with something before all that it has."""
    rest = os.environ.get(name)
    return f"{first}:{rest}" if rest else first


def reported(given: Given, environment: dict[str, str], room: Path) -> int:
    """Runs the program and tells what its processes report; its status."""
    reports = Path(given.report).absolute() if given.report else room / "reports"
    differences = Path(given.compare).absolute() if given.compare else room / "differences"
    for path in (reports, differences):
        path.write_bytes(b"")
    environment[REPORT] = str(reports)
    if given.compare is not None:
        environment[COMPARE] = str(differences)
    status = run(given.program, environment)
    if given.compare == "":
        for row in rows_of(differences):
            for line in difference_lines(row):
                tell(NAME, line)
    if not given.report:
        for line in report_lines(summed(rows_of(reports))):
            tell(NAME, line)
    return status


def run(words: list[str], environment: dict[str, str]) -> int:
    """Runs a program with the streams of this process. An interrupt is the program's."""
    end_by_exit()
    with subprocess.Popen(words, env=environment) as ran:
        signal.signal(signal.SIGINT, signal.SIG_IGN)
        try:
            status = ran.wait()
        except SystemExit:
            ran.terminate()
            raise
    return status if status >= 0 else 128 - status
