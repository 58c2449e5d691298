"""The programs that are measured: what each is called with, its time, its instructions and its peak of memory."""

import re
import subprocess
import sys
from dataclasses import dataclass
from pathlib import Path

from beside.sets import Set
from common.faults import FILES, ToolFault, one_line
from library_tests.drivers import INCLUDE, WARNINGS, harfbuzz
from library_tests.drivers import SOURCES as TEST_SOURCES

SOURCES = Path(__file__).parent
LAUNCHER = (sys.executable, "-I", "-S", SOURCES / "launch.py")
# The driver shares what the library's test has.
COMPILER = ("gcc", "-std=gnu11", "-O2", *WARNINGS, f"-I{INCLUDE}", f"-I{TEST_SOURCES}")
THEIRS = "hb-shape"
NUMBERS = "--no-glyph-names"
# Seconds of processor time that one run may take.
LIMIT = 600
CALLGRIND = ("valgrind", "-q", "--tool=callgrind")
# The line of a count in callgrind's file.
TOTAL = re.compile(r"^totals: (\d+)$", re.MULTILINE)


@dataclass(frozen=True)
class Used:
    """The processor time of a run, and its peak of memory."""

    seconds: float
    bytes: int


@dataclass(frozen=True)
class Files:
    """What the programs read for a set, and the driver of both libraries."""

    chosen: Set
    program: Path
    tables: Path
    font: Path
    driver: Path

    def own(self, text: Path) -> list[str]:
        """The program's words for a text."""
        language = f"--language={self.chosen.language}"
        return [str(self.program), NUMBERS, language, str(self.tables), str(self.font), str(text)]

    def theirs(self, text: Path) -> list[str]:
        """The words of hb-shape for a text: by OpenType's rules also where a font has Graphite's."""
        asked = ("--shaper=ot", "--utf8-clusters", f"--language={self.chosen.language}")
        return [THEIRS, NUMBERS, *asked, f"--text-file={text}", str(self.chosen.font)]

    def rounds(self, rounds: int, works: list[str]) -> list[str]:
        """The driver's words: so many timed rounds of each work, or the glyphs where there are none."""
        read = [self.chosen.language, str(self.tables), str(self.font), str(self.chosen.font)]
        return [str(self.driver), *read, str(rounds), *works]


def build_driver(folder: Path, library: Path) -> Path:
    """Builds the driver over the library's archive and libharfbuzz."""
    made, source = folder / "driver", SOURCES / "driver.c"
    words = [*COMPILER, *harfbuzz("--cflags"), "-o", made, source, library, *harfbuzz("--libs")]
    ran = subprocess.run(words, capture_output=True, check=False, encoding="utf-8")
    if ran.returncode != 0:
        raise ToolFault(FILES, f"{source.name} was not built: {one_line(ran.stderr)[-300:]}")
    return made


def printed_by(words: list[str]) -> list[str]:
    """The lines that a program prints."""
    ran = subprocess.run(words, capture_output=True, check=False)
    if ran.returncode != 0:
        raise failed(words, ran.returncode, ran.stderr.decode("utf-8", "replace"))
    return ran.stdout.decode("utf-8").splitlines()


def used_by(words: list[str]) -> Used:
    """What a run takes whose output nobody reads."""
    ran = subprocess.run([*LAUNCHER, str(LIMIT), *words], capture_output=True, check=False, encoding="utf-8")
    status, seconds, peak = ran.stdout.split() if ran.returncode == 0 else (str(ran.returncode), "0", "0")
    if int(status) != 0:
        raise failed(words, int(status), ran.stderr)
    return Used(float(seconds), int(peak))


def counted_by(words: list[str], kept: Path) -> int:
    """The instructions of a whole run, as callgrind counts them; its file is removed."""
    printed_by([*CALLGRIND, f"--callgrind-out-file={kept}", *words])
    return total_of(kept)


def counts_of_rounds(words: list[str], works: int, kept: Path) -> list[tuple[int, int]]:
    """The instructions of a round of each work, of the library and of libharfbuzz."""
    printed_by([*CALLGRIND, "--instr-atstart=no", f"--callgrind-out-file={kept}", *words])
    kept.unlink(missing_ok=True)
    dumps = [total_of(kept.with_name(f"{kept.name}.{number}")) for number in range(1, 2 * works + 1)]
    return list(zip(dumps[::2], dumps[1::2], strict=True))


def total_of(path: Path) -> int:
    """The instructions of a file of callgrind's, which is removed."""
    try:
        found = TOTAL.search(path.read_text(encoding="utf-8"))
    finally:
        path.unlink(missing_ok=True)
    if found is None:
        raise ToolFault(FILES, f"{path.name}: callgrind wrote no total")
    return int(found[1])


def failed(words: list[str], status: int, told: str) -> ToolFault:
    called = " ".join(map(str, words))
    return ToolFault(FILES, f"{Path(words[0]).name} ended with {status}: {one_line(told)[-300:]} ({called})")
