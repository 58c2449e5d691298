"""The command line of failing_files."""

import argparse
import errno
import os
import tempfile
from collections import Counter
from itertools import count
from pathlib import Path
from typing import Callable, Iterator

from building.places import PROGRAM, standing
from building.ready import usable
from common.files import write_over
from common.parsing import Words
from fuzzing.cases import FILES
from streams import system
from streams.rows import Row, long_row, row, rows
from streams.shim import Shim, compiler
from streams.system import Ended

NAME = "failing_files"
ABOUT = """Runs the program on a text whose line is known, with each file cut at each byte, given in two pieces at each
byte, missing, a folder, or failing at each read; and with its output closed, full or short at each byte. The answer has
to be the line or the documented fault, and a refusal writes nothing but a front of the line. Each allocation of sixteen
runs is refused, alone and with all that follow: the answer has to be want of memory, or the line. The status is 1 where
an answer is another one. Reads, writes and allocations fail by functions in C that stand before those of the C library;
where no C compiler is there, these are left out."""
READ, WRITE = b"hb_shape: Read\n", b"hb_shape: Write\n"
NO_TEXT = b"\xff"
MEMORY = [Ended(5, b"", f"hb_shape: {fault}\n".encode()) for fault in ("OutOfMemory", "S1 OutOfMemory")]
ERRORS = (errno.EIO, errno.EINTR, errno.EAGAIN, errno.EBADF)


class Trial:
    """The program with the row's files in a folder; counts what was tried and tells what was not right."""

    def __init__(self, program: Path, folder: Path) -> None:
        self.program = program
        self.folder = folder
        self.counts: Counter[str] = Counter()
        self.wrong: list[str] = []
        self.shim: Shim | None = None

    def words(self, given: Row | None = None) -> list[str | Path]:
        return [self.program, *(given or row()).options, *(self.folder / name for name in FILES)]

    def write(self, given: Row) -> None:
        for name, content in zip(FILES, given.files()):
            write_over(self.folder / name, content)

    def expect(self, group: str, where: str, ended: Ended, is_right: bool) -> None:
        """Counts a run, and tells of it where it is not right."""
        self.counts[group] += 1
        if not is_right:
            told = f"{group}, {where}: status {ended.status}, {ended.out[:60]!r}, {ended.err[:60]!r}"
            self.wrong.append(told)
            print(told, flush=True)

    def expect_fault(self, group: str, where: str, ended: Ended, status: int, fault: bytes) -> None:
        self.expect(group, where, ended, ended == Ended(status, b"", fault))

    def expect_line(self, group: str, where: str, ended: Ended, line: bytes) -> None:
        self.expect(group, where, ended, ended == Ended(0, line, b""))


def parser() -> argparse.ArgumentParser:
    words = Words(prog=NAME, description=ABOUT)
    words.add_argument("--program", type=Path, default=standing(PROGRAM).file, metavar="FILE", help="another program")
    words.add_argument("--only", choices=GROUPS, help="one group of trials alone")
    return words


def main(given: list[str]) -> int:
    """Tries each place; its status is 1 where an answer is not right."""
    options = parser().parse_args(given)
    usable(NAME, options.program)
    with tempfile.TemporaryDirectory() as folder:
        trial = Trial(options.program.resolve(), Path(folder))
        for name, group in GROUPS.items():
            if options.only in (None, name):
                group(trial)
    for name, times in trial.counts.items():
        print(f"{times:6} runs  {name}")
    print(f"{sum(trial.counts.values())} runs, {len(trial.wrong)} with an answer that is not right")
    return 1 if trial.wrong else 0


# ---- words, files that are not there, no files, cut, or in pieces


def no_text(trial: Trial) -> None:
    """Each word in turn has a byte that is no UTF-8."""
    trial.write(row())
    right = trial.words()
    for at in range(1, len(right)):
        given = [*right[:at], f"{right[at]}{os.fsdecode(NO_TEXT)}", *right[at + 1 :]]
        trial.expect_fault("a word that is no UTF-8", f"word {at}", system.run(given), 2, b"hb_shape: words\n")


def unopened(trial: Trial) -> None:
    """Missing files and folders; the first of them in the order of the command line is the fault."""
    trial.write(row())
    for name in FILES:
        path = trial.folder / name
        content = path.read_bytes()
        path.unlink()
        trial.expect_fault("a file that is not there", name, system.run(trial.words()), 6, READ)
        path.mkdir()
        trial.expect_fault("a folder as a file", name, system.run(trial.words()), 6, READ)
        path.rmdir()
        write_over(path, content)


def cut(trial: Trial) -> None:
    """Tables and a font are no JSON without their ends; a text has each front of it."""
    given = row()
    for name, content in zip(FILES[:2], given.files()):
        for end in range(len(content)):
            trial.write(given)
            write_over(trial.folder / name, content[:end])
            ended = system.run(trial.words())
            trial.expect_fault(f"{name} cut short", f"byte {end}", ended, 3, b"hb_shape: J1 NotJson\n")


def pieces(trial: Trial) -> None:
    """A file in two pieces at each byte, and by single bytes."""
    given = row()
    for name, content in zip(FILES, given.files()):
        path = trial.folder / name
        cuts = [[content[:at], content[at:]] for at in range(1, len(content))]
        for parts in [*cuts, [content[at : at + 1] for at in range(len(content))]]:
            trial.write(given)
            path.unlink()
            ended = system.run_pieces(trial.words(), path, parts)
            trial.expect_line(f"{name} in pieces", f"the first of {len(parts[0])} bytes", ended, given.line)


# ---- outputs


def outputs(trial: Trial) -> None:
    """A full device, a file that may have some bytes, and a pipe that is closed."""
    given = row()
    trial.write(given)
    trial.expect_fault("a full output", "/dev/full", system.run_into(trial.words(), Path("/dev/full")), 6, WRITE)
    for size in range(len(given.line) + 1):
        ended = system.run_limited(trial.words(), trial.folder / "out", size)
        want = Ended(6, given.line[:size], WRITE) if size < len(given.line) else Ended(0, given.line, b"")
        trial.expect("an output of some bytes", f"{size} bytes", ended, ended == want)
    closed = system.run(["/bin/sh", "-c", 'exec "$@" >&-', "sh", *trial.words()])
    trial.expect_fault("a closed output", "", closed, 6, WRITE)
    for is_ignored in (True, False):
        ended = system.run_closed(trial.words(), 0, is_ignored)
        is_right = ended.status in (0, 6) if is_ignored else ended.status in (0, 6, -13)
        trial.expect("a pipe that is closed", f"its signal {'ignored' if is_ignored else 'taken'}", ended, is_right)


# ---- calls of the C library


def short_of(trial: Trial, call: str, given: Row, **settings: int) -> Iterator[tuple[int, Ended]]:
    """The runs of a row in which the first such call, the second and so on fails, until there is none."""
    assert trial.shim is not None
    trial.write(given)
    for number in count(1):
        ended = system.run(trial.words(given), trial.shim.environment(**{call: number}, **settings))
        if not trial.shim.was_met():
            return
        yield number, ended


def reads(trial: Trial) -> None:
    """Each read fails, by several errors, or gives few bytes."""
    for error in ERRORS:
        for number, ended in short_of(trial, "read", long_row(), errno=error):
            trial.expect_fault("failing reads", f"read {number}, {errno.errorcode[error]}", ended, 6, READ)
    for size in (1, 2, 100, 4095):
        for number, ended in short_of(trial, "read", long_row(), bytes=size):
            trial.expect_line("short reads", f"read {number} of {size} bytes", ended, long_row().line)
        for number, ended in short_of(trial, "read", long_row(), bytes=size, on=1):
            trial.expect_line("short reads", f"reads from {number} on of {size} bytes", ended, long_row().line)


def writes(trial: Trial) -> None:
    """The write fails, or takes so many bytes and the rest is written by others; one that takes none has failed."""
    line = row().line
    for error in (*ERRORS, errno.ENOSPC, errno.EPIPE):
        ended = next(ended for _, ended in short_of(trial, "write", row(), errno=error))
        trial.expect_fault("failing writes", errno.errorcode[error], ended, 6, WRITE)
    for size in range(1, len(line) + 1):
        ended = next(ended for _, ended in short_of(trial, "write", row(), bytes=size))
        trial.expect_line("short writes", f"{size} bytes taken", ended, line)
    for number, ended in short_of(trial, "write", row(), bytes=1, on=1):
        trial.expect_line("short writes", f"a byte a write from {number} on", ended, line)
        if number == len(line):
            break
    ended = next(ended for _, ended in short_of(trial, "write", row(), bytes=0))
    trial.expect_fault("short writes", "no byte taken", ended, 6, WRITE)


def allocations(trial: Trial) -> None:
    """Each allocation is refused, alone or with all that follow it, in each of the rows."""
    for given in rows():
        right = Ended(given.status, given.line, given.fault)
        for on in (0, 1):
            for number, ended in short_of(trial, "malloc", given, on=on):
                where = f"allocation {number}{' and all that follow' if on else ''}"
                trial.expect(f"refused allocations: {given.name}", where, ended, ended == right or ended in MEMORY)
        ended = system.run(trial.words(given))
        trial.expect(f"refused allocations: {given.name}", "none", ended, ended == right)


def with_shim(group: Callable[[Trial], None]) -> Callable[[Trial], None]:
    """The group, where there is a compiler."""

    def tried(trial: Trial) -> None:
        if compiler() is None:
            print(f"{group.__name__}: left out, since no C compiler is there")
            return
        trial.shim = trial.shim or Shim(trial.folder)
        group(trial)

    return tried


GROUPS: dict[str, Callable[[Trial], None]] = {
    "words": no_text,
    "unopened": unopened,
    "cut": cut,
    "pieces": pieces,
    "outputs": outputs,
    "reads": with_shim(reads),
    "writes": with_shim(writes),
    "allocations": with_shim(allocations),
}
