"""Files that a tool is given, and files that it writes."""

import contextlib
import os
import secrets
import stat
from pathlib import Path
from typing import Callable, Iterator

from common.faults import FILES, ToolFault

# A new file's mode before the mask of the process.
USUAL = 0o666
NEW = ".kuspveli-"


def check_regular(path: Path, what: str) -> None:
    """Refuses a folder, and what would be waited for or has no end: a pipe, a device."""
    mode = path.stat().st_mode
    if not stat.S_ISREG(mode):
        raise ToolFault(FILES, f"{path}: {'a folder' if stat.S_ISDIR(mode) else 'a pipe or device'}, not a {what} file")


def write_file(path: Path, content: str | bytes) -> None:
    """Writes a file whole, or leaves what stands there as it was; a fault names the file.

    It is written under a name that nobody had and then renamed. A link is followed. A pipe or a device is written to.
    """
    encoded = content.encode("utf-8") if isinstance(content, str) else content
    with faults_of(path):
        before = mode_of(path)
        if before is not None and not stat.S_ISREG(before):
            write_into(os.open(path, os.O_WRONLY), encoded)
            return
        target = os.path.realpath(path)
        new = os.path.join(os.path.dirname(target), new_name())
        replace_by(new, target, None, lambda: write_new(new, encoded, None if before is None else stat.S_IMODE(before)))


def write_over(path: Path | str, content: str | bytes) -> None:
    """Writes a file of a tool's own folder in its place; a fault names it."""
    with faults_of(path):
        number = os.open(path, os.O_WRONLY | os.O_CREAT | os.O_TRUNC | os.O_CLOEXEC, USUAL)
        write_into(number, content.encode("utf-8") if isinstance(content, str) else content)


def mode_of(path: Path) -> int | None:
    """The mode of what a name leads to, None where nothing is there."""
    try:
        return os.stat(path).st_mode
    except FileNotFoundError:
        return None


def new_name() -> str:
    """A name that no file has, in no folder."""
    return f"{NEW}{secrets.token_hex(16)}"


def replace_by(new: str, name: str, folder: int | None, make: Callable[[], None]) -> None:
    """Has something made under a new name, and gives it the name that it is to have. Where that doesn't end well, also
    by an interrupt, nothing of it is left."""
    try:
        make()
        os.replace(new, name, src_dir_fd=folder, dst_dir_fd=folder)
    except Taken:
        raise
    except BaseException:
        with contextlib.suppress(OSError):
            os.unlink(new, dir_fd=folder)
        raise


class Taken(ToolFault):
    """A new name that somebody else took meanwhile."""


@contextlib.contextmanager
def taken(name: str) -> Iterator[None]:
    try:
        yield
    except FileExistsError as error:
        raise Taken(FILES, f"{name}: somebody took this name meanwhile") from error


def write_new(name: str, content: bytes, mode: int | None = None, folder: int | None = None) -> None:
    """Writes a file that is not there yet, below an open folder where one is given."""
    with taken(name):
        number = os.open(name, os.O_WRONLY | os.O_CREAT | os.O_EXCL | os.O_NOFOLLOW | os.O_CLOEXEC, USUAL, dir_fd=folder)
    write_into(number, content, mode)


def write_into(number: int, content: bytes, mode: int | None = None) -> None:
    """Writes all into an open file, and closes it."""
    try:
        left = memoryview(content)
        while left:
            left = left[os.write(number, left) :]
        if mode is not None:
            os.fchmod(number, mode)
    finally:
        os.close(number)


@contextlib.contextmanager
def faults_of(path: object) -> Iterator[None]:
    """Gives each fault of the system the name of the file that it is about, by whatever name it was called."""
    try:
        yield
    except OSError as error:
        error.filename = str(path)
        raise
