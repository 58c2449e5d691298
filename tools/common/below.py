"""Files below a folder that somebody else may have laid: each path is opened part by part, and no link is followed."""

import contextlib
import hashlib
import os
import stat
from pathlib import Path, PurePosixPath
from typing import Iterator

from common.faults import DATA, ToolFault
from common.files import Taken, faults_of, replace_by, write_into, write_new

FOLDER = os.O_RDONLY | os.O_DIRECTORY | os.O_NOFOLLOW | os.O_CLOEXEC
# A pipe is not waited for.
FILE = os.O_RDONLY | os.O_NOFOLLOW | os.O_NONBLOCK | os.O_CLOEXEC
PIECE = 1 << 20
# What stands at a path: the sum of a file, what a link says, or something else.
LINK, OTHER = "-> ", "neither a file nor a link"


class Below:
    """An open folder. Names are paths below it, with slashes."""

    def __init__(self, top: Path) -> None:
        self.top = top
        with faults_of(top):
            self.number = os.open(top, os.O_RDONLY | os.O_DIRECTORY | os.O_CLOEXEC)

    def __enter__(self) -> "Below":
        return self

    def __exit__(self, *_: object) -> None:
        os.close(self.number)

    def path(self, name: str) -> Path:
        return self.top / name

    # -- folders

    @contextlib.contextmanager
    def folder(self, name: str, is_made: bool = False) -> Iterator[int]:
        """A folder below it, open; a link in the way is refused."""
        with faults_of(self.top):
            number = os.dup(self.number)
        try:
            for depth, part in enumerate(parts := PurePosixPath(name).parts, 1):
                with faults_of(way := self.path("/".join(parts[:depth]))):
                    if is_made:
                        with contextlib.suppress(FileExistsError):
                            os.mkdir(part, dir_fd=number)
                    inner = self.inner(number, part, way)
                number, outer = inner, number
                os.close(outer)
            yield number
        finally:
            os.close(number)

    def inner(self, number: int, part: str, way: Path) -> int:
        try:
            return os.open(part, FOLDER, dir_fd=number)
        except OSError:
            found = lstat(part, number)
            if found is not None and not stat.S_ISDIR(found.st_mode):
                what = "a link" if stat.S_ISLNK(found.st_mode) else "no folder"
                raise ToolFault(DATA, f"{way}: {what} stands in the way, and is not followed") from None
            raise

    @contextlib.contextmanager
    def parent(self, name: str) -> Iterator[tuple[int, str]]:
        """The open folder of a path, and the path's last part."""
        way = PurePosixPath(name)
        with self.folder(str(way.parent)) as number, faults_of(self.path(name)):
            yield number, way.name

    def has_folder(self, name: str) -> bool:
        with contextlib.suppress(FileNotFoundError), self.folder(name):
            return True
        return False

    def remove_folder(self, name: str) -> None:
        """Removes a folder where it is there and empty."""
        with contextlib.suppress(OSError, ToolFault), self.parent(name) as (number, last):
            os.rmdir(last, dir_fd=number)

    def files(self, name: str) -> list[str]:
        """What a folder has but folders, at every depth; nothing where it is not there."""
        found, waiting = [], [name]
        while waiting:
            here = waiting.pop()
            with (
                contextlib.suppress(FileNotFoundError),
                self.folder(here) as number,
                faults_of(self.path(here)),
                os.scandir(number) as entries,
            ):
                for entry in entries:
                    rest = waiting if entry.is_dir(follow_symlinks=False) else found
                    rest.append(f"{here}/{entry.name}")
        return sorted(found)

    # -- files and links

    def identity(self, name: str) -> str | None:
        """What stands at a path; None where nothing does."""
        try:
            with self.parent(name) as (number, last):
                return identity_at(last, number)
        except FileNotFoundError:
            return None

    def mode(self, name: str) -> int:
        with self.parent(name) as (number, last):
            return stat.S_IMODE(os.lstat(last, dir_fd=number).st_mode)

    def read(self, name: str) -> bytes | None:
        """A file's bytes; None where nothing is there."""
        try:
            with self.parent(name) as (number, last):
                return read_at(last, number, self.path(name))
        except FileNotFoundError:
            return None

    def write(self, name: str, new: str, content: bytes, mode: int | None = None) -> None:
        """Writes a file whole, under a new name first."""
        with self.parent(name) as (number, last):
            replace_by(new, last, number, lambda: write_new(new, content, mode, number))

    def create(self, name: str, content: bytes) -> None:
        """Writes a file where nothing is; on a fault nothing is there again."""
        with self.parent(name) as (number, last):
            try:
                write_new(last, content, None, number)
            except Taken:
                raise
            except BaseException:
                with contextlib.suppress(OSError):
                    os.unlink(last, dir_fd=number)
                raise

    def append(self, name: str, line: str) -> None:
        """Adds a line to a file of lines, whose last one may be cut; on a fault the others are there alone."""
        whole = (self.read(name) or b"").rpartition(b"\n")
        size = len(whole[0] + whole[1])
        with self.parent(name) as (number, last):
            file = os.open(last, os.O_WRONLY | os.O_NOFOLLOW | os.O_CLOEXEC, dir_fd=number)
            os.ftruncate(file, size)
            os.lseek(file, 0, os.SEEK_END)
            try:
                write_into(os.dup(file), f"{line}\n".encode())
            except BaseException:
                os.ftruncate(file, size)
                raise
            finally:
                os.close(file)

    def link(self, name: str, new: str, target: str) -> None:
        """Makes a link, under a new name first."""
        with self.parent(name) as (number, last):
            replace_by(new, last, number, lambda: os.symlink(target, new, dir_fd=number))

    def remove(self, name: str) -> None:
        """Removes a file or a link where it is there."""
        with contextlib.suppress(FileNotFoundError), self.parent(name) as (number, last):
            os.unlink(last, dir_fd=number)


def lstat(part: str, number: int) -> os.stat_result | None:
    try:
        return os.lstat(part, dir_fd=number)
    except FileNotFoundError:
        return None


def identity_at(part: str, number: int) -> str | None:
    found = lstat(part, number)
    if found is None:
        return None
    if stat.S_ISLNK(found.st_mode):
        return LINK + os.readlink(part, dir_fd=number)
    if not stat.S_ISREG(found.st_mode):
        return OTHER
    made = hashlib.sha256()
    with open(os.open(part, FILE, dir_fd=number), "rb") as file:
        while piece := file.read(PIECE):
            made.update(piece)
    return made.hexdigest()


def read_at(part: str, number: int, path: Path) -> bytes:
    found = os.lstat(part, dir_fd=number)
    if not stat.S_ISREG(found.st_mode):
        what = "a link" if stat.S_ISLNK(found.st_mode) else "no file"
        raise ToolFault(DATA, f"{path}: {what} stands there, and it is not followed or read")
    with open(os.open(part, FILE, dir_fd=number), "rb") as file:
        return file.read()
