"""The tree in which the gate works: copies of a crate and of those that it is built on.

It is a repository of its own, without the other crates and without must-fail edits. Files are copied, since a link to
a file changes its time, by which rt knows files that were changed while it worked. The gate refuses a crates.txt below
the top of a repository, so the tree stands among the temporary files."""

import contextlib
import hashlib
import os
import shutil
import stat
import tempfile
from pathlib import Path
from typing import Iterable, Iterator

from common.files import faults_of, write_file, write_over
from sources.crates import all_needs, read_crates

# What the gate reads of a crate: code and proofs, and what a program is run on.
READ = ("src", "specs", "proofs", "stdin", "stdout", "args", "status", "data")
LIST = "crates.txt"
HANDLES = "HANDLES"


@contextlib.contextmanager
def new_tree(note: Path, crate: str) -> Iterator[Path]:
    """The place of the tree, in a private folder of a name that nobody knows before, which is removed at the end. The note
    has the name, by which the next build removes what a killed one left."""
    start = f"{crate}-build-"
    clear_left(note, start)
    room = Path(tempfile.mkdtemp(prefix=start)).resolve()
    try:
        write_file(note, os.fsencode(room) + b"\n")
        yield room / "tree"
    finally:
        clear(room)
        note.unlink(missing_ok=True)


def clear_left(note: Path, start: str) -> None:
    """Removes the folder that a note names, where it is a tree's and this user's."""
    with contextlib.suppress(OSError):
        left = Path(os.fsdecode(note.read_bytes().rstrip(b"\n")))
        found = left.lstat()
        if left.name.startswith(start) and stat.S_ISDIR(found.st_mode) and found.st_uid == os.geteuid():
            clear(left)


def needed_lines(root: Path, *crates: str) -> dict[str, str]:
    """The lines of crates.txt, as they stand, of crates and those that they are built on, by their names."""
    listed = read_crates(root)
    wanted = {needed for crate in crates for needed in all_needs(crate, listed)}
    lines: dict[str, str] = {}
    for line in (root / LIST).read_text(encoding="utf-8").splitlines():
        for name in line.split("#")[0].partition(":")[0].split()[:1]:
            if name in wanted:
                lines[name] = line
    return lines


def paths_of(root: Path, names: Iterable[str]) -> list[Path]:
    """The files that the gate reads of these crates, with their folders, where they are there."""
    found = [root / HANDLES]
    for name in names:
        for part in READ:
            path = root / "crates" / name / part
            found += [path, *sorted(path.rglob("*"))]
    return [path for path in found if path.exists()]


def files_of(root: Path, names: Iterable[str]) -> list[Path]:
    """The files that the gate reads of these crates."""
    return [path for path in paths_of(root, names) if path.is_file()]


def last_change(root: Path, names: Iterable[str]) -> int:
    """When a file of these crates was last written, added or removed, in nanoseconds. It is asked before each run of
    the program, so it looks at folders by os.scandir, which takes a tenth of the time."""
    newest, left = 0, [root / LIST, root / HANDLES, *(root / "crates" / name / part for name in names for part in READ)]
    folders = []
    for path in left:
        with contextlib.suppress(FileNotFoundError):
            found = path.stat()
            newest = max(newest, found.st_mtime_ns)
            folders += [str(path)] * stat.S_ISDIR(found.st_mode)
    for folder in folders:
        with os.scandir(folder) as entries:
            for entry in entries:
                newest = max(newest, entry.stat().st_mtime_ns)
                folders += [entry.path] * entry.is_dir()
    return newest


def stamp_of(root: Path, lines: dict[str, str], kit: str) -> str:
    """A sum of all that the program is built of."""
    made = hashlib.sha256(repr((kit, lines)).encode())
    for path in files_of(root, lines):
        made.update(repr((str(path.relative_to(root)), path.read_bytes())).encode())
    return made.hexdigest()


def lay_tree(root: Path, tree: Path, lines: dict[str, str]) -> None:
    """Makes the tree, in place of one that a killed build left."""
    clear(tree)
    tree.mkdir(mode=0o700)
    # By this folder the gate knows the top of a repository.
    (tree / ".git").mkdir()
    write_over(tree / LIST, "".join(f"{line}\n" for line in lines.values()))
    for path in files_of(root, lines):
        target = tree / path.relative_to(root)
        target.parent.mkdir(parents=True, exist_ok=True)
        with faults_of(target):
            shutil.copyfile(path, target, follow_symlinks=False)


def clear(tree: Path) -> None:
    shutil.rmtree(tree, ignore_errors=True)
