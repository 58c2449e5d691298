"""The tree that a release is made of: its commit, and sums of its crates."""

import hashlib
import os
import subprocess
from dataclasses import dataclass
from pathlib import Path

from common.faults import FILES, ToolFault

EPOCH = "SOURCE_DATE_EPOCH"
# How many changed files a refusal names.
NAMED = 5


@dataclass(frozen=True)
class Source:
    """A commit, its time in seconds, who made it, and the files that differ from it."""

    commit: str
    time: int
    author: str
    changed: list[str]


def read_source(root: Path) -> Source:
    """The commit that stands in the clone. SOURCE_DATE_EPOCH names another time."""
    commit, time, author = git(root, "log", "-1", "--format=%H%n%ct%n%an <%ae>").splitlines()
    changed = git(root, "status", "--porcelain", "--untracked-files=all").splitlines()
    return Source(commit, int(os.environ.get(EPOCH) or time), author, [line[3:] for line in changed])


def check_clean(source: Source) -> None:
    if source.changed:
        more = ", .." if len(source.changed) > NAMED else ""
        raise ToolFault(FILES, f"files differ from the commit: {', '.join(source.changed[:NAMED])}{more}")


def git(root: Path, *words: str) -> str:
    ran = subprocess.run(["git", *words], cwd=root, capture_output=True, text=True, errors="replace", check=False)
    if ran.returncode:
        raise ToolFault(FILES, f"git {words[0]}: {ran.stderr.strip()[-500:]}")
    return ran.stdout


def crate_files(root: Path, crate: str) -> list[str]:
    """The files of a crate that git has, in the order of their bytes."""
    names = git(root, "ls-files", "-z", f"crates/{crate}").split("\0")
    return sorted((name for name in names if name), key=os.fsencode)


def crate_sum(root: Path, crate: str) -> str:
    """The sum of the list that sha256sum prints of a crate's files."""
    listed = hashlib.sha256()
    for name in crate_files(root, crate):
        made = hashlib.sha256((root / name).read_bytes()).hexdigest()
        listed.update(f"{made}  {name}\n".encode())
    return listed.hexdigest()
