"""Entries below a prefix: what stands there, what is written, and what is removed again."""

import contextlib
from pathlib import Path

from common.below import Below
from common.faults import FILES, ToolFault
from common.files import faults_of
from common.plan import Entries, Tops, Who, lay, read_list, take_all
from installing.layout import OWN

# What was put below the prefix, with sums, and the folders that were made for it.
SUMS = f"{OWN}/installed.sha256"
TOPS = Tops(("bin", "include", "lib"), 2)
WORDS = "was changed since it was installed", "was not put there by install"


def place_all(prefix: Path, entries: Entries) -> int:
    """Writes what is not the same yet, removes what an older version put there alone; how many changed. What stands in
    the way is refused before anything is written."""
    made = missing_above(prefix)
    try:
        with faults_of(prefix):
            prefix.mkdir(parents=True, exist_ok=True)
        with Below(prefix) as below:
            listed = read_list(below, SUMS, TOPS)
            written, _ = lay(below, SUMS, listed, entries, Who(*WORDS, above=len(made)))
            return written
    except BaseException:
        remove_empty(made)
        raise


def missing_above(prefix: Path) -> list[Path]:
    """The prefix with the folders above it, as far as they are not there, the lowest first."""
    return [each for each in (prefix, *prefix.parents) if not each.exists()]


def remove_empty(folders: list[Path]) -> None:
    """Removes folders from the lowest on, as long as they are empty."""
    with contextlib.suppress(OSError):
        for folder in folders:
            folder.rmdir()


def remove_all(prefix: Path) -> tuple[int, list[Path]]:
    """Removes what was put there, and the folders that were made for it once they are empty; how many files were
    removed, and those that were changed since and are left."""
    with Below(prefix) as below:
        listed = read_list(below, SUMS, TOPS)
        if not listed.is_there:
            raise ToolFault(FILES, f"{prefix}: install put nothing there: {prefix / SUMS} is missing")
        removed, left = take_all(below, SUMS, listed)
    remove_empty([prefix, *prefix.parents][: listed.above])
    return removed, [prefix / name for name in left]
