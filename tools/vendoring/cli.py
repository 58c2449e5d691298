"""The command line of vendor."""

import argparse
from pathlib import Path

from building.progress import end_by_exit
from building.tree import needed_lines
from common.below import Below
from common.faults import FILES, WORDS, ToolFault
from common.parsing import Words
from common.plan import decoded, lay, read_list
from common.version import version
from sources.crates import ROOT, read_crates
from vendoring.copies import CRATES, SUMS, TOPS, WHO, crates_of, entries_of, find_strangers
from vendoring.lines import LIST, with_lines

NAME = "vendor"
CRATE = "kuspveli"
CLIENTS = "caret_model,line_pieces"
ABOUT = f"""Copies the crate {CRATE} and those that it is built on into the crates/ of another Rattle repository, and
writes their lines into its {LIST}, so that a crate there can name {CRATE}. FOLDER is the top of that repository. Done
again, it replaces what it wrote before, and leaves files that are the same as they are. A crate of one of these names
that it didn't write, or that was edited since, is refused, and then nothing is changed. What it wrote stands with its
sums in {SUMS}; sha256sum -c tests them. With --with it copies the crates of these names too, as {CLIENTS}, which
stand on {CRATE}; a later run without them removes them."""


def main(words: list[str]) -> int:
    """Copies; a fault leaves the other repository as it was."""
    parser = Words(prog=NAME, description=ABOUT, formatter_class=argparse.RawDescriptionHelpFormatter)
    parser.add_argument("folder", type=Path, metavar="FOLDER", help=f"the top of the other repository, with its {LIST}")
    parser.add_argument("--with", dest="more", default="", metavar="NAMES", help=f"other crates, as {CLIENTS}")
    options = parser.parse_args(words)
    target, more = options.folder, [name for name in options.more.split(",") if name]
    check_folder(target)
    check_crates(more)
    end_by_exit()
    with Below(target) as below:
        crates, changed = vendor(below, more)
    print(f"{crates} crates stand in {target / CRATES} and in {target / LIST}; {changed} files changed")
    return 0


def check_folder(target: Path) -> None:
    if not target.is_dir():
        raise ToolFault(FILES, f"{target}: no such folder")
    if target.resolve() == ROOT:
        raise ToolFault(FILES, f"{target}: this is the repository that is copied from")


def check_crates(names: list[str]) -> None:
    """Refuses what is no crate that another one may name."""
    for name in names:
        if name not in read_crates(ROOT) or not (ROOT / CRATES / name / "src" / "lib.rt").is_file():
            raise ToolFault(WORDS, f"--with: {name} is no library of {LIST}")


def vendor(below: Below, more: list[str]) -> tuple[int, int]:
    """Lays the crates and their lines; how many crates there are, and how many files changed."""
    before = below.read(LIST)
    if before is None:
        raise ToolFault(FILES, f"{below.top}: no {LIST} is there, so it is not the top of a Rattle repository")
    lines = needed_lines(ROOT, CRATE, *more)
    listed, entries = read_list(below, SUMS, TOPS), entries_of(ROOT, list(lines))
    path = below.path(LIST)
    text = with_lines(path, decoded(before, path), version(), lines, crates_of(listed.files)).encode()
    find_strangers(below, listed, entries)

    def write_lines(new: str) -> None:
        below.write(LIST, new, text, below.mode(LIST))

    return len(lines), sum(lay(below, SUMS, listed, entries, WHO, None if text == before else write_lines))
