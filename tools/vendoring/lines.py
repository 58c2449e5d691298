"""The lines of another repository's crates.txt."""

import re
from pathlib import Path

from common.faults import DATA, ToolFault

LIST = "crates.txt"
BEGIN = re.compile(
    r"# Kuspveli \S+, written by tools/vendor: these lines are written anew by it, up to the next such line\."
)
END = "# Kuspveli ends."


def with_lines(path: Path, text: str, version: str, lines: dict[str, str], vendored: set[str]) -> str:
    """The text of crates.txt with the crates' lines in place of those that were written before, else at its end."""
    before, old, after = parts_of(path, text)
    for line in old:
        if name_of(line) not in {"", *vendored}:
            raise ToolFault(
                DATA, f"{path}: {name_of(line)} stands among the lines that vendor wrote, and is none of them"
            )
    for line in (*before, *after):
        if name_of(line) in lines:
            raise ToolFault(DATA, f"{path}: {name_of(line)} is there already, and vendor did not write it")
    begin = (
        f"# Kuspveli {version}, written by tools/vendor: these lines are written anew by it, up to the next such line."
    )
    gap = [""] if before and before[-1] and not old else []
    return "".join(f"{line}\n" for line in [*before, *gap, begin, *lines.values(), END, *after])


def parts_of(path: Path, text: str) -> tuple[list[str], list[str], list[str]]:
    """The lines before those that vendor wrote, these without their marks, and the lines after them."""
    lines = text.removesuffix("\n").split("\n") if text else []
    begins = [at for at, line in enumerate(lines) if BEGIN.fullmatch(line)]
    ends = [at for at, line in enumerate(lines) if line == END]
    if not begins and not ends:
        return lines, [], []
    if len(begins) != 1 or len(ends) != 1 or ends < begins:
        raise ToolFault(DATA, f"{path}: the first and last line of what vendor wrote are not there once each")
    begin, end = begins[0], ends[0]
    return lines[:begin], lines[begin + 1 : end], lines[end + 1 :]


def name_of(line: str) -> str:
    """The crate that a line is of; the empty name where it is of none."""
    return next(iter(line.split("#")[0].partition(":")[0].split()), "")
