"""Documents that tools make: whole ones, which may be checked, and the part of one between two lines."""

import argparse
import sys
from difflib import unified_diff
from itertools import islice
from pathlib import Path
from textwrap import wrap
from typing import Any

from common.faults import DATA, ToolFault
from common.files import write_file
from common.printing import emit

WIDTH = 120
# How many lines that differ are told.
SHOWN = 20


def add_modes(parser: argparse.ArgumentParser) -> Any:
    """The words for what is done with a document that was made; without one it is written."""
    modes = parser.add_mutually_exclusive_group()
    modes.add_argument("--check", action="store_true", help="change nothing, and end with 1 where the file is another")
    modes.add_argument("--print", action="store_true", help="write the document on standard output instead")
    return modes


def deliver(tool: str, path: Path, made: str, modes: argparse.Namespace) -> int:
    """Writes a document, prints it, or tells what differs; the status is 1 where it does."""
    if modes.print:
        emit(made)
        return 0
    if modes.check:
        return check(tool, path, made)
    write_file(path, made)
    return 0


def check(tool: str, path: Path, made: str) -> int:
    """0 where the file is what the tool makes, else 1 with the first lines that differ."""
    found = path.read_text(encoding="utf-8") if path.exists() else ""
    if found == made:
        return 0
    name = f"{path.parent.name}/{path.name}"
    differing = unified_diff(found.splitlines(), made.splitlines(), name, "made now", lineterm="", n=0)
    for line in islice(differing, SHOWN):
        print(line)
    print(f"{tool}: {name} is not what tools/{tool} makes: run it, and commit the file", file=sys.stderr)
    return 1


def wrapped(text: str) -> list[str]:
    """A sentence or an item of a list in lines of a document's width."""
    indent = "  " if text.startswith("- ") else ""
    return wrap(text, WIDTH, subsequent_indent=indent, break_long_words=False, break_on_hyphens=False)


def table_lines(rows: list[list[str]]) -> list[str]:
    """A table in Markdown, whose first row is its head."""
    head, *rest = rows
    return [f"| {' | '.join(cells)} |" for cells in (head, ["---"] * len(head), *rest)]


def replace_part(path: Path, begin: str, end: str, lines: list[str]) -> None:
    """Puts lines between two lines of a document, in place of what stands there."""
    text = path.read_text(encoding="utf-8")
    if text.count(begin) != 1 or text.count(end) != 1 or text.index(begin) > text.index(end):
        raise ToolFault(DATA, f"{path}: the lines {begin} and {end} don't stand there once each, in this order")
    before, after = text.partition(begin)[0], text.partition(end)[2]
    write_file(path, "\n".join([f"{before}{begin}", "", *lines, "", f"{end}{after}"]))
