"""Sums of files, and lists of them in the form of sha256sum."""

import hashlib
import re
from pathlib import Path

from common.faults import DATA, ToolFault

LINE = re.compile(r"(?P<sum>[0-9a-f]{64})  (?P<name>[^/].*)")


def sum_of(path: Path) -> str:
    return sum_of_bytes(path.read_bytes())


def sum_of_bytes(text: bytes) -> str:
    return hashlib.sha256(text).hexdigest()


def list_of(sums: dict[str, str]) -> str:
    return "".join(f"{made}  {name}\n" for name, made in sorted(sums.items()))


def read_list(path: Path) -> dict[str, str]:
    """Each file of a list with its sum; none where there is no list."""
    if not path.exists():
        return {}
    lines = path.read_text(encoding="utf-8").splitlines()
    found = [LINE.fullmatch(line) for line in lines]
    for line, match in zip(lines, found):
        if match is None or ".." in Path(match["name"]).parts:
            raise ToolFault(DATA, f"{path}: no sum and name of a file: {line}")
    return {match["name"]: match["sum"] for match in found if match}
