"""The crates of crates.txt, with what each is built on."""

import re
from pathlib import Path

from common.faults import DATA, ToolFault

ROOT = Path(__file__).parent.parent.parent
TEST = re.compile(r"^\s*#\[test\]", re.MULTILINE)


def read_crates(root: Path = ROOT) -> dict[str, list[str]]:
    """Each crate with the names of its libraries, in the order of crates.txt."""
    crates: dict[str, list[str]] = {}
    for number, line in enumerate((root / "crates.txt").read_text(encoding="utf-8").splitlines(), 1):
        text = line.split("#")[0].strip()
        if text:
            head, colon, needed = text.partition(":")
            if not colon or not head.split():
                raise ToolFault(DATA, f"crates.txt: line {number}: no crate with a colon after its name: {text}")
            # After the name there may be what it is (staticlib), or what its tests may do.
            crates[head.split()[0]] = needed.split()
    return crates


def own_needs(crates: dict[str, list[str]]) -> dict[str, list[str]]:
    """Of what each crate is built on, the crates of the repository."""
    return {name: [needed for needed in needs if needed in crates] for name, needs in crates.items()}


def all_needs(name: str, crates: dict[str, list[str]]) -> list[str]:
    """A crate and all that it is built on, each after what it is built on itself."""
    needs = own_needs(crates)
    if name not in needs:
        raise ToolFault(DATA, f"crates.txt: no crate {name!r}")
    ordered: list[str] = []
    met: set[str] = set()

    def visit(crate: str) -> None:
        if crate not in met:
            met.add(crate)
            for needed in needs[crate]:
                visit(needed)
            ordered.append(crate)

    visit(name)
    return ordered


def tested_crates(root: Path = ROOT) -> list[str]:
    """The crates that have tests."""
    return [crate for crate in read_crates(root) if has_tests(root / "crates" / crate)]


def has_tests(folder: Path) -> bool:
    return any(TEST.search(path.read_text(encoding="utf-8")) for path in (folder / "src").rglob("*.rt"))
