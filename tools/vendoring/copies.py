"""The files of crates in another repository: what stands there, and what is laid."""

from pathlib import Path

from common.below import LINK, OTHER, Below
from common.faults import DATA, ToolFault
from common.plan import Entries, Entry, Listed, Tops, Who

# A crate without what is the gate's alone: must-fail edits, and what a program is run on.
PARTS = ("src", "specs", "proofs")
CRATES = "crates"
OWN = f"{CRATES}/kuspveli"
SUMS = f"{OWN}/vendored.sha256"
# A list names files of crates alone.
TOPS = Tops((CRATES,), 3)
WHO = Who("was edited since vendor wrote it", "was not written by vendor")
# What rt makes in a crate's folder.
MADE = "out"


def entries_of(root: Path, names: list[str]) -> Entries:
    """The files to lay, by their paths in the other repository: those of the crates, and the licence."""
    found = {f"{OWN}/LICENSE": Entry((root / "LICENSE").read_bytes())}
    for name in names:
        for part in PARTS:
            for path in sorted((root / CRATES / name / part).rglob("*")):
                if path.is_file():
                    found[str(path.relative_to(root))] = Entry(path.read_bytes())
    return found


def crates_of(names: Entries | dict[str, frozenset[str]]) -> set[str]:
    """The crates of paths, whose second part they are."""
    return {name.split("/")[1] for name in names}


def find_strangers(below: Below, listed: Listed, entries: Entries) -> None:
    """Refuses where a crate's folder has what vendor didn't write. What it wrote has a sum of its list, or is the same as
    what it would write now. After a run that was ended a file may be missing."""
    vendored = crates_of(listed.files)
    for crate in sorted(crates_of(entries) | vendored):
        for name in below.files(f"{CRATES}/{crate}"):
            if is_own(name, listed) and not is_known(below.identity(name), name, listed, entries):
                what = WHO.changed if crate in vendored else WHO.strange
                raise ToolFault(DATA, f"crates/{crate} {what}, and nothing is changed: {below.path(name)}")
    for name in sorted(listed.files.keys() & entries.keys()) if not listed.new else ():
        if below.identity(name) is None:
            raise ToolFault(DATA, f"{below.path(name)} is gone since vendor wrote it, and nothing is changed")


def is_own(name: str, listed: Listed) -> bool:
    """Whether a file is the crate's: not vendor's list, nor of what rt makes, nor what a run of vendor left."""
    _, _, *parts = name.split("/")
    return name != SUMS and parts[0] != MADE and (not listed.new or parts[-1] != listed.new)


def is_known(found: str | None, name: str, listed: Listed, entries: Entries) -> bool:
    if found is None or found == OTHER or found.startswith(LINK):
        return False
    return found in listed.files.get(name, ()) or (name in entries and found == entries[name].identity)
