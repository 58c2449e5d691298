"""What a tool lays below a folder that is somebody else's, by a plan.

A list of it stands there, in the form of sha256sum. It is written before the first file, with what stands there and what
is to stand there, so that whatever ends a run, the list has all that the tool wrote. What is listed is removed or
replaced where it still has a sum of the list, and nothing else is. A list may come from somebody else: it is read with
care, and names nothing outside some folders.
"""

import contextlib
import hashlib
import re
from dataclasses import dataclass, field, replace
from pathlib import PurePosixPath
from typing import Callable, Iterable

from common.below import LINK, Below
from common.faults import DATA, ToolFault
from common.files import NEW, new_name

SUM = re.compile(r"(?P<sum>[0-9a-f]{64})  (?P<name>.+)")
# What sha256sum passes over: links, folders that were made, and how many of them above the folder; and of a run that
# hasn't ended the name under which it writes each file first.
NOTED_LINK = re.compile(r"# link (?P<name>.+) -> (?P<target>.+)")
NOTED_FOLDER = re.compile(r"# folder (?P<name>.+)")
NOTED_ABOVE = re.compile(r"# above (?P<count>\d{1,4})")
NOTED_NEW = re.compile(rf"# unfinished (?P<new>{re.escape(NEW)}[0-9a-f]{{32}})")


@dataclass(frozen=True)
class Entry:
    """A file with its mode (as the process has it where there is none), or a link to another path."""

    text: bytes = b""
    mode: int | None = None
    link: str = ""

    @property
    def identity(self) -> str:
        return LINK + self.link if self.link else hashlib.sha256(self.text).hexdigest()


Entries = dict[str, Entry]


@dataclass(frozen=True)
class Tops:
    """The folders below which a list may name files, and how many parts a file's path has at least."""

    names: tuple[str, ...]
    least: int

    def has(self, name: str, least: int | None = None) -> bool:
        parts = name.split("/")
        is_plain = "\0" not in name and not {"", ".", ".."} & set(parts)
        return is_plain and parts[0] in self.names and len(parts) >= (self.least if least is None else least)


@dataclass(frozen=True)
class Listed:
    """What stands in a list: what each path may have, and the folders that were made."""

    files: dict[str, frozenset[str]] = field(default_factory=dict)
    folders: frozenset[str] = frozenset()
    above: int = 0
    new: str = ""
    is_there: bool = False

    def text(self) -> str:
        lines = [f"# unfinished {self.new}"] if self.new else []
        lines += [f"# above {self.above}"] if self.above else []
        lines += [f"# folder {name}" for name in sorted(self.folders)]
        pairs = [(name, one) for name, known in sorted(self.files.items()) for one in sorted(known)]
        lines += [f"# link {name} {one}" for name, one in pairs if one.startswith(LINK)]
        lines += [f"{one}  {name}" for name, one in pairs if not one.startswith(LINK)]
        return "".join(f"{line}\n" for line in lines)


# ---- lists


def read_list(below: Below, name: str, tops: Tops) -> Listed:
    """The list at a path, none where none is there."""
    content = below.read(name)
    if content is None:
        return Listed()
    where = below.path(name)
    files: dict[str, set[str]] = {}
    folders: set[str] = set()
    above, new = 0, ""
    for number, line in enumerate(decoded(content, where).split("\n")[:-1], 1):
        if (found := SUM.fullmatch(line)) and tops.has(found["name"]):
            files.setdefault(found["name"], set()).add(found["sum"])
        elif (found := NOTED_LINK.fullmatch(line)) and tops.has(found["name"]):
            files.setdefault(found["name"], set()).add(LINK + found["target"])
        elif (found := NOTED_FOLDER.fullmatch(line)) and tops.has(found["name"], 1):
            folders.add(found["name"])
        elif found := NOTED_ABOVE.fullmatch(line):
            above = int(found["count"])
        elif found := NOTED_NEW.fullmatch(line):
            new = found["new"]
        else:
            told = f"line {number} is no sum and name of a file below {' or '.join(tops.names)}"
            raise ToolFault(DATA, f"{where}: {told}, and nothing is changed: {line[:200]}")
    return Listed({at: frozenset(known) for at, known in files.items()}, frozenset(folders), above, new, True)


def decoded(content: bytes, where: object) -> str:
    try:
        return content.decode("utf-8")
    except UnicodeDecodeError as error:
        raise ToolFault(DATA, f"{where}: no UTF-8 at byte {error.start}, and nothing is changed") from error


# ---- what is laid


def changed_names(below: Below, entries: Entries) -> list[str]:
    """The entries that are not there, or not as they are to be."""
    return [name for name, entry in entries.items() if not is_same(below, name, entry)]


def is_same(below: Below, name: str, entry: Entry) -> bool:
    if below.identity(name) != entry.identity:
        return False
    return bool(entry.link) or entry.mode is None or below.mode(name) == entry.mode


@dataclass(frozen=True)
class Who:
    """Who lays: the words for what was changed since and for what it didn't write, and how many folders above it made."""

    changed: str
    strange: str
    above: int = 0


def check_strangers(below: Below, listed: Listed, names: list[str], who: Who) -> None:
    """Refuses where something stands that the list doesn't have."""
    for name in names:
        found = below.identity(name)
        if found is not None and found not in listed.files.get(name, ()):
            what = who.changed if name in listed.files else who.strange
            raise ToolFault(DATA, f"{below.path(name)} {what}, and nothing is changed")


def lay(
    below: Below, name: str, listed: Listed, entries: Entries, who: Who, last: Callable[[str], None] | None = None
) -> tuple[int, int]:
    """Lays the entries, with their list at a path, and removes what was listed alone; how many files were written, and
    how many removed. What stands in the way is refused before that. `last` is done before the list is written for good,
    and is given the run's new name."""
    changed, gone = changed_names(below, entries), sorted(listed.files.keys() - entries.keys())
    check_strangers(below, listed, [*changed, *gone], who)
    missing = {each for each in parents_of([name, *changed]) if not below.has_folder(each)}
    made, new = listed.folders | missing, new_name()
    after = Listed({at: frozenset({entry.identity}) for at, entry in entries.items()}, made, listed.above + who.above)
    clear_unfinished(below, listed)
    if not changed and last is None and after.text() == listed.text():
        return 0, 0
    begin(below, name, listed, replace(after, new=new, files={}), missing)
    below.write(name, new, Listed(both(listed, after), made, after.above, new).text().encode())
    for at in changed:
        put(below, at, new, entries[at], listed)
    for at in gone:
        take(below, at, listed)
    for folder in sorted(made & parents_of(gone), reverse=True):
        below.remove_folder(folder)
    if last is not None:
        last(new)
    below.write(name, new, replace(after, folders=frozenset(filter(below.has_folder, made))).text().encode())
    return len(changed), len(gone)


def parents_of(names: Iterable[str]) -> set[str]:
    """The folders of some paths, and those above them."""
    return {str(each) for name in names for each in PurePosixPath(name).parents} - {"."}


def both(before: Listed, after: Listed) -> dict[str, frozenset[str]]:
    none: frozenset[str] = frozenset()
    names = before.files.keys() | after.files.keys()
    return {name: before.files.get(name, none) | after.files.get(name, none) for name in names}


def begin(below: Below, name: str, listed: Listed, begun: Listed, missing: set[str]) -> None:
    """Notes the run's new name in the list, so that nothing has this name that the list doesn't know. Without a list one
    is made, with the folders that it stands in; where that fails they are gone again."""
    if listed.is_there:
        below.append(name, begun.text().partition("\n")[0])
        return
    try:
        with below.folder(str(PurePosixPath(name).parent), is_made=True):
            below.create(name, begun.text().encode())
    except BaseException:
        for folder in sorted(missing, reverse=True):
            below.remove_folder(folder)
        raise


def put(below: Below, name: str, new: str, entry: Entry, listed: Listed) -> None:
    """Writes an entry in the place of nothing, of itself or of what the list has."""
    found = below.identity(name)
    if found not in (None, entry.identity, *listed.files.get(name, ())):
        raise ToolFault(DATA, f"{below.path(name)} was changed meanwhile, and is left")
    with below.folder(str(PurePosixPath(name).parent), is_made=True):
        if entry.link:
            below.link(name, new, entry.link)
        else:
            below.write(name, new, entry.text, entry.mode)


def take(below: Below, name: str, listed: Listed) -> bool:
    """Removes what the list has, where that still stands there; whether it did."""
    is_listed = below.identity(name) in listed.files[name]
    if is_listed:
        below.remove(name)
    return is_listed


def clear_unfinished(below: Below, listed: Listed) -> None:
    """Removes what a run that was ended left under its new name."""
    if listed.new:
        for folder in sorted(parents_of(listed.files) | listed.folders | {"."}):
            with contextlib.suppress(ToolFault):
                below.remove(f"{folder}/{listed.new}")


def take_all(below: Below, name: str, listed: Listed) -> tuple[int, list[str]]:
    """Removes what the list has, the folders that were made where they are empty then, and the list after that; how many
    files were removed, and those that are others now, which are left."""
    there = [at for at in sorted(listed.files) if below.identity(at) is not None]
    clear_unfinished(below, listed)
    left = [at for at in there if not take(below, at, listed)]
    clear_kept(below, listed)
    own = {str(each) for each in PurePosixPath(name).parents}
    for folder in sorted(listed.folders - own, reverse=True):
        below.remove_folder(folder)
    below.remove(name)
    for folder in sorted(listed.folders & own, reverse=True):
        below.remove_folder(folder)
    return len(there) - len(left), left


def clear_kept(below: Below, listed: Listed) -> None:
    """Removes what Python kept of the listed modules in folders that were made."""
    for folder in listed.folders:
        kept = f"{folder}/__pycache__"
        with contextlib.suppress(ToolFault):
            for path in below.files(kept):
                module = PurePosixPath(path).name.partition(".")[0]
                if f"{folder}/{module}.py" in listed.files and str(PurePosixPath(path).parent) == kept:
                    below.remove(path)
            below.remove_folder(kept)
