"""Where rustybuzz's functions and types stand here, by the marks `(rustybuzz: hb/..)` in comments."""

import re
from dataclasses import dataclass
from pathlib import Path
from typing import Iterator

from sources.crates import read_crates

COMMENT = re.compile(r"\s*//(?P<kind>[/!]) ?(?P<text>.*)$")
ITEM = re.compile(
    r"(?P<indent> *)(?P<public>pub )?(?:pub\([a-z ]+\) )?(?:const )?(?:unsafe )?"
    r"(?:fn|struct|enum|trait|type) (?P<name>[A-Za-z_]\w*)"
)
OWNER = re.compile(r"(?:pub )?(?:impl(?:<.*?>)?\s+(?:.* for )?|trait )(?P<owner>[A-Za-z_]\w*)")
MARK = re.compile(r"\((?P<before>[^()]*)rustybuzz: (?P<said>[^()]*)\)")
FILE = re.compile(r"hb/[\w/]+\.rs")
QUOTED = re.compile(r"`([A-Za-z_]\w*)`")
BARE = re.compile(r"\b([a-z]\w*_\w+|[A-Z]\w*_\w+)\b")


@dataclass(frozen=True)
class Port:
    """An item of rustybuzz, by its file there, with the name, file and line that it has here."""

    file: str
    name: str
    here: str
    path: Path
    line: int


@dataclass(frozen=True)
class Mark:
    """What a comment says of rustybuzz: its files, and names in them."""

    files: tuple[str, ...]
    names: tuple[tuple[str, str], ...]


@dataclass(frozen=True)
class Item:
    """An item of code, with the comment before it."""

    name: str
    owner: str
    is_public: bool
    line: int
    comment: str


def code_of(root: Path) -> Iterator[tuple[str, Path]]:
    for crate in read_crates(root):
        for path in sorted((root / "crates" / crate / "src").rglob("*.rt")):
            yield crate, path


def ports(root: Path) -> Iterator[Port]:
    """Each port, in the order of the crates and of their files."""
    for _, path in code_of(root):
        heading, items = read_code(path.read_text(encoding="utf-8"))
        mark = mark_of(heading)
        if mark.files:
            yield from ports_of(path, mark, items)


def ports_of(path: Path, mark: Mark, items: list[Item]) -> Iterator[Port]:
    """The ports of a file: its public items, and what its heading and its items' comments name."""
    named = {name: file for file, name in mark.names}
    met: set[str] = set()
    for item in items:
        own = mark_of(item.comment)
        for file, name in own.names:
            met.add(name)
            yield Port(file or mark.files[0], name, item.name, path, item.line)
        if not own.names and (item.is_public or item.name in named):
            met.add(item.name)
            yield Port(named.get(item.name, (own.files or mark.files)[0]), item.name, item.name, path, item.line)
    for file, name in mark.names:
        if name not in met:
            yield Port(file, name, "", path, 1)


def unmarked(root: Path) -> Iterator[tuple[Path, Item]]:
    """The public items of files whose heading names no file of rustybuzz, nor says that it has none."""
    for _, path in code_of(root):
        heading, items = read_code(path.read_text(encoding="utf-8"))
        if not mark_of(heading).files and "rustybuzz" not in heading:
            for item in items:
                if item.is_public and not mark_of(item.comment).files:
                    yield path, item


def mark_of(comment: str) -> Mark:
    """The files and names of a comment's marks; without a name in a mark, those that its sentence has before it."""
    files: list[str] = []
    names: list[tuple[str, str]] = []
    for found in MARK.finditer(comment):
        file = ""
        for said in re.split(r"[;,] ", found["said"]):
            of = FILE.search(said)
            if of:
                file = of[0]
                files.append(file)
            names += [(file, name) for name in QUOTED.findall(said) or (not of and BARE.findall(said)) or []]
        if not names and file:
            sentence = re.split(r"[.:] ", comment[: found.start()])[-1]
            names += [(file, name) for name in BARE.findall(sentence)]
    return Mark(tuple(files), tuple(dict.fromkeys(names)))


def read_code(text: str) -> tuple[str, list[Item]]:
    """A file's heading, and its calls and types at most one block deep, with their comments; no laws."""
    heading: list[str] = []
    comment: list[str] = []
    items: list[Item] = []
    owner = ""
    for number, line in enumerate(text.splitlines(), 1):
        said = COMMENT.match(line)
        if said:
            (heading if said["kind"] == "!" else comment).append(said["text"])
            continue
        if line.lstrip().startswith("#["):
            continue
        block = OWNER.match(line)
        item = ITEM.match(line)
        if item and len(item["indent"]) <= 4 and not item["name"].startswith("law_"):
            inner = owner if item["indent"] else ""
            is_public = bool(item["public"]) or line.startswith("    fn") and owner.startswith("trait ")
            items.append(Item(item["name"], inner.removeprefix("trait "), is_public, number, " ".join(comment)))
        if block and not line.startswith(" "):
            owner = ("trait " if "trait " in line.split(block["owner"])[0] else "") + block["owner"]
        elif line.startswith("}"):
            owner = ""
        comment = []
    return " ".join(heading), items
