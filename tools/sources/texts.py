"""Names and comments of code and specs, and the sentences of documents, each with its line."""

import re
from dataclasses import dataclass
from pathlib import Path
from typing import Iterator

from sources.crates import read_crates

CODE_NAME = re.compile(r"\b(?:fn|struct|enum|trait|type|const|static|mod)\s+(?P<name>[A-Za-z_]\w*)")
CODE_FIELD = re.compile(r"^\s+(?:pub(?:\([a-z]+\))? )?(?P<name>[a-z_]\w*): ")
SPEC_NAME = re.compile(
    r"^(?:(?:abbrev|pub|record|data|unfoldable) )*(?P<name>[A-Za-z_]\w*)(?= [:({]| :)|^\s+(?:pub )?(?P<field>\w+) : "
)
SPEC_WORDS = ("abbrev", "pub", "record", "data", "unfoldable", "use", "mod", "class", "def", "mutual", "syntax")
DOCUMENTS = ("README.md", "CONTRIBUTING.md", "docs/*.md")


@dataclass(frozen=True)
class Said:
    """A name or a piece of prose on a line; of prose, what stands around it decides what it speaks of."""

    path: Path
    line: int
    crate: str
    is_name: bool
    text: str
    around: str


def code_files(root: Path) -> Iterator[tuple[str, Path]]:
    """Each crate's files of code and specs, in the order of crates.txt."""
    for crate in read_crates(root):
        for folder, ending in (("src", "*.rt"), ("specs", "*.antt")):
            for path in sorted((root / "crates" / crate / folder).rglob(ending)):
                yield crate, path


def documents(root: Path) -> Iterator[Path]:
    for pattern in DOCUMENTS:
        yield from sorted(root.glob(pattern))


def said_in_code(crate: str, path: Path) -> Iterator[Said]:
    """The names that a file declares, and its comments."""
    text = path.read_text(encoding="utf-8")
    is_code = path.suffix == ".rt"
    mark = "//" if is_code else "--"
    for number, line in enumerate(text.splitlines(), 1):
        code, found, comment = line.partition(mark)
        if found and not inside_text(code):
            yield Said(path, number, crate, False, comment.lstrip("/!-").strip(), text)
        else:
            code = line
        for name in code_names(code) if is_code else spec_names(code):
            yield Said(path, number, crate, True, name, text)


def inside_text(code: str) -> bool:
    """Whether a line so far ends inside a string."""
    return code.count('"') % 2 == 1


def code_names(line: str) -> Iterator[str]:
    for found in CODE_NAME.finditer(line):
        yield found["name"]
    field = CODE_FIELD.match(line)
    if field:
        yield field["name"]


def spec_names(line: str) -> Iterator[str]:
    found = SPEC_NAME.match(line)
    if found:
        name = found["name"] or found["field"]
        if name not in SPEC_WORDS:
            yield name


def said_in_document(root: Path, path: Path) -> Iterator[Said]:
    """The lines of a document without what is quoted as code; around each stands its paragraph."""
    lines = path.read_text(encoding="utf-8").splitlines()
    for number, line in enumerate(lines, 1):
        if not line.startswith("    "):
            yield Said(path, number, "documents", False, re.sub(r"`[^`]*`", "", line), paragraph(lines, number - 1))


def paragraph(lines: list[str], at: int) -> str:
    """The lines around one, up to empty ones; of a table its row."""
    if lines[at].startswith("|"):
        return lines[at]
    first = last = at
    while first > 0 and lines[first - 1].strip():
        first -= 1
    while last + 1 < len(lines) and lines[last + 1].strip():
        last += 1
    return "\n".join(lines[first : last + 1])
