"""The lemmas of specs/ and proofs/: their statements, and who names them."""

import re
from collections import Counter
from dataclasses import dataclass
from pathlib import Path
from typing import Iterator

from sources.crates import read_crates

FOLDERS = ("specs", "proofs")
# Files that belong to one function, or have lemmas that are computed examples.
OWN_FILES = ("Answers", "Invariants", "Proof")
EXAMPLES = "Examples"
DEFINITION = re.compile(r"(?:pub )?(?:abbrev|unfoldable|record|data)\b")
SIGNATURE = re.compile(r"(?:pub )?([^\W\d][\w'-]*) :(?= |$)")
USE = re.compile(r"use ([\w.]+)\.\{(.*)\}$")
WORD = re.compile(r"[^\W\d][\w']*")
NAME = re.compile(r"[^\W\d][\w'-]*")
TOKEN = re.compile(r"[^\W\d][\w']*|\d+|[^\s\w]")
BINDER = re.compile(r"[({]([^\W\d][\w' ]*) :|λ ([^.]*)\.")
GROUP = re.compile(r"([({]) ((?:#\d+ )+): ([^(){}]*?) ([)}])")
KIT = "Rattle.std"
CLOSING = ")]}"


@dataclass(frozen=True)
class Lemma:
    """A statement with its proof, in a file of a crate."""

    crate: str
    path: Path
    line: int
    name: str
    # The statement without the names of its variables, and with the modules of the names in it.
    statement: str
    # The lines of the whole, with the comment above it.
    lines: int
    # How often its own text has its name.
    own_words: int


def antt_files(root: Path) -> Iterator[tuple[str, Path]]:
    """The files of specs/ and proofs/, crate by crate."""
    for crate in read_crates(root):
        for folder in FOLDERS:
            for path in sorted((root / "crates" / crate / folder).rglob("*.antt")):
                yield crate, path


def lemmas_of(root: Path) -> list[Lemma]:
    return [lemma for crate, path in antt_files(root) for lemma in lemmas_in(root, crate, path)]


def lemmas_in(root: Path, crate: str, path: Path) -> Iterator[Lemma]:
    """The lemmas of a file."""
    lines = path.read_text(encoding="utf-8").splitlines()
    module = ".".join(["Rattle", *path.relative_to(root / "crates").with_suffix("").parts])
    names = imported(lines)
    own = {found[1] for found in map(SIGNATURE.match, lines) if found} | {
        word for line in lines if DEFINITION.match(line) for word in WORD.findall(line)
    }
    for number, line in enumerate(lines):
        found = SIGNATURE.match(line)
        if found is None or DEFINITION.match(line):
            continue
        end = end_of(lines, number, found[1])
        head = number + 1
        while head < end and lines[head][:1].isspace():
            head += 1
        text = " ".join([line[found.end() :], *lines[number + 1 : head]])
        words = Counter(NAME.findall("\n".join(lines[number:end])))
        above = comment_above(lines, number)
        yield Lemma(crate, path, number + 1, found[1], statement(text, names, own, module), end - number + above, words[found[1]])


def end_of(lines: list[str], number: int, name: str) -> int:
    """The line after a lemma's equations."""
    again = re.compile(re.escape(name) + r"(?![\w'])")
    end = number + 1
    while end < len(lines):
        line = lines[end]
        if line.strip() and not line[0].isspace() and line[0] not in CLOSING and not again.match(line):
            break
        end += 1
    while not lines[end - 1].strip():
        end -= 1
    return end


def comment_above(lines: list[str], number: int) -> int:
    """How many lines of comment stand above a line."""
    first = number
    while first > 0 and lines[first - 1].startswith("--") and not lines[first - 1].startswith("-- ----"):
        first -= 1
    return number - first


def imported(lines: list[str]) -> dict[str, str]:
    """The full name of each name that a file brings in; the kit's own names stay as they are."""
    names: dict[str, str] = {}
    for line in lines:
        used = USE.match(line)
        if used is None:
            continue
        for part in used[2].split(","):
            old, _, new = part.strip().partition(" as ")
            names[new or old] = old if used[1].startswith(KIT) else f"{used[1]}.{old}"
    return names


def statement(text: str, names: dict[str, str], own: set[str], module: str) -> str:
    """A statement in which variables are numbered and other names are full."""
    text = re.sub(r"--.*", "", text)
    bound = {word for found in BINDER.findall(text) for word in WORD.findall(found[0] or found[1])}
    numbers: dict[str, str] = {}
    tokens = []
    for token in TOKEN.findall(text):
        if token in bound:
            tokens.append(numbers.setdefault(token, f"#{len(numbers)}"))
        elif token in names:
            tokens.append(names[token])
        else:
            tokens.append(f"{module}.{token}" if token in own else token)
    return re.sub(r"([)}]) ([({]) #", r"\1 → \2 #", GROUP.sub(one_by_one, " ".join(tokens)))


def one_by_one(group: re.Match[str]) -> str:
    """Variables of one type, each with its type."""
    left, variables, kind, right = group.groups()
    return " → ".join(f"{left} {variable} : {kind} {right}" for variable in variables.split())


def repeated(lemmas: list[Lemma]) -> list[list[Lemma]]:
    """The lemmas with the same statement, where there are several: not those of functions, and no examples."""
    groups: dict[str, list[Lemma]] = {}
    for lemma in filter(is_shared, lemmas):
        groups.setdefault(lemma.statement, []).append(lemma)
    return [group for group in groups.values() if len(group) > 1]


def unnamed(root: Path, lemmas: list[Lemma]) -> list[Lemma]:
    """The lemmas whose name stands nowhere but in their own text: not those of functions, and no examples."""
    words: Counter[str] = Counter()
    for crate in read_crates(root):
        folder = root / "crates" / crate
        for part in (*FOLDERS, "src", "must-fail"):
            for path in (folder / part).rglob("*.*"):
                if path.suffix in (".antt", ".rt", ".edit"):
                    words.update(NAME.findall(path.read_text(encoding="utf-8")))
    return [lemma for lemma in lemmas if words[lemma.name] == lemma.own_words and is_shared(lemma)]


def is_shared(lemma: Lemma) -> bool:
    return EXAMPLES not in lemma.path.stem and lemma.path.stem not in OWN_FILES


def lines_in_specs(root: Path, lemmas: list[Lemma]) -> list[tuple[str, int, int]]:
    """Each crate with the lines of its specs/, and how many of them are lemmas'."""
    counts = []
    for crate in read_crates(root):
        specs = root / "crates" / crate / "specs"
        lines = sum(len(path.read_text(encoding="utf-8").splitlines()) for path in specs.rglob("*.antt"))
        of_lemmas = sum(lemma.lines for lemma in lemmas if lemma.crate == crate and specs in lemma.path.parents)
        counts.append((crate, lines, of_lemmas))
    return counts
