"""The functions of the crates' code: their names, their answers, whose methods they are, and what they call."""

import re
from dataclasses import dataclass, field
from pathlib import Path
from typing import Iterator

from sources.crates import ROOT, read_crates

# What is no code: comments, texts, raw texts and characters.
PASSED = re.compile(r'//[^\n]*|/\*.*?\*/|r#".*?"#|"(?:\\.|[^"\\])*"|\'(?:\\.[^\']*|[^\'\\])\'', re.DOTALL)
FUNCTION = re.compile(r"\bfn\s+(\w+)\s*")
OWNER = re.compile(r"\b(?:impl|trait)\b[^{;]*", re.DOTALL)
TEST = re.compile(r"#\[test\]\s*(?:#\[[^\]]*\]\s*)*(?:pub\s+)?$")
PUBLIC = re.compile(r"\bpub\s*(?:const\s+)?$")
NAME = re.compile(r"[A-Za-z_]\w*")
WORD = re.compile(r"[A-Za-z_]\w*|::<[^<>]*>|::|\.\.|\.")
USED = re.compile(r"^\s*(?:pub(?:\([^)]*\))?\s+)?use\s+([^;]*);", re.MULTILINE)
TYPE = re.compile(r"\b(?:enum|struct)\s+(\w+)[^{;(]*([{(;])")
OPENING, CLOSING = "([{", ")]}"


@dataclass(frozen=True)
class Function:
    """A function with the crate and the file that it stands in, the names in its body with what stands before them, and
    the names that its file imports, each with the crate that it is imported from."""

    crate: str
    path: str
    owner: str
    name: str
    is_public: bool
    is_test: bool
    parameters: str
    answer: str
    names: frozenset[tuple[str, str]] = field(repr=False)
    used: frozenset[tuple[str, str]] = field(repr=False)

    def shown(self) -> str:
        return f"{self.crate}: {self.owner}::{self.name}" if self.owner else f"{self.crate}: {self.name}"


def blanked(text: str) -> str:
    """The text with comments, texts and characters as spaces, so that each index stays."""
    return PASSED.sub(lambda found: re.sub(r"[^\n]", " ", found[0]), text)


def closing(text: str, at: int) -> int:
    """The index after the bracket that closes the one at an index."""
    depth = 0
    for index in range(at, len(text)):
        if text[index] in OPENING:
            depth += 1
        elif text[index] in CLOSING:
            depth -= 1
            if depth == 0:
                return index + 1
    return len(text)


def after_generics(text: str, at: int) -> int:
    """The index after a list of type parameters, if one stands there."""
    if text[at : at + 1] != "<":
        return at
    depth = 0
    for index in range(at, len(text)):
        if text[index] == "<":
            depth += 1
        elif text[index] == ">" and text[index - 1] not in "-=":
            depth -= 1
            if depth == 0:
                return index + 1
    return len(text)


def functions_in(crate: str, path: Path, root: Path = ROOT) -> Iterator[Function]:
    """The functions of a file."""
    text = blanked(path.read_text(encoding="utf-8"))
    owners = list(owners_of(text))
    used = frozenset(pair for line in USED.findall(text) for pair in imported(crate, NAME.findall(line)))
    for found in FUNCTION.finditer(text):
        start = after_generics(text, found.end())
        if text[start : start + 1] != "(":
            continue
        end = closing(text, start)
        answer, body = answer_and_body(text, end)
        owner = next((name for low, high, name in owners if low < found.start() < high), "")
        before = text[: found.start()]
        yield Function(
            crate,
            str(path.relative_to(root)),
            owner,
            found[1],
            PUBLIC.search(before) is not None,
            TEST.search(before) is not None,
            " ".join(text[start + 1 : end - 1].split()),
            answer,
            frozenset(names_in(body)),
            used,
        )


def imported(crate: str, names: list[str]) -> Iterator[tuple[str, str]]:
    """The names of an import, each with the crate that the import begins with."""
    source = crate if names and names[0] in ("crate", "self", "super") else "".join(names[:1])
    return ((source, name) for name in names[1:])


def names_in(body: str) -> Iterator[tuple[str, str]]:
    """Each name with what stands before it: a point, the name of a type or a module, or nothing."""
    words = [word for word in WORD.findall(body) if not word.startswith("::<")]
    for at, word in enumerate(words):
        if NAME.fullmatch(word):
            before = words[at - 1] if at else ""
            if before == "::":
                yield words[at - 2] if at > 1 else "", word
            else:
                yield "." if before == "." else "", word


def owners_of(text: str) -> Iterator[tuple[int, int, str]]:
    """Where the bodies of impls and traits begin and end, with the name of the type or the trait."""
    for found in OWNER.finditer(text):
        if text[found.end() : found.end() + 1] != "{":
            continue
        head = found[0].split(" where ")[0]
        head = head.split(" for ")[-1] if " for " in head else re.sub(r"^\w+\s*", "", head)
        head = head[after_generics(head.strip(), 0) :].strip() if head.strip().startswith("<") else head.strip()
        name = NAME.search(head.lstrip("&"))
        yield found.end(), closing(text, found.end()), name[0] if name else ""


def answer_and_body(text: str, at: int) -> tuple[str, str]:
    """The type that a function answers, and its body; between them stand clauses, each with a group of its own."""
    index = at
    words: list[str] = []
    answer = None
    while index < len(text):
        if text[index] in "([":
            # An array's type has a semicolon of its own.
            index = closing(text, index)
            continue
        if text[index] == ";":
            return plain(answer if answer is not None else text[at:index]), ""
        if text[index] == "{":
            end = closing(text, index)
            head = text[at:index]
            words = head.split()
            clause = next((k for k, word in enumerate(words) if word in ("requires", "ensures", "decreases")), None)
            if answer is None:
                answer = re.split(r"\b(?:requires|ensures|decreases|where)\b", head)[0]
            if clause is None:
                return plain(answer), text[index:end]
            at = index = end
            continue
        index += 1
    return plain(answer or ""), ""


def plain(answer: str) -> str:
    """A type without the arrow before it."""
    return " ".join(answer.split()).removeprefix("->").strip()


def all_functions(root: Path = ROOT) -> list[Function]:
    """The functions of all crates."""
    return [
        function
        for crate in read_crates(root)
        for path in sorted((root / "crates" / crate / "src").rglob("*.rt"))
        for function in functions_in(crate, path, root)
    ]


def faults_of_memory(root: Path = ROOT) -> set[str]:
    """The names of the types of errors that want of memory may be, or that hold such a type."""
    bodies: dict[str, str] = {}
    for crate in read_crates(root):
        for path in sorted((root / "crates" / crate / "src").rglob("*.rt")):
            text = blanked(path.read_text(encoding="utf-8"))
            for found in TYPE.finditer(text):
                if found[2] != ";":
                    bodies[found[1]] = text[found.end() - 1 : closing(text, found.end() - 1)]
    faults = {"AllocError", "AllocFailed"} | {name for name, body in bodies.items() if re.search(r"\bOutOfMemory\b", body)}
    while True:
        more = {name for name, body in bodies.items() if name.endswith(("Fault", "Unread")) and faults & set(NAME.findall(body))}
        if more <= faults:
            return faults
        faults |= more
