"""Words and names that stand where they should not."""

import re
from collections import defaultdict
from dataclasses import dataclass
from pathlib import Path
from typing import Iterator

from sources.document import unclear
from sources.reach import Sources
from sources.specs import Definition
from sources.texts import Said, code_files, documents, said_in_code, said_in_document

DATA = Path(__file__).parent / "data" / "words.txt"
# The class of a hit, and the words that make one.
WORDS = {
    "behind": ("behind", "ahead"),
    "hang": ("hang", "hangs", "hung", "hanging"),
    "goes": ("go", "goes", "went", "gone"),
    "tell": ("tell", "tells", "told", "telling"),
    "place": ("place", "places"),
    "stretch": ("stretch", "stretches", "stretched"),
}
# Phrases of prose that are hits as they stand.
PHRASES = {"many": re.compile(r"\bso many\b", re.IGNORECASE)}
NAMES = ("participle", "law", "comment", "header", "meaning")
CLASSES = (*WORDS, *PHRASES, *NAMES)
PART_OF_NAME = re.compile(r"[A-Z]?[a-z0-9]+|[A-Z]+(?![a-z])")
LAW = re.compile(r"^pub(?:\(crate\))? fn (\w+)(?:<[^(]*>)?\(\)\s*\n\s*(?:requires|ensures)\b", re.MULTILINE)


@dataclass(frozen=True)
class Hit:
    kind: str
    path: Path
    line: int
    crate: str
    word: str
    text: str


class Lists:
    """What is passed over, and lists of words, from the data file."""

    def __init__(self, text: str) -> None:
        self.passed: dict[str, list[re.Pattern[str]]] = defaultdict(list)
        self.words: dict[str, list[str]] = defaultdict(list)
        # Names that mean what they mean in one crate.
        self.homes: dict[str, str] = {}
        for line in text.splitlines():
            if line.startswith("#") or not line.strip():
                continue
            name, mark, rest = re.split(r"\s*([:=@])\s*", line, maxsplit=1)
            if mark == "@":
                self.homes.update({one: rest for one in name.split()})
            elif mark == ":":
                self.passed[name].append(re.compile(rest, re.IGNORECASE))
            else:
                self.words[name].extend(rest.split())

    def has_any(self, name: str, text: str) -> bool:
        """Whether a text has a word of a list."""
        return any(re.search(rf"(?<!\w){re.escape(word)}(?!\w)", text) for word in self.words[name])

    def is_participle(self, name: str) -> bool:
        """Whether a name is a participle alone, or with what is no noun after it; a constant in capitals is none."""
        if name.isupper():
            return False
        words = [word.lower() for word in PART_OF_NAME.findall(name)]
        particles = self.words["particles"]
        return bool(words) and self.is_one(words[0]) and all(w in particles or self.is_one(w) for w in words[1:])

    def is_one(self, word: str) -> bool:
        if word in self.words["nouns"]:
            return False
        return word.endswith("ed") or word in self.words["participles"]


def find(root: Path, lists: Lists) -> Iterator[Hit]:
    """All hits: by words in names and prose, and by the form of names and files."""
    for crate, path in code_files(root):
        for said in said_in_code(crate, path):
            yield from by_words(said, lists)
        if path.suffix == ".rt":
            yield from by_form(crate, path)
    for path in documents(root):
        for said in said_in_document(root, path):
            yield from by_words(said, lists)
    yield from by_definition(Sources(root), lists)


def by_words(said: Said, lists: Lists) -> Iterator[Hit]:
    if said.is_name:
        if lists.homes.get(said.text, said.crate) != said.crate:
            yield Hit("meaning", said.path, said.line, said.crate, said.text, f"means that of {lists.homes[said.text]}")
    else:
        for kind, phrase in PHRASES.items():
            for found in phrase.findall(said.text):
                yield Hit(kind, said.path, said.line, said.crate, found, said.text)
    for kind, words in WORDS.items():
        found = list(hits_in(said, words, lists.passed[kind]))
        if found and not is_known(kind, said, lists):
            for word in found:
                yield Hit(kind, said.path, said.line, said.crate, word, said.text)


def is_known(kind: str, said: Said, lists: Lists) -> bool:
    """Whether the file or paragraph speaks of what the word is for."""
    if kind == "behind":
        named = "cursor_in_documents" if said.path.suffix == ".md" else "cursor"
        return lists.has_any(named, said.around)
    return kind == "stretch" and lists.has_any("stretching", said.around)


def hits_in(said: Said, words: tuple[str, ...], passed: list[re.Pattern[str]]) -> Iterator[str]:
    text = said.text
    if not any(word in text.lower() for word in words):
        return
    if said.is_name:
        if any(pattern.fullmatch(text) for pattern in passed):
            return
        yield from (part for part in map(str.lower, PART_OF_NAME.findall(text)) if part in words)
        return
    for pattern in passed:
        text = pattern.sub(" ", text)
    yield from (word for word in re.findall(r"[a-z]+", text.lower()) if word in words)


def by_form(crate: str, path: Path) -> Iterator[Hit]:
    """Laws under another name, and files without a heading."""
    text = path.read_text(encoding="utf-8")
    if not re.search(r"^//!", text, re.MULTILINE):
        yield Hit("header", path, 1, crate, path.name, "no line with //! says what the file has")
    for law in LAW.finditer(text):
        if not law[1].startswith("law_") and "#[test]" not in attributes(text, law.start()):
            line = text.count("\n", 0, law.start()) + 1
            yield Hit("law", path, line, crate, law[1], "a law that is not named law_..")


def attributes(text: str, start: int) -> str:
    """The lines right above an item, up to an empty one or a brace."""
    above = text[:start].rsplit("\n\n", 1)[-1]
    return above.rsplit("}\n", 1)[-1]


def by_definition(sources: Sources, lists: Lists) -> Iterator[Hit]:
    for module in sources.modules.values():
        for one in module.definitions.values():
            if not one.is_lemma and lists.is_participle(one.place.name):
                yield of_definition("participle", one, one.comment or "a participle, where a definition is a noun")
    for one, why in unclear(sources):
        yield of_definition("comment", one, why)


def of_definition(kind: str, one: Definition, text: str) -> Hit:
    return Hit(kind, one.path, one.line, one.place.crate, one.place.name, text)
