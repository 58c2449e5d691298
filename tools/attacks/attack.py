"""What an attack is: files of a size, and the answers that are right for them."""

import json
from dataclasses import dataclass
from typing import Any, Callable

Value = dict[str, Any]
OK = frozenset({"ok"})
FORMAT = frozenset({"J1 NotJson", "J2 WrongShape", "J3 FloatNumber", "J4 UnknownName"})


@dataclass(frozen=True)
class Files:
    """Tables and a font (values or bytes), a text, and options."""

    font: Value | bytes
    text: str | bytes
    tables: Value | bytes = b"{}"
    options: tuple[str, ...] = ()

    def contents(self) -> tuple[bytes, bytes, bytes]:
        """The bytes of tables, font and text."""
        return as_bytes(self.tables), as_bytes(self.font), as_bytes(self.text)


@dataclass(frozen=True)
class Attack:
    """Files that grow with a size; the first size, of which twice and four times are taken too; right answers.

    Where `line` is given, it says from the size what the line begins and ends with.
    """

    name: str
    size: int
    files: Callable[[int], Files]
    answers: frozenset[str] = OK
    line: Callable[[int], tuple[str, str]] | None = None


def as_bytes(part: Value | bytes | str) -> bytes:
    if isinstance(part, bytes):
        return part
    return part.encode("utf-8") if isinstance(part, str) else json.dumps(part, separators=(",", ":")).encode("utf-8")


def font(letters: str, gsub: Value | None = None, gpos: Value | None = None, **keys: Any) -> Value:
    """A font whose glyphs are the letters from 1 on, each of width 500."""
    cmap = sorted([ord(letter), at + 1] for at, letter in enumerate(letters))
    value: Value = {"upem": 1000, "ascender": 800, "cmap": cmap, "h": [[at + 1, 500] for at in range(len(letters))]}
    value.update(keys)
    for key, part in (("gsub", gsub), ("gpos", gpos)):
        if part is not None:
            value[key] = part
    return value


def table(feature: str, lookups: list[Value], used: list[int] | None = None) -> Value:
    """A table with one feature; it has the first lookup unless others are named."""
    features = [[feature, [0] if used is None else used]]
    return {"scripts": [["DFLT", {"features": [0]}, []]], "features": features, "lookups": lookups}


def lookup(kind: str, *subtables: Any, flags: int = 0) -> Value:
    return {"type": kind, "flags": flags, "subtables": list(subtables)}


def rules(*given: list[Any]) -> Value:
    """A context by glyphs; a rule is what stands before it, the input, what follows, and nested records."""
    return {"format": "glyphs", "rules": list(given)}
