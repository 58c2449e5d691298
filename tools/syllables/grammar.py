"""Reading a grammar: names for expressions over categories, and an expression for each kind of syllable.

    grammar = line*
    line    = "name" NAME "=" expression | "kind" NAME "=" expression | "# comment"
    expression: A | B  either;  A B  one after the other;  A? A* A+  at most once, any number, at least once;  ( )

An expression that goes on in the next line is indented there. A category is a name that no line defines.
"""

import re
from dataclasses import dataclass, field
from pathlib import Path

TOKEN = re.compile(r"\s*([A-Za-z_]+|[()|?*+])")


class GrammarFault(Exception):
    """A grammar that can't be read."""


@dataclass(frozen=True)
class Category:
    name: str


@dataclass(frozen=True)
class Sequence:
    parts: tuple["Expression", ...]


@dataclass(frozen=True)
class Choice:
    parts: tuple["Expression", ...]


@dataclass(frozen=True)
class Repeat:
    part: "Expression"
    at_least_once: bool
    more_than_once: bool


Expression = Category | Sequence | Choice | Repeat
REPEATS = {"?": (False, False), "*": (False, True), "+": (True, True)}


@dataclass
class Grammar:
    """The kinds in the order in which they win where two fit the same front."""

    names: dict[str, Expression] = field(default_factory=dict)
    kinds: list[tuple[str, Expression]] = field(default_factory=list)


def read_grammar(path: Path) -> Grammar:
    grammar = Grammar()
    for number, line in joined_lines(path.read_text(encoding="utf-8")):
        try:
            add_line(grammar, line)
        except GrammarFault as fault:
            raise GrammarFault(f"{path.name}, line {number}: {fault}") from None
    return grammar


def joined_lines(text: str) -> list[tuple[int, str]]:
    """Lines without comments, each with the indented lines that go on with it."""
    lines: list[tuple[int, str]] = []
    for number, line in enumerate(text.splitlines(), 1):
        code = line.split("#", 1)[0].rstrip()
        if code[:1] in (" ", "\t") and lines:
            lines[-1] = (lines[-1][0], f"{lines[-1][1]} {code.strip()}")
        elif code:
            lines.append((number, code))
    return lines


def add_line(grammar: Grammar, line: str) -> None:
    head, equals, body = line.partition("=")
    words = head.split()
    if not equals or len(words) != 2 or words[0] not in ("name", "kind"):
        raise GrammarFault(f"no line of a grammar: {line!r}")
    expression = Parser(body, grammar.names).whole()
    if words[0] == "kind":
        grammar.kinds.append((words[1], expression))
    elif words[1] in grammar.names:
        raise GrammarFault(f"{words[1]} has two meanings")
    else:
        grammar.names[words[1]] = expression


class Parser:
    """Reads one expression, with the names that lines above have defined."""

    def __init__(self, text: str, names: dict[str, Expression]) -> None:
        self.tokens = tokens_of(text)
        self.names = names
        self.at = 0

    def whole(self) -> Expression:
        found = self.choice()
        if self.at != len(self.tokens):
            raise GrammarFault(f"nothing may follow before {self.tokens[self.at]!r}")
        return found

    def next_is(self, *wanted: str) -> bool:
        return self.at < len(self.tokens) and self.tokens[self.at] in wanted

    def choice(self) -> Expression:
        parts = [self.sequence()]
        while self.next_is("|"):
            self.at += 1
            parts.append(self.sequence())
        return parts[0] if len(parts) == 1 else Choice(tuple(parts))

    def sequence(self) -> Expression:
        parts = []
        while self.at < len(self.tokens) and not self.next_is("|", ")"):
            parts.append(self.repeated())
        if not parts:
            raise GrammarFault("an expression is empty")
        return parts[0] if len(parts) == 1 else Sequence(tuple(parts))

    def repeated(self) -> Expression:
        part = self.single()
        while self.next_is(*REPEATS):
            part = Repeat(part, *REPEATS[self.tokens[self.at]])
            self.at += 1
        return part

    def single(self) -> Expression:
        token = self.tokens[self.at]
        self.at += 1
        if token == "(":
            inside = self.choice()
            if not self.next_is(")"):
                raise GrammarFault("a bracket is not closed")
            self.at += 1
            return inside
        if not token[0].isalpha():
            raise GrammarFault(f"{token!r} has nothing to act on")
        return self.names.get(token, Category(token))


def tokens_of(text: str) -> list[str]:
    tokens, at = [], 0
    while at < len(text.rstrip()):
        match = TOKEN.match(text, at)
        if match is None:
            raise GrammarFault(f"not understood: {text[at:].strip()!r}")
        tokens.append(match.group(1))
        at = match.end()
    return tokens
