"""The project's version, which the file VERSION names for all, and the names that follow from it.

VERSION is A.B.C. Calls are only added while A stays, so A is the number in the soname; a call has the symbol version A.B
of the version in which it came. docs/API.md says what a version promises."""

from pathlib import Path

FILE = Path(__file__).parent.parent.parent / "VERSION"


def version() -> str:
    return FILE.read_text(encoding="utf-8").strip()


def numbers_of(number: str) -> tuple[int, int, int]:
    first, second, third = map(int, number.split("."))
    return first, second, third


def packed(number: str) -> int:
    """What kus_version answers: each number in a byte."""
    first, second, third = numbers_of(number)
    return first << 16 | second << 8 | third


def soname(number: str) -> str:
    """By what a loader knows a library whose calls are those that a program was linked against, or more."""
    return f"libkuspveli.so.{numbers_of(number)[0]}"


def symbol_version(number: str) -> str:
    """The version of the symbols that came with a version."""
    first, second, _ = numbers_of(number)
    return f"KUSPVELI_{first}.{second}"
