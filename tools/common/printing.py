"""What tools print: text without characters that act on a terminal, and the three standard streams."""

import contextlib
import io
import os
import sys
from typing import Any, Iterator, TextIO

OUTPUT, INPUT = "standard output", "standard input"
UTF8 = {"encoding": "utf-8", "errors": "backslashreplace"}
# What separates glyphs in a printed line or ends a name there, and what escapes it here. Where a name has no cluster
# after it the others end it too; else they may stand in it, as in fonts in use (A+slashtall, acute#1).
LINE_MARKS = frozenset("|=[]\\")
FIELD_MARKS = LINE_MARKS | frozenset("@+#<")


def clean(text: str) -> str:
    """The text with what is not printable as escapes: controls, line breaks, controls of direction, lone bytes."""
    return "".join(each if each.isprintable() else escape(each) for each in text)


def clean_name(name: str, has_cluster: bool = True) -> str:
    """A glyph's name that stands in a line of glyphs as one field, whatever it is made of."""
    marks = LINE_MARKS if has_cluster else FIELD_MARKS
    return "".join(each if each.isprintable() and each not in marks else escape(each) for each in name)


def escape(character: str) -> str:
    """A character by its number; a byte of a file's name that is no UTF-8 by its own."""
    code = ord(character)
    if 0xDC80 <= code <= 0xDCFF:
        return f"\\x{code - 0xDC00:02x}"
    if code < 0x80:
        return f"\\x{code:02x}"
    return f"\\u{code:04x}" if code <= 0xFFFF else f"\\U{code:08x}"


def tell(tool: str, what: str) -> None:
    """One line on standard error. Where it can't be written nobody is told, and nothing else changes."""
    with contextlib.suppress(OSError):
        print(f"{tool}: {clean(what.strip())}", file=sys.stderr, flush=True)


def emit(text: str) -> None:
    """Writes to standard output at once."""
    with naming(OUTPUT):
        sys.stdout.write(text)
        sys.stdout.flush()


def emit_bytes(content: bytes) -> None:
    """The same of bytes."""
    with naming(OUTPUT):
        sys.stdout.flush()
        sys.stdout.buffer.write(content)
        sys.stdout.buffer.flush()


@contextlib.contextmanager
def naming(name: str) -> Iterator[None]:
    """Gives a fault of the system the name of the file or stream, where it has none."""
    try:
        yield
    except OSError as error:
        error.filename = error.filename or name
        raise


class Output(io.FileIO):
    """Standard output without a buffer. A fault of it has its name."""

    def write(self, content: Any) -> int | None:
        with naming(OUTPUT):
            return super().write(content)


class Errors(io.FileIO):
    """Standard error without a buffer. What can't be written is lost, so that a fault keeps its status."""

    def write(self, content: Any) -> int | None:
        try:
            return super().write(content)
        except OSError:
            return len(content)


def open_streams() -> None:
    """Opens the standard streams that are closed, so that no other file gets their numbers.

    Input can't be read and output can't be written; what is written to standard error is lost. Output is UTF-8.
    """
    for number, mode in enumerate((os.O_WRONLY, os.O_RDONLY, os.O_WRONLY)):
        try:
            os.fstat(number)
        except OSError:
            os.open(os.devnull, mode)
    sys.stdin = sys.stdin or open(0, encoding="utf-8", closefd=False)
    sys.stdout, sys.stderr = whole(sys.stdout, Output(1, "w", closefd=False)), whole(sys.stderr, Errors(2, "w", closefd=False))


def whole(before: TextIO | None, raw: io.FileIO) -> TextIO:
    """A stream in the place of Python's own one: its buffer writes on where the system takes a part alone. Without it,
    as PYTHONUNBUFFERED asks for, Python drops the rest; here each line is written at its end then."""
    by_lines = isinstance(before, io.TextIOWrapper) and (before.line_buffering or before.write_through)
    return io.TextIOWrapper(io.BufferedWriter(raw), **UTF8, line_buffering=by_lines)


def flush_streams() -> None:
    """Flushes both outputs; where one can't be written, the rest of it is dropped, so that the end adds no fault."""
    for stream in (sys.stdout, sys.stderr):
        try:
            stream.flush()
        except OSError:
            os.dup2(os.open(os.devnull, os.O_WRONLY), stream.fileno())
