"""Running the program, and the lines that it gives."""

from dataclasses import dataclass
from functools import cached_property
from typing import Callable

from common.faults import SHAPING
from shaping.sources import Ran, Source
from shaping.texts import Text, Texts

# What stands before the name of a fault in a refused text's place.
REFUSED = "! "
BY_LINES = ("--lines", "--keep-going")


@dataclass(frozen=True)
class Line:
    """What the program made of a text: its line, and its status with a fault."""

    text: Text
    glyphs: str
    status: int
    fault: str


@dataclass(frozen=True)
class Shaped:
    """What the program made of texts: all that it printed, the status of the first fault, and a line for each text, which
    is made when it is asked for."""

    printed: str
    status: int
    make: Callable[[], list[Line]]

    @cached_property
    def lines(self) -> list[Line]:
        return self.make()


def shape_texts(source: Source, texts: Texts, options: list[str]) -> Shaped:
    """Shapes the text of the command line, or all lines of a file by one run of the program."""
    if not texts.is_file:
        [text] = texts.each()
        line = run_one(source, text, options)
        return Shaped(line.glyphs, line.status, lambda: [line])
    ran = source.run(texts.bytes, [*options, *BY_LINES])
    return Shaped(ran.printed, ran.status, lambda: lines_of(texts.each(), ran))


def run_all(source: Source, texts: list[Text], options: list[str]) -> list[Line]:
    """The lines of texts without line feeds, in their order, by one run of the program."""
    whole = b"".join(text.bytes + b"\n" for text in texts)
    return lines_of(texts, source.run(whole, [*options, *BY_LINES]))


def run_one(source: Source, text: Text, options: list[str]) -> Line:
    """The printed lines of one text. The program drops one line feed at the text's end, so it is given one more."""
    ran = source.run(text.bytes + b"\n", options)
    return Line(text, ran.printed, ran.status, ran.fault)


def lines_of(texts: list[Text], ran: Ran) -> list[Line]:
    """The line of each text, of a run whose lines have no line feed in them and begin with no mark."""
    printed = ran.printed.split("\n")[:-1]
    lines = [line_of(text, shown) for text, shown in zip(texts, printed)]
    # Texts that the run did not come to share its fault.
    return lines + [Line(text, "", ran.status, ran.fault) for text in texts[len(printed) :]]


def line_of(text: Text, shown: str) -> Line:
    """The line of a text, or its fault, by name."""
    if shown.startswith(REFUSED):
        return Line(text, "", SHAPING, shown.removeprefix(REFUSED))
    return Line(text, shown + "\n", 0, "")


def told(line: Line, source: Source) -> str:
    """A fault with where it is: of tables and fonts, else of the text."""
    return source.told(line.status, line.fault, line.text.where)
