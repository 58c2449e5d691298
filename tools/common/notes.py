"""What a tool left out, counted by kind, and how far it has come."""

import sys
from collections import Counter
from typing import TextIO


# What stands before the lines that nobody needs to act on.
ADVICE = "what is left out below changes neither glyphs nor positions"


class Notes:
    """Counts of what was left out, in the order in which it was first met."""

    def __init__(self) -> None:
        self.idle: Counter[str] = Counter()
        self.asked: Counter[str] = Counter()
        self.changing: Counter[str] = Counter()

    @property
    def told(self) -> list[str]:
        """What is left out though it changes glyphs or positions, so that each run tells it."""
        return list(self.changing)

    def left_out(self, what: str, times: int = 1) -> None:
        """Counts something that changes neither glyphs nor positions."""
        count(self.idle, what, times)

    def left_out_as_asked(self, what: str, times: int = 1) -> None:
        """Counts something that an option leaves out."""
        count(self.asked, what, times)

    def changed(self, what: str, times: int = 1) -> None:
        """Counts something that changes glyphs or positions."""
        count(self.changing, what, times)

    def lines(self) -> list[str]:
        """One line a kind, with how often it was left out; first those that change glyphs or positions."""
        first = [f"left out, and it changes glyphs or positions: {each}" for each in counted(self.changing)]
        return first + [f"left out as asked: {each}" for each in counted(self.asked)] + self.others()

    def others(self) -> list[str]:
        """The lines of what changes neither glyphs nor positions, after one that says so."""
        lines = [f"left out: {each}" for each in counted(self.idle)]
        return [ADVICE, *lines] if lines else []


def count(counts: Counter[str], what: str, times: int) -> None:
    if times > 0:
        counts[what] += times


def counted(counts: Counter[str]) -> list[str]:
    return [f"{what} ({times})" for what, times in counts.items()]


class Progress:
    """A line on a terminal that is written over; on anything else nothing."""

    def __init__(self, name: str, stream: TextIO | None = None) -> None:
        self.name = name
        self.stream = stream or sys.stderr
        self.shown = self.stream.isatty()
        # What is done now, for a fault of it.
        self.now = ""

    def step(self, what: str, done: int = 0, of: int = 0) -> None:
        """Tells what is done now, and how much of it."""
        self.now = f"{what} {done} of {of}" if of else what
        if self.shown:
            self.stream.write(f"\r\x1b[K{self.name}: {self.now}")
            self.stream.flush()

    def end(self) -> None:
        """Clears the line."""
        if self.shown:
            self.stream.write("\r\x1b[K")
            self.stream.flush()
