"""How far a run is: a line on a terminal that is written over, and elsewhere a line for each set that is done."""

import time
from concurrent.futures import Future, as_completed
from typing import Callable, TypeVar

from common.notes import Progress
from common.printing import tell

Step = TypeVar("Step")


class Steps:
    """Tells of steps, each of so many sets."""

    def __init__(self, name: str, of: int) -> None:
        self.name = name
        self.of = of
        self.line = Progress(name)

    def done(self, what: str, count: int) -> None:
        """Tells of a set that is done."""
        if self.line.shown:
            self.line.step(what, count, self.of)
        else:
            tell(self.name, f"{time.strftime('%H:%M:%S')} {what} {count} of {self.of}")
        if count == self.of:
            self.line.end()

    def each(self, what: str, steps: dict[str, Step], do: Callable[[Step], None]) -> None:
        """Does each step, whose set's title is its key."""
        for count, (title, step) in enumerate(steps.items(), 1):
            do(step)
            self.done(f"{what}, {title}", count)

    def follow(self, what: str, steps: dict["Future[None]", str], after_each: Callable[[], None]) -> None:
        """Waits for all steps that were begun; the first that fails ends it."""
        for count, future in enumerate(as_completed(steps), 1):
            future.result()
            after_each()
            self.done(f"{what}, {steps[future]}", count)
