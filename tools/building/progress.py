"""What a build tells while it runs: on a terminal one line that is renewed, on anything else a line for each event."""

import contextlib
import shutil
import signal
import sys
import threading
import time
from dataclasses import dataclass, field
from typing import Callable, Iterator, TextIO

# Seconds between two looks at what runs.
TICK = 1.0


@dataclass
class Teller:
    """Tells under a tool's name how far it is, with the time since it began."""

    tool: str
    out: TextIO = field(default_factory=lambda: sys.stderr)
    started: float = field(default_factory=time.monotonic)
    is_shown: bool = False
    lock: threading.Lock = field(default_factory=threading.Lock)

    def line(self, what: str) -> None:
        """A line that stays."""
        with self.lock:
            self.clear()
            print(f"{self.tool}: {what}", file=self.out, flush=True)

    def renew(self, what: str) -> None:
        """The line of a terminal that is written over, cut to its width."""
        if self.out.isatty():
            with self.lock:
                self.clear()
                width = shutil.get_terminal_size().columns - 1
                self.out.write(f"{self.tool}: {what}"[:width])
                self.out.flush()
                self.is_shown = True

    def clear(self) -> None:
        if self.is_shown:
            self.out.write("\r\x1b[K")
            self.is_shown = False

    def clock(self) -> str:
        return clock(time.monotonic() - self.started)

    @contextlib.contextmanager
    def ticking(self, look: Callable[[], None]) -> Iterator[None]:
        """Calls something once a second until the block ends."""
        ended = threading.Event()

        def tick() -> None:
            while not ended.wait(TICK):
                look()

        thread = threading.Thread(target=tick, daemon=True)
        thread.start()
        try:
            yield
        finally:
            ended.set()
            thread.join()
            with self.lock:
                self.clear()
                self.out.flush()

    @contextlib.contextmanager
    def step(self, what: str) -> Iterator[None]:
        """Tells a step as it begins, on a terminal with its time, and how long it took."""
        begun = time.monotonic()
        if not self.out.isatty():
            self.line(f"{what} ..")
        with self.ticking(lambda: self.renew(f"{what} {clock(time.monotonic() - begun)}")):
            yield
        self.line(f"{what}: {clock(time.monotonic() - begun)}")


def end_by_exit() -> None:
    """Has a signal that ends this process, also by its terminal, leave each block first, which ends what it started and
    removes what it made."""
    for number in (signal.SIGTERM, signal.SIGHUP):
        signal.signal(number, lambda given, _: sys.exit(128 + given))


def clock(seconds: float) -> str:
    """Minutes and seconds, with hours where there are some."""
    whole = int(seconds)
    hours, minutes = divmod(whole // 60, 60)
    return f"{hours}:{minutes:02}:{whole % 60:02}" if hours else f"{minutes}:{whole % 60:02}"
