"""What a font that fontTools reads may be at most, and what reading a font may take.

Debian's fonts are far below; docs/TOOLS.md has the largest.
"""

import contextlib
import resource
import signal
import threading
import time
from typing import Any, Iterator

from common.faults import DATA, ToolFault
from common.notes import Progress
from common.printing import naming

# Bytes of the file, of what a WOFF or WOFF2 file unpacks to, and of all names of glyphs.
MOST_BYTES = 1 << 27
MOST_NAME_BYTES = 1 << 24
# Subtables of cmap, and the characters and variants of all of them: those of Unicode once, and more.
MOST_SUBTABLES_OF_CMAP = 64
MOST_CHARACTERS = 5 << 18
# Of each of GDEF, GSUB and GPOS: rows, some and more for each byte of the table, subtables of lookups, and records that
# are not alike.
MOST_ROWS = 1 << 22
FREE_ROWS = 1 << 19
MOST_ROWS_FOR_BYTE = 16
MOST_SUBTABLES = 1 << 16
MOST_RECORDS = 1 << 18
# Of glyf: points of all outlines; points, parts and levels of a glyph with its parts.
MOST_POINTS = 1 << 26
MOST_GLYPH_POINTS = 1 << 17
MOST_PARTS = 1 << 10
MOST_DEPTH = 16
# Of CFF: levels of subroutines, as the format says; font DICTs and all their subroutines; bytes of charstrings that run
# where all glyphs are drawn, some and more for each byte of the table.
MOST_CALLS = 10
MOST_FONT_DICTS = 256
MOST_SUBROUTINES = 1 << 20
MOST_RUN = 1 << 20
MOST_RUN_FOR_BYTE = 16
# What reading a font may take of memory and of processor time, in this process and in the program's.
MOST_MEMORY = 2 << 30
MOST_SECONDS = 300
# How much of fontTools' message is told.
SHOWN = 200


def most_rows(size: int) -> int:
    """The rows that a table of so many bytes may have."""
    return min(MOST_ROWS, FREE_ROWS + MOST_ROWS_FOR_BYTE * size)


class Refused(Exception):
    """A font beyond a limit, or against a rule of the format."""


class OutOfTime(BaseException):
    """The limit of processor time; no error, so that no library takes it for one of a font."""


def refuse(what: str) -> Refused:
    return Refused(what)


@contextlib.contextmanager
def reading(path: str, is_limited: bool = True, progress: Progress | None = None) -> Iterator[None]:
    """Reads a font within the limits of memory and time. Whatever is raised is told as a fault of the font, with what
    was read then."""
    try:
        with naming(path), limited() if is_limited else contextlib.nullcontext():
            yield
    except (ToolFault, OSError):
        raise
    except Refused as fault:
        raise ToolFault(DATA, f"{path}: {fault}") from fault
    except (MemoryError, OutOfTime) as fault:
        lifted = " (--no-limits lifts the limit)" if is_limited else ""
        raise ToolFault(DATA, f"{path}: {beyond(fault, is_limited)}{lifted}") from None
    except Exception as error:
        what = f"{type(error).__name__}: {error}"
        where = f" in {progress.now}" if progress is not None and progress.now else ""
        raise ToolFault(DATA, f"{path}: the font is damaged{where}: {what[:SHOWN]}") from error


def beyond(fault: BaseException, is_limited: bool) -> str:
    """Which limit was met."""
    if isinstance(fault, OutOfTime):
        return f"reading it takes more than {MOST_SECONDS} seconds of processor time"
    return f"reading it takes more than {MOST_MEMORY >> 30} GiB of memory" if is_limited else "out of memory"


@contextlib.contextmanager
def limited() -> Iterator[None]:
    """Limits the memory and the processor time of this process, and of those that it makes, until the end."""
    if threading.current_thread() is not threading.main_thread():
        # Signals are of the main thread; another one is a test's.
        yield
        return
    spent = int(time.process_time()) + 1
    kept = [(kind, resource.getrlimit(kind)) for kind in (resource.RLIMIT_AS, resource.RLIMIT_CPU)]
    handler = signal.signal(signal.SIGXCPU, out_of_time)
    try:
        for (kind, (soft, hard)), most in zip(kept, (MOST_MEMORY, spent + MOST_SECONDS)):
            resource.setrlimit(kind, (least(most, soft, hard), hard))
        yield
    finally:
        for kind, limits in kept:
            resource.setrlimit(kind, limits)
        signal.signal(signal.SIGXCPU, handler)


def least(*limits: int) -> int:
    """The least of some limits, of which those of the system may be none."""
    return min(limit for limit in limits if limit != resource.RLIM_INFINITY)


def out_of_time(*_: Any) -> None:
    raise OutOfTime
