"""Faults that a tool tells in one line, with the exit status of its kind."""

import sys
from typing import Callable

from common.printing import clean, emit, flush_streams, open_streams, tell
from common.start import INTERRUPTED, interrupts_end, interrupts_raise

# The statuses are those of hb_shape: words, data, text, what can't be shaped, files.
WORDS = 2
DATA = 3
TEXT = 4
SHAPING = 5
FILES = 6


class ToolFault(Exception):
    """A fault of what the tool was given."""

    def __init__(self, status: int, message: str) -> None:
        super().__init__(message)
        self.status = status


def run_tool(name: str, main: Callable[[list[str]], int]) -> None:
    """Runs a tool on the command line's words, and ends the process with its status."""
    open_streams()
    try:
        interrupts_raise()
        status = ended(main)
        emit("")
    except ToolFault as fault:
        tell(name, str(fault))
        status = fault.status
    except OSError as error:
        tell(name, file_message(error))
        status = FILES
    except MemoryError:
        tell(name, "out of memory")
        status = SHAPING
    except KeyboardInterrupt:
        status = INTERRUPTED
    interrupts_end()
    flush_streams()
    sys.exit(status)


def ended(main: Callable[[list[str]], int]) -> int:
    """The status of a tool, also where it ends early, as by --help."""
    try:
        return main(sys.argv[1:])
    except SystemExit as end:
        return end.code if isinstance(end.code, int) else 0


def file_message(error: OSError) -> str:
    """What the system says of a file, with the file's name."""
    reason = error.strerror or str(error)
    return f"{error.filename}: {reason}" if error.filename else reason


def one_line(text: str) -> str:
    """The text as one line of printable characters."""
    return clean(text.strip())
