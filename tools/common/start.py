"""The first import of each tool: from here on an interrupt ends it without a word, also while its modules are loaded."""

import os
import signal
from typing import Any

INTERRUPTED = 130


def end_now(*_: Any) -> None:
    os._exit(INTERRUPTED)


def interrupts_end() -> None:
    """Has an interrupt end the process at once, where nothing is left to be tidied up. One that is ignored, as of a
    process in the background, stays so."""
    if signal.getsignal(signal.SIGINT) is signal.default_int_handler:
        signal.signal(signal.SIGINT, end_now)


def interrupts_raise() -> None:
    """Has an interrupt raise KeyboardInterrupt, as Python does by itself."""
    if signal.getsignal(signal.SIGINT) is end_now:
        signal.signal(signal.SIGINT, signal.default_int_handler)


interrupts_end()
