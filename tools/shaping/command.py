"""The command lines of hb_shape and kuspveli: the program, there before it is run, and a line on its faults."""

import os
import re
import signal
import subprocess
from pathlib import Path
from typing import Callable

from building.places import BUILD, KUSPVELI, PROGRAM, Place, Target
from building.progress import end_by_exit
from building.ready import is_ready, ready_program
from common.faults import WORDS, ToolFault
from common.printing import emit, tell
from common.version import version
from shaping import program_words, reasons
from shaping.options import VERSION_WORDS
from shaping.program_words import usage, word_fault
from sources.crates import ROOT

NAME, FONT_NAME = PROGRAM.name, KUSPVELI.name
HELP = ("--help", "-h")
ENDS = (signal.SIGTERM, signal.SIGHUP)
# Where the program kuspveli has what it says of its words.
TEXTS = ROOT / "crates" / "shell_font_run" / "src" / "texts.rt"
USAGE = re.compile(r'pub const USAGE: &str = "(.*?)";', re.DOTALL)


def main(words: list[str]) -> int:
    """Runs hb_shape; its status is the program's."""
    if any(word in HELP for word in words):
        print(usage())
        return 0
    if any(word in VERSION_WORDS for word in words):
        print("\n".join(told_version(PROGRAM)))
        return 0
    return run_command(words, PROGRAM, program_words.HB_SHAPE, reasons.hb_shape_reasons)


def font_main(words: list[str]) -> int:
    """Runs kuspveli; its status is the program's."""
    asked = words[: words.index("--")] if "--" in words else words
    if any(word in HELP for word in asked) and not is_ready(KUSPVELI):
        # What it says of itself is worth no build.
        emit(own_usage())
        return 0
    if any(word in VERSION_WORDS for word in asked):
        print("\n".join(told_version(KUSPVELI)))
        return 0
    return run_command(words, KUSPVELI, program_words.KUSPVELI, reasons.kuspveli_reasons)


def run_command(
    words: list[str],
    target: Target,
    command: program_words.Command,
    reasons_of: Callable[[int, list[str]], list[str]],
) -> int:
    """Runs a program with its words, and tells more of a fault than its own line does."""
    fault = word_fault(words, command)
    if fault is not None and not is_ready(target) and not any(word in HELP for word in words):
        # Wrong words are worth no build.
        raise ToolFault(WORDS, fault)
    status = run(ready_program(target.name, target=target), words)
    for line in reasons_of(status, words):
        tell(target.name, line)
    return status


def own_usage() -> str:
    """What kuspveli says of its words, as its source has it."""
    found = USAGE.search(TEXTS.read_text(encoding="utf-8"))
    return found[1] if found else f"usage: {program_words.KUSPVELI.usage}\n"


def run(program: Path, words: list[str]) -> int:
    """Runs the program with the streams of this process."""
    end_by_exit()
    # While the program begins, a signal waits, so that it ends the program too.
    signal.pthread_sigmask(signal.SIG_BLOCK, ENDS)
    # The program refuses its own name where it is no UTF-8, as below a folder of such a name.
    with subprocess.Popen([program.name, *map(os.fsencode, words)], executable=program, preexec_fn=take_signals) as ran:
        # An interrupt from the terminal is the program's too, and it tells by its status.
        signal.signal(signal.SIGINT, signal.SIG_IGN)
        try:
            take_signals()
            status = ran.wait()
        except SystemExit:
            ran.terminate()
            raise
    return status if status >= 0 else 128 - status


def take_signals() -> None:
    signal.pthread_sigmask(signal.SIG_UNBLOCK, ENDS)


def told_version(*targets: Target) -> list[str]:
    """The version, and of each program which one is built, of which sources, by which kit."""
    lines = [f"Kuspveli {version()}"]
    for place in (Place(target, is_proved) for target in targets for is_proved in (True, False)):
        stamp = place.stamp()
        if stamp is not None:
            how = f"proved by {stamp.kit}" if place.is_proved else f"unproved, compiled by {stamp.kit}"
            other = "" if place.is_current() else ", of other sources than stand here now"
            lines.append(f"{place.file.relative_to(place.root)}: {how}{other}")
        elif place.is_proved:
            lines.append(f"no proved {place.target.name} is built ({BUILD} builds it)")
    return lines
