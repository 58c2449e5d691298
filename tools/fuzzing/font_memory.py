"""Reading a font and shaping a text in it, with each allocation refused in turn, alone and with all that follow."""

import argparse
import base64
import subprocess
import tempfile
from dataclasses import dataclass
from itertools import count
from pathlib import Path
from typing import Iterator

from common.faults import FILES, ToolFault
from common.notes import Progress
from common.printing import emit
from fuzzing.font_bases import bases
from fuzzing.streams import text_line, words_line
from streams.shim import Shim, compiler

NAME = "fuzz"
# Where memory is short the program says so of the font, or ends: by that fault, or as it can't hold a line of a stream.
SHORT, STATUS = b"OutOfMemory", 5
NO_LINE, NO_LINE_STATUS = b"shape_trials: Read\n", 6
# Of a font with more allocations than this some are refused, in equal steps, since each is a run of its own.
MOST = 1000


@dataclass(frozen=True)
class Ended:
    status: int
    out: bytes
    err: bytes


class Refusals:
    """The program over a stream of one font, with the functions that refuse it memory."""

    def __init__(self, program: Path, folder: Path, font: bytes, text: str) -> None:
        self.program = program.resolve()
        self.shim = Shim(folder)
        line = b"font-bytes 65536 0 %s\n" % base64.b64encode(font)
        self.stream = b"".join((b"tables {}\n", line, words_line([]), text_line(text)))

    def run(self, **settings: int) -> Ended:
        ran = subprocess.run(
            [self.program], input=self.stream, capture_output=True, env=self.shim.environment(**settings), check=False
        )
        return Ended(ran.returncode, ran.stdout, ran.stderr)

    def wrong(self) -> Iterator[str | None]:
        """What is wrong with each run, None where nothing is."""
        usual = self.run()
        if usual.status or not usual.out.startswith(b"face\n"):
            yield f"without a refusal: {usual}"
            return
        step = max(1, self.allocations() // MOST)
        for number in count(1, step):
            for is_on in (0, 1):
                ended = self.run(malloc=number, on=is_on)
                if not self.shim.was_met():
                    return
                yield None if is_right(ended, usual) else f"allocation {number}{' and all after it' * is_on}: {ended}"

    def allocations(self) -> int:
        """How many there are, by doubling and halving."""
        last = 1
        while self.is_met(last):
            last *= 2
        first = last // 2
        while last - first > 1:
            middle = (first + last) // 2
            first, last = (middle, last) if self.is_met(middle) else (first, middle)
        return first

    def is_met(self, number: int) -> bool:
        self.run(malloc=number)
        return self.shim.was_met()


def is_right(ended: Ended, usual: Ended) -> bool:
    """Whether a run ended for want of memory, or as if there were enough."""
    is_short = ended.status == STATUS and SHORT in ended.err or (ended.status, ended.err) == (NO_LINE_STATUS, NO_LINE)
    is_told = ended.status == 0 and ended.out.startswith(b"fault " + SHORT)
    return is_short or is_told or ended == usual


def run_refusals(options: argparse.Namespace) -> int:
    """Refuses memory to the reading of each small font; the status is 1 where a run ended otherwise."""
    if compiler() is None:
        raise ToolFault(FILES, "apt-get install gcc: memory is refused by functions in C")
    wrong = runs = 0
    progress = Progress(NAME)
    fonts = list(dict.fromkeys((each.bytes, "".join(map(chr, each.alphabet.characters[:6]))) for each in bases()))
    for at, (font, text) in enumerate(fonts):
        with tempfile.TemporaryDirectory() as folder:
            for said in Refusals(options.program, Path(folder), font, text).wrong():
                runs += 1
                progress.step(f"font {at + 1} of {len(fonts)}, runs", runs)
                if said is not None:
                    wrong += 1
                    emit(f"wrong: font {at}: {said}\n")
    progress.end()
    emit(f"{runs:,} runs of {len(fonts)} fonts with an allocation refused, {wrong:,} wrong\n")
    return 1 if wrong else 0
