"""Damaged font files, many in one process of shape_trials: each ends as a face or a fault, and a face shapes texts."""

import argparse
import base64
import contextlib
import json
import math
import os
import resource
import signal
import subprocess
import time
from collections import Counter
from dataclasses import dataclass, field
from functools import cached_property
from pathlib import Path
from random import Random
from typing import Iterator

from common.files import write_file
from common.notes import Progress
from common.printing import emit
from fuzzing.font_bases import Base, bases
from fuzzing.font_damage import damaged_font
from fuzzing.streams import text_line, words_line
from fuzzing.tables import whole_tables
from fuzzing.words import draw_line, draw_settings

NAME = "fuzz"
# Glyph numbers of a damaged font are of 16 bits, whatever its number of glyphs is.
COUNT = 0x10000
# A line that is answered, so that all before it is done.
SYNC = b"premises now\n"
FACE, FAULT, SYNCED = "face", "fault ", "premises "
# How far it is is told after so many fonts.
TOLD = 256
# Processor seconds that a font may take to be read, and its texts to be shaped, and the memory of the process.
READ_SECONDS, SHAPE_SECONDS, MOST_MEMORY = 1.0, 10.0, 1 << 30


@dataclass(frozen=True)
class FontCase:
    """A damaged font by its number, with settings and texts."""

    seed: int
    number: int
    # How many texts are shaped in a face.
    count: int = 20

    @cached_property
    def base(self) -> Base:
        return bases()[Random(f"{self.seed}/{self.number}").randrange(len(bases()))]

    @cached_property
    def font(self) -> tuple[bytes, int]:
        """Its bytes, and the index of the font in its file."""
        return damaged_font(Random(f"{self.seed}/{self.number}/font"), self.base.bytes)

    def font_line(self) -> bytes:
        font, index = self.font
        return b"font-bytes %d %d %s\n" % (COUNT, index, base64.b64encode(font))

    def texts(self) -> bytes:
        """Lines of settings and texts, and one that is answered."""
        draw = Random(f"{self.seed}/{self.number}/texts")
        characters = [chr(each) for each in self.base.alphabet.characters]
        lines = [words_line(draw_settings(draw, self.base.alphabet))]
        lines += [text_line(draw_line(draw, characters)) for _ in range(self.count)]
        return b"".join((*lines, SYNC))


@dataclass
class Answer:
    """What came of a font: `face` or its fault, the wrong texts, and the processor seconds of reading and shaping."""

    end: str
    wrong: list[str] = field(default_factory=list)
    read: float = 0.0
    shaped: float = 0.0


class Trials:
    """The program, which reads one font after another."""

    def __init__(self, program: Path) -> None:
        pipe = subprocess.PIPE
        self.ran = subprocess.Popen([program], stdin=pipe, stdout=pipe, stderr=pipe, preexec_fn=confine)
        self.has_ended = False
        self.times = os.open(f"/proc/{self.ran.pid}/schedstat", os.O_RDONLY)
        self.given(b"tables " + json.dumps(whole_tables()).encode() + b"\n" + SYNC)
        self.line()

    def given(self, lines: bytes) -> None:
        assert self.ran.stdin is not None
        self.ran.stdin.write(lines)
        self.ran.stdin.flush()

    def line(self) -> str:
        """The next line that it prints; empty where it ended."""
        assert self.ran.stdout is not None
        return self.ran.stdout.readline().decode().rstrip("\n")

    def seconds(self) -> float:
        """The processor time that it took so far."""
        return int(os.pread(self.times, 64, 0).split()[0]) / 1e9

    def memory(self) -> int:
        """The most memory that it had, in bytes."""
        status = Path(f"/proc/{self.ran.pid}/status").read_text(encoding="ascii")
        return int(status.split("VmHWM:")[1].split()[0]) << 10

    def answer(self, case: FontCase) -> Answer:
        """What comes of a font and its texts."""
        line, begun = case.font_line(), self.seconds()
        try:
            self.given(line)
            end = self.line()
            if not end.startswith((FACE, FAULT)):
                return Answer(self.ending())
            answer = Answer(end, read=self.seconds() - begun)
            if end == FACE and case.count:
                self.given(case.texts())
                return self.shaped(answer, begun + answer.read)
            return answer
        except BrokenPipeError:
            return Answer(self.ending())

    def shaped(self, answer: Answer, begun: float) -> Answer:
        """Takes the lines of a font's texts up to the one that is answered."""
        while not (line := self.line()).startswith(SYNCED):
            if not line:
                return Answer(self.ending())
            if line.startswith("wrong "):
                answer.wrong.append(line.split()[2])
        answer.shaped = self.seconds() - begun
        return answer

    def ending(self) -> str:
        """How the program ended."""
        self.has_ended, status = True, self.ran.wait()
        assert self.ran.stderr is not None
        said = self.ran.stderr.read().decode(errors="replace").strip()
        self.close()
        return f"signal {-status}" if status < 0 else f"status {status} {said}".strip()

    def end(self) -> None:
        self.ran.kill()
        self.ran.wait()
        self.close()

    def close(self) -> None:
        os.close(self.times)
        for stream in (self.ran.stdin, self.ran.stdout, self.ran.stderr):
            with contextlib.suppress(OSError):
                if stream is not None:
                    stream.close()


def confine() -> None:
    """Limits the memory of the process that is to be the program."""
    resource.setrlimit(resource.RLIMIT_AS, (MOST_MEMORY, MOST_MEMORY))
    resource.setrlimit(resource.RLIMIT_CORE, (0, 0))
    signal.signal(signal.SIGINT, signal.SIG_IGN)


# ---- many


@dataclass
class Tally:
    """How fonts ended, by kind, the longest times with their cases, and what is wrong."""

    ends: Counter[str] = field(default_factory=Counter)
    longest: tuple[float, int] = (0.0, 0)
    longest_shaped: tuple[float, int] = (0.0, 0)
    wrong: int = 0
    memory: int = 0

    def count(self, number: int, answer: Answer) -> list[str]:
        """Counts an answer; what is wrong with it."""
        self.ends[kind_of(answer.end)] += 1
        self.longest = max(self.longest, (answer.read, number))
        self.longest_shaped = max(self.longest_shaped, (answer.shaped, number))
        found = list(answer.wrong)
        if not answer.end.startswith((FACE, FAULT)):
            found.append(answer.end)
        if answer.read > READ_SECONDS:
            found.append(f"reading took {answer.read:.2f} s")
        if answer.shaped > SHAPE_SECONDS:
            found.append(f"shaping took {answer.shaped:.2f} s")
        self.wrong += bool(found)
        return found

    def lines(self, seed: int, seconds: float) -> list[str]:
        total = self.ends.total()
        told = [f"seed {seed}: {total:,} fonts in {seconds:.0f} s, {self.wrong:,} wrong"]
        told += [f"{times:10,}  {end}" for end, times in self.ends.most_common()]
        (read, read_case), (shaped, shaped_case) = self.longest, self.longest_shaped
        longest = f"read in {read:.4f} s, case {read_case}; texts shaped in {shaped:.3f} s, case {shaped_case}"
        return [*told, f"longest: {longest}", f"memory: {self.memory >> 10:,} KiB"]


def kind_of(end: str) -> str:
    """A fault by its name and its table, without the offset."""
    return end.split(" at ")[0]


def run_font_trials(options: argparse.Namespace) -> int:
    """Tries fonts; the status is 1 where one is wrong."""
    if options.case is not None:
        return run_one(options)
    begun, tally, progress = time.monotonic(), Tally(), Progress(NAME)
    trials = Trials(options.program)
    for number in numbers(options):
        answer = trials.answer(FontCase(options.seed, number, options.texts))
        emit("".join(wrong_line(options.seed, number, each) for each in tally.count(number, answer)))
        if trials.has_ended:
            trials = Trials(options.program)
        elif number % TOLD == 0:
            tally.memory = max(tally.memory, trials.memory())
            progress.step(f"{tally.wrong} findings, fonts", tally.ends.total(), options.cases or 0)
            write_tally(options, tally, time.monotonic() - begun)
    tally.memory = max(tally.memory, trials.memory())
    trials.end()
    progress.end()
    write_tally(options, tally, time.monotonic() - begun)
    emit("".join(f"{line}\n" for line in tally.lines(options.seed, time.monotonic() - begun)))
    return 1 if tally.wrong else 0


def numbers(options: argparse.Namespace) -> Iterator[int]:
    """The numbers of the cases, until the time is up."""
    stop = math.inf if options.seconds is None else time.monotonic() + options.seconds
    for number in range(options.first, options.first + (options.cases or 10_000)):
        if time.monotonic() > stop:
            return
        yield number


def wrong_line(seed: int, number: int, what: str) -> str:
    return f"wrong: {what}: tools/fuzz --in-process --fonts --seed={seed} --case={number}\n"


def write_tally(options: argparse.Namespace, tally: Tally, seconds: float) -> None:
    options.keep.mkdir(parents=True, exist_ok=True)
    lines = "".join(f"{line}\n" for line in tally.lines(options.seed, seconds))
    write_file(options.keep / f"fonts-{options.seed}-{options.first}.txt", lines)


def run_one(options: argparse.Namespace) -> int:
    """Tries one font again, and writes it."""
    case, tally, trials = FontCase(options.seed, options.case, options.texts), Tally(), Trials(options.program)
    answer = trials.answer(case)
    found = tally.count(case.number, answer)
    if not trials.has_ended:
        trials.end()
    folder = options.keep / f"font-{case.number}"
    folder.mkdir(parents=True, exist_ok=True)
    write_file(folder / "font.ttf", case.font[0])
    write_file(folder / "lines", case.texts())
    times = f"read in {answer.read:.4f} s, texts shaped in {answer.shaped:.3f} s"
    emit(f"{answer.end}, {times}: {', '.join(found) or 'nothing is wrong'}: {folder}\n")
    return 1 if found else 0

