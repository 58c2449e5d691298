"""Runs the program on files under limits of time, memory and stack, and names its answer."""

import os
import re
import resource
import select
import signal
import threading
from dataclasses import dataclass
from pathlib import Path
from typing import Callable

OWN = b"hb_shape: "
# A program may take so many times its processor time on the clock.
CLOCK = 60
# The documented faults by their status.
FAULTS = {
    2: {"words"},
    3: {"J1 NotJson", "J2 WrongShape", "J3 FloatNumber", "J4 UnknownName"}
    | {"U1 OutOfOrder", "U2 OutOfRange", "U3 SplitDepth", "Unlawful"},
    4: {"NotUtf8"},
    5: {"S1 OutOfMemory", "S2 TooLong", "S3 StretchRange", "S4 UnknownSyllableKind", "OutOfMemory"},
    6: {"Read", "ReadLimit", "Write"},
}
NUMBER = r"-?\d+"
GLYPH = re.compile(
    rf"\d+(=\d+)?(@{NUMBER},{NUMBER})?(\+{NUMBER}(,{NUMBER})?)?(#[0-9A-F]+)?(<{NUMBER},{NUMBER},{NUMBER},{NUMBER}>)?".encode()
)
SLICES = re.compile(rb"(no slices\n|(\d+ \d+\n)*)")


@dataclass(frozen=True)
class Limits:
    """Seconds of processor time, and the bytes of memory and of the stack; None is no limit."""

    seconds: float
    memory: int | None
    stack: int | None


@dataclass(frozen=True)
class Answer:
    """How a run ended: its status (None where it was stopped), its output, its processor time and its memory."""

    status: int | None
    out: bytes
    err: bytes
    seconds: float
    memory: int

    def name(self) -> str:
        """The answer's name: ok, a documented fault, or what is neither."""
        if self.status is None:
            return "no end"
        if self.status < 0:
            return f"signal {-self.status}"
        if self.status == 0:
            return "ok" if self.err == b"" else "a message with status 0"
        if self.out:
            return f"output before status {self.status}"
        told = self.err.removeprefix(OWN)
        fault = told.removesuffix(b"\n").decode("utf-8", "replace")
        if self.err == OWN + told and told.endswith(b"\n") and fault in FAULTS.get(self.status, ()):
            return fault
        return f"another message with status {self.status}"


def is_line(options: tuple[str, ...], out: bytes) -> bool:
    """Whether the output has the documented form; where names of glyphs are printed, only its end is looked at."""
    if "--no-glyph-names" not in options:
        return out.endswith(b"\n")
    line, feed, rest = out.partition(b"\n")
    is_glyphs = line == b"" or all(map(GLYPH.fullmatch, line.split(b"|")))
    return feed != b"" and is_glyphs and (SLICES.fullmatch(rest) is not None if "--slices" in options else rest == b"")


@dataclass(frozen=True)
class Running:
    """A process that was started, with what its end is waited for by, and the names of its outputs."""

    child: int
    handle: int
    ends: tuple[str, str]


class Runner:
    """Runs a program in a folder, for its outputs."""

    def __init__(self, program: Path, folder: Path, limits: Limits) -> None:
        self.program = str(program)
        self.folder = folder
        self.limits = limits

    def run(self, words: list[str]) -> Answer:
        """Runs the program with words; its limits of memory and stack are those of this process."""
        return self.end(self.start(words))

    def start(self, words: list[str], slot: int = 0) -> Running:
        """Starts the program; the outputs of programs that run at once are of slots of their own."""
        ends = str(self.folder / f"{slot}.out"), str(self.folder / f"{slot}.err")
        new = os.O_WRONLY | os.O_CREAT | os.O_TRUNC
        streams = [(os.POSIX_SPAWN_OPEN, at + 1, end, new, 0o600) for at, end in enumerate(ends)]
        streams.append((os.POSIX_SPAWN_OPEN, 0, os.devnull, os.O_RDONLY, 0))
        child = os.posix_spawn(self.program, [self.program, *words], {"LC_ALL": "C"}, file_actions=streams)
        return Running(child, os.pidfd_open(child), ends)

    def end(self, running: Running) -> Answer:
        """Waits for a program's end, stops it where its time is over, and reads its outputs."""
        is_over = has_ended(running, self.limits.seconds)
        if not is_over:
            os.kill(running.child, signal.SIGKILL)
        _, status, used = os.wait4(running.child, 0)
        os.close(running.handle)
        out, err = (Path(end).read_bytes() for end in running.ends)
        code = os.waitstatus_to_exitcode(status) if is_over else None
        return Answer(code, out, err, used.ru_utime + used.ru_stime, used.ru_maxrss * 1024)


def has_ended(running: Running, seconds: float) -> bool:
    """Whether a program ends in so much processor time; on a clock it has many times of it, since others run too."""
    poll = select.poll()
    poll.register(running.handle, select.POLLIN)
    for _ in range(CLOCK):
        if poll.poll(seconds * 1000):
            return True
        if processor_time(running.child) >= seconds:
            return False
    return False


def processor_time(child: int) -> float:
    """The seconds of processor time that a process has used."""
    fields = Path(f"/proc/{child}/stat").read_text(encoding="utf-8").rsplit(")", 1)[1].split()
    return (int(fields[11]) + int(fields[12])) / os.sysconf("SC_CLK_TCK")


def under(limits: Limits, work: Callable[[], None]) -> None:
    """Does the work where new processes have the limits, which end with it. It is done by a thread, whose own stack is
    not limited so."""
    failed: list[BaseException] = []

    def body() -> None:
        try:
            work()
        except BaseException as error:  # pylint: disable=broad-exception-caught
            failed.append(error)

    kinds = (resource.RLIMIT_AS, resource.RLIMIT_STACK, resource.RLIMIT_CORE)
    kept = [(kind, resource.getrlimit(kind)) for kind in kinds]
    size = threading.stack_size(16 << 20)
    thread = threading.Thread(target=body)
    try:
        for kind, most in zip(kinds, (limits.memory, limits.stack, 0)):
            limit(kind, most)
        thread.start()
        thread.join()
    finally:
        threading.stack_size(size)
        for kind, before in kept:
            resource.setrlimit(kind, before)
    if failed:
        raise failed[0]


def limit(what: int, value: int | None) -> None:
    if value is not None:
        resource.setrlimit(what, (value, resource.getrlimit(what)[1]))
