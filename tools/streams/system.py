"""Runs of the program in which a file, a pipe or a call of the system fails, or gives or takes less than was asked."""

import fcntl
import os
import resource
import select
import signal
import struct
import subprocess
import termios
import threading
import time
from dataclasses import dataclass
from pathlib import Path
from typing import Sequence

from common.files import write_over

SECONDS = 60
Words = Sequence[str | Path]


@dataclass(frozen=True)
class Ended:
    """A run's status (a signal's is negative), and both its outputs."""

    status: int
    out: bytes
    err: bytes


def run(words: Words, environment: dict[str, str] | None = None) -> Ended:
    """Runs a command."""
    ran = subprocess.run(
        words, stdin=subprocess.DEVNULL, capture_output=True, check=False, timeout=SECONDS, env=environment
    )
    return Ended(ran.returncode, ran.stdout, ran.stderr)


def run_into(words: Words, out: Path) -> Ended:
    """Runs a command with its output to a file or a device."""
    with out.open("wb") as stream:
        ran = subprocess.run(
            words, stdin=subprocess.DEVNULL, stdout=stream, stderr=subprocess.PIPE, check=False, timeout=SECONDS
        )
    return Ended(ran.returncode, b"", ran.stderr)


def run_limited(words: Words, out: Path, size: int) -> Ended:
    """Runs a command whose output file may have a number of bytes: the write that passes it is short, the next fails."""

    def prepare() -> None:
        signal.signal(signal.SIGXFSZ, signal.SIG_IGN)
        resource.setrlimit(resource.RLIMIT_FSIZE, (size, size))

    write_over(out, b"")
    with out.open("wb") as stream:
        # pylint: disable-next=subprocess-popen-preexec-fn
        ran = subprocess.run(
            words,
            stdin=subprocess.DEVNULL,
            stdout=stream,
            stderr=subprocess.PIPE,
            check=False,
            timeout=SECONDS,
            preexec_fn=prepare,
        )
    return Ended(ran.returncode, out.read_bytes(), ran.stderr)


def run_closed(words: Words, taken: int, is_ignored: bool) -> Ended:
    """Runs a command whose output is a pipe that is closed after some bytes; with the signal for it ignored or not."""
    action = signal.SIG_IGN if is_ignored else signal.SIG_DFL
    # pylint: disable-next=subprocess-popen-preexec-fn
    with subprocess.Popen(
        words,
        stdin=subprocess.DEVNULL,
        stdout=subprocess.PIPE,
        stderr=subprocess.PIPE,
        restore_signals=False,
        preexec_fn=lambda: signal.signal(signal.SIGPIPE, action) and None,
    ) as child:
        assert child.stdout is not None and child.stderr is not None
        got = child.stdout.read(taken) if taken else b""
        child.stdout.close()
        err = child.stderr.read()
        return Ended(child.wait(SECONDS), got, err)


def run_pieces(words: Words, path: Path, pieces: Sequence[bytes]) -> Ended:
    """Runs a command in which one file is a pipe that gives its bytes by pieces, each in a read of its own."""
    os.mkfifo(path)
    feeder = threading.Thread(target=feed, args=(path, pieces))
    feeder.start()
    try:
        return run(words)
    finally:
        feeder.join(SECONDS)
        path.unlink()


def feed(path: Path, pieces: Sequence[bytes]) -> None:
    """Writes pieces to a named pipe, each once the one before was taken."""
    pipe = os.open(path, os.O_WRONLY)
    try:
        for piece in pieces:
            os.write(pipe, piece)
            while waiting(pipe) and has_reader(pipe):
                time.sleep(0.0002)
    except BrokenPipeError:
        pass
    finally:
        os.close(pipe)


def waiting(pipe: int) -> int:
    """How many bytes stand in a pipe."""
    return int(struct.unpack("i", fcntl.ioctl(pipe, termios.FIONREAD, b"\0" * 4))[0])


def has_reader(pipe: int) -> bool:
    poll = select.poll()
    poll.register(pipe, 0)
    return not poll.poll(0)
