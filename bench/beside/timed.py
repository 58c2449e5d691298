"""How long a program takes by the clock, the least of three runs."""

import subprocess
import time

RUNS = 3


def seconds(words: list[str], limit: float | None = None) -> float:
    start = time.monotonic()
    subprocess.run(words, check=True, capture_output=True, timeout=limit)
    return time.monotonic() - start


def least(words: list[str], limit: float | None = None) -> float:
    return min(seconds(words, limit) for _ in range(RUNS))
