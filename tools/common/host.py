"""Where and by what a tool measures."""

import os
import subprocess
from pathlib import Path

CPUS = Path("/proc/cpuinfo")


def host() -> str:
    """How many processors the machine has, and of which model."""
    names = [line.split(":", 1)[1].strip() for line in CPUS.read_text().splitlines() if line.startswith("model name")]
    return f"{os.cpu_count()} cores of {names[0] if names else os.uname().machine}"


def first_line(*words: str) -> str:
    """What a command says first; that it is unknown where it is not there or fails."""
    try:
        ran = subprocess.run(words, capture_output=True, text=True, check=False)
    except FileNotFoundError:
        return "unknown"
    return ran.stdout.splitlines()[0] if ran.returncode == 0 and ran.stdout else "unknown"
