"""What a session of processes is doing, by the system's own list."""

import os
from pathlib import Path

from building.estimate import Check

PROCESSES = Path("/proc")


def running_checks(session: int) -> set[Check]:
    """The checks that rattle makes in a session."""
    found = set()
    for name in os.listdir(PROCESSES):
        if name.isdigit():
            try:
                if session_of(name) == session:
                    check = check_of((PROCESSES / name / "cmdline").read_bytes())
                    found |= {check} if check else set()
            except (OSError, ValueError, IndexError):
                # It ended meanwhile.
                continue
    return found


def session_of(process: str) -> int:
    """The session of a process: the fourth field after its name, which may have any character."""
    return int((PROCESSES / process / "stat").read_text().rpartition(")")[2].split()[3])


def check_of(line: bytes) -> Check | None:
    """The check of a process by its words, where it is rattle."""
    words = line.decode("utf-8", "replace").split("\0")
    if Path(words[0]).name != "rattle" or "--crate-name" not in words:
        return None
    return Check(words[words.index("--crate-name") + 1], "--test" in words)
