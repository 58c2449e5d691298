"""What a run of the fuzzer keeps: of each kind of finding the smallest case, and how often each answer came."""

import json
import re
from collections import Counter
from dataclasses import dataclass, field
from pathlib import Path

from common.files import write_file
from fuzzing.cases import FILES, Case
from fuzzing.running import FAULTS, Answer, is_line

SHOWN = 2000
DOCUMENTED = set().union(*FAULTS.values())


@dataclass
class Tally:
    """How many cases ran, by their answers; findings by their kinds; the longest and the largest run."""

    answers: Counter[str] = field(default_factory=Counter)
    findings: Counter[str] = field(default_factory=Counter)
    longest: tuple[float, int] = (0.0, 0)
    largest: tuple[int, int] = (0, 0)

    def count(self, case: Case, answer: Answer, finding: str | None) -> None:
        self.answers[answer.name()] += 1
        if finding is not None:
            self.findings[finding] += 1
        self.longest = max(self.longest, (answer.seconds, case.number))
        self.largest = max(self.largest, (answer.memory, case.number))

    def add(self, other: "Tally") -> None:
        self.answers += other.answers
        self.findings += other.findings
        self.longest = max(self.longest, other.longest)
        self.largest = max(self.largest, other.largest)


def finding_of(case: Case, answer: Answer) -> str | None:
    """The kind of what is wrong with an answer; None where it is one of the case's right ones."""
    name = answer.name()
    if name not in case.answers:
        return f"{name}, not {wanted(case)}" if name == "ok" or name in DOCUMENTED else name
    if name == "ok" and not is_line(case.options, answer.out):
        return "a line of another form"
    return None


def wanted(case: Case) -> str:
    """What is right, briefly."""
    return "a shape" if "ok" in case.answers else min(case.answers)


def folder_name(kind: str) -> str:
    return re.sub(r"[^A-Za-z0-9]+", "-", kind).strip("-").lower()


class Kept:
    """The folder with the smallest case of each kind."""

    def __init__(self, folder: Path) -> None:
        self.folder = folder

    def size(self, kind: str) -> int | None:
        """The size of what is kept of a kind, None where nothing is."""
        try:
            told = json.loads((self.folder / folder_name(kind) / "case.json").read_bytes())
            return int(told["size"])
        except (OSError, ValueError, KeyError):
            return None

    def keep(self, kind: str, seed: int, case: Case, answer: Answer) -> None:
        """Keeps a case where none of its kind is there that is as small."""
        kept = self.size(kind)
        if kept is None or case.size() < kept:
            write_case(self.folder / folder_name(kind), kind, seed, case, answer)


def write_case(folder: Path, kind: str, seed: int, case: Case, answer: Answer) -> None:
    """Writes the files of a case, and what tells of it."""
    folder.mkdir(parents=True, exist_ok=True)
    for name, content in zip(FILES, case.files):
        write_file(folder / name, content)
    told = {
        "kind": kind,
        "seed": seed,
        "case": case.number,
        "size": case.size(),
        "options": case.options,
        "missing": None if case.missing is None else FILES[case.missing],
        "right answers": sorted(case.answers),
        "answer": answer.name(),
        "status": answer.status,
        "standard output": answer.out[:SHOWN].decode("utf-8", "replace"),
        "standard error": answer.err[:SHOWN].decode("utf-8", "replace"),
        "seconds": round(answer.seconds, 3),
        "bytes of memory": answer.memory,
    }
    write_file(folder / "case.json", json.dumps(told, indent=1) + "\n")
