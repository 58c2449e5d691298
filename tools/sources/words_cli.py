"""The command line of words."""

import sys
from collections import Counter
from pathlib import Path

from common.faults import DATA, ToolFault
from common.files import write_file
from common.parsing import Words
from sources import wording
from sources.crates import ROOT
from sources.wording import CLASSES, Hit, Lists, find

NAME = "words"
ALLOWED = ROOT / "tools" / "words_allowed"
ABOUT = """Lists words and names that stand where another word is meant: behind and ahead away from the buffer's cursor,
hang, goes (for deletes), tell, place (for position or index), stretch (for range), participles as names of definitions,
laws that are not named law_.., definitions without a comment that stands by itself, code files without a heading,
"so many" where a count has a name, names that mean what they mean in one crate.
Allowed phrases and lists of words stand in tools/sources/data/words.txt."""
SHOWN = 100


def main(words: list[str]) -> int:
    """Lists the hits and their counts; by --check its status is 1 where a class has more than is allowed."""
    parser = Words(prog=NAME, description=ABOUT)
    parser.add_argument("--only", metavar="CLASS", choices=CLASSES, help=f"one class alone: {', '.join(CLASSES)}")
    parser.add_argument("--crate", metavar="NAME", help="one crate alone, or 'documents'")
    parser.add_argument("--counts", action="store_true", help="the counts alone")
    modes = parser.add_mutually_exclusive_group()
    modes.add_argument("--check", action="store_true", help="end with 1 where a class has more than is allowed")
    modes.add_argument("--lower", action="store_true", help="lower the counts of tools/words_allowed to what there is")
    options = parser.parse_args(words)
    hits = list(find(ROOT, Lists(wording.DATA.read_text(encoding="utf-8"))))
    if options.check:
        return check(hits)
    if options.lower:
        return lower(hits)
    chosen = [hit for hit in hits if options.only in (None, hit.kind) and options.crate in (None, hit.crate)]
    if not options.counts:
        for hit in chosen:
            print(f"{hit.path.relative_to(ROOT)}:{hit.line}: {hit.word}: {hit.text[:SHOWN]}")
    for line in table(chosen):
        print(line)
    return 0


def table(hits: list[Hit]) -> list[str]:
    """The counts by crate and class, the fullest crate first, and of all."""
    crates: dict[str, Counter[str]] = {}
    for hit in hits:
        crates.setdefault(hit.crate, Counter())[hit.kind] += 1
    lines = []
    for crate, counts in sorted(crates.items(), key=lambda pair: -pair[1].total()):
        lines.append(f"{crate}: {counts.total()} ({listed(counts)})")
    whole = Counter(hit.kind for hit in hits)
    return [*lines, f"all: {whole.total()} ({listed(whole)})"]


def listed(counts: Counter[str]) -> str:
    return ", ".join(f"{kind} {counts[kind]}" for kind in CLASSES if counts[kind])


def check(hits: list[Hit]) -> int:
    """1 where a class has more hits than are allowed, with these classes' names and counts."""
    counts, allowed = Counter(hit.kind for hit in hits), read_allowed(ALLOWED)
    grown = [kind for kind in CLASSES if counts[kind] > allowed.get(kind, 0)]
    for kind in grown:
        grew = f"{counts[kind]}, where {allowed.get(kind, 0)} are allowed"
        print(f"{NAME}: {kind}: {grew}: tools/words --only {kind}", file=sys.stderr)
    fallen = [kind for kind in CLASSES if counts[kind] < allowed.get(kind, 0)]
    if fallen and not grown:
        print(f"{NAME}: fewer than are allowed: {', '.join(fallen)}: tools/words --lower", file=sys.stderr)
    return 1 if grown else 0


def lower(hits: list[Hit]) -> int:
    """Writes the counts, of each class the less of what there is and what was allowed."""
    counts = Counter(hit.kind for hit in hits)
    allowed = read_allowed(ALLOWED) if ALLOWED.exists() else dict(counts)
    lines = [f"{kind} {min(counts[kind], allowed.get(kind, 0))}\n" for kind in CLASSES]
    write_file(ALLOWED, "".join(lines))
    return 0


def read_allowed(path: Path) -> dict[str, int]:
    """How many hits of each class are allowed: a class and a number on each line."""
    allowed = {}
    for number, line in enumerate(path.read_text(encoding="utf-8").splitlines(), 1):
        kind, _, count = line.partition(" ")
        if kind not in CLASSES or not count.isdigit():
            raise ToolFault(DATA, f"tools/words_allowed: line {number}: no class with a number: {line}")
        allowed[kind] = int(count)
    return allowed
