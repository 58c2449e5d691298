"""The command line of definitions."""

from collections import Counter

from common.parsing import Words
from sources.crates import ROOT
from sources.document import document, unclear
from sources.reach import Sources

NAME = "definitions"
TARGET = ROOT / "out" / "DEFINITIONS.md"
ABOUT = """Makes out/DEFINITIONS.md from the comments in crates/*/specs: what contracts cite (by the `ghost use` lines
of src), with what that rests on."""


def main(words: list[str]) -> int:
    """Writes the document, or lists the definitions whose comment says too little."""
    parser = Words(prog=NAME, description=ABOUT)
    parser.add_argument("--unclear", action="store_true", help="list definitions whose comment doesn't stand by itself")
    options = parser.parse_args(words)
    sources = Sources(ROOT)
    if options.unclear:
        return list_unclear(sources)
    TARGET.parent.mkdir(exist_ok=True)
    TARGET.write_text(document(sources), encoding="utf-8")
    return 0


def list_unclear(sources: Sources) -> int:
    counts: Counter[str] = Counter()
    for one, why in unclear(sources):
        print(f"{one.path.relative_to(ROOT)}:{one.line}: {one.place.name}: {why}")
        counts["no comment" if why == "no comment" else "leans on the one before"] += 1
    for what, count in counts.items():
        print(f"{count} {what}")
    return 0
