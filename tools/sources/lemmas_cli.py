"""The command line of same_lemmas."""

from pathlib import Path

from common.parsing import Words
from sources.crates import ROOT
from sources.lemmas import Lemma, lemmas_of, lines_in_specs, repeated, unnamed

NAME = "same_lemmas"
ABOUT = """Lists the lemmas of crates/*/specs and crates/*/proofs whose statement stands more than once, up to the names
of variables, and how many there are."""


def main(words: list[str]) -> int:
    """Prints one of the lists, and what it comes to."""
    parser = Words(prog=NAME, description=ABOUT)
    modes = parser.add_mutually_exclusive_group()
    modes.add_argument("--unnamed", action="store_true", help="list the lemmas that nothing names")
    modes.add_argument("--in-specs", action="store_true", help="count the lines of lemmas in specs/, crate by crate")
    options = parser.parse_args(words)
    lemmas = lemmas_of(ROOT)
    if options.in_specs:
        print_lines(ROOT, lemmas)
    elif options.unnamed:
        found = unnamed(ROOT, lemmas)
        for lemma in found:
            print(told(lemma))
        print(f"{len(found)} lemmas that nothing names")
    else:
        print_repeated(lemmas)
    return 0


def print_repeated(lemmas: list[Lemma]) -> None:
    groups = repeated(lemmas)
    for group in groups:
        print(" = ".join(map(told, group)))
    print(f"{len(groups)} statements that stand more than once, {sum(map(len, groups))} times in all")


def print_lines(root: Path, lemmas: list[Lemma]) -> None:
    counts = lines_in_specs(root, lemmas)
    for crate, lines, of_lemmas in counts:
        if of_lemmas:
            print(f"{crate}: {of_lemmas} of {lines}")
    lines, of_lemmas = (sum(count[part] for count in counts) for part in (1, 2))
    print(f"{of_lemmas} of {lines} lines of specs/ are lemmas: {100 * of_lemmas / max(lines, 1):.1f}%")


def told(lemma: Lemma) -> str:
    return f"{lemma.path.relative_to(ROOT / 'crates')}:{lemma.line} {lemma.name}"
