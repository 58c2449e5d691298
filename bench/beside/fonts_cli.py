"""The command line of fonts."""

import argparse
import contextlib
import hashlib
import os
import re
import shutil
import signal
import tempfile
from collections import Counter
from concurrent.futures import ProcessPoolExecutor, as_completed
from itertools import zip_longest
from pathlib import Path
from typing import Iterator

from beside.fonts_causes import cause_of
from beside.fonts_found import Found, add_found, read_found
from beside.fonts_try import THEIRS, Trial, trial, try_font
from building.ready import ready_program
from common.faults import FILES, ToolFault
from common.notes import Progress
from common.parsing import Words
from common.printing import clean
from shaping.cache import cache_folder
from shaping.converting import tables_file

NAME = "fonts"
LIBRARY = "KUSPVELI_LIBRARY"
USUAL = Path("/usr/share/fonts")
ENDINGS = (".ttf", ".otf", ".ttc", ".otc")
# What stands between a family's name and that of a weight in a file's name.
FAMILY_END = re.compile("[-_]")
FOUND, VALUES = "found.jsonl", "values"
ABOUT = f"""Shapes texts in each font of some folders by the program and by {THEIRS}, and prints a table in Markdown: fonts
that were tried, lines, lines alike, and differences by their causes. The texts are 20 a font in its own scripts: words of
bench/beside/words that it has all characters of, and strings of its letters and marks, the same ones at each run.
{THEIRS} shapes by OpenType's rules, also where a font has those of Graphite. A run that is interrupted prints the table of
the fonts that it came to, a sample of all; with --keep a later one continues from there."""


def parser() -> argparse.ArgumentParser:
    words = Words(prog=NAME, description=ABOUT)
    words.add_argument("folders", nargs="*", type=Path, default=[USUAL], metavar="FOLDER", help=f"or a font ({USUAL})")
    words.add_argument("--kern", action="store_true", help="only fonts that have a table kern")
    words.add_argument("--every", type=int, default=1, metavar="N", help="each Nth font alone (1)")
    words.add_argument("--jobs", type=int, default=1, metavar="N", help="processes that try fonts (1)")
    words.add_argument("--list", action="store_true", help="print each difference, before the table")
    words.add_argument("--keep", type=Path, metavar="FOLDER", help="keep there what is found, and continue from it")
    words.add_argument(
        "--library", type=Path, metavar="FILE", help="shape by the library for C, which is as the program"
    )
    return words


def main(words: list[str]) -> int:
    """Compares; its status is 0."""
    options = parser().parse_args(words)
    if shutil.which(THEIRS) is None:
        raise ToolFault(FILES, f"{THEIRS} is missing: apt-get install libharfbuzz-bin")
    if options.library is not None:
        os.environ[LIBRARY] = str(options.library)
    program = None if options.library is not None else ready_program(NAME)
    paths = [path for path in fonts_of(options.folders) if not options.kern or has_kern(path)][:: options.every]
    found: list[Found] = []
    with cache_folder() as kept, working_folder(options.keep) as folder, contextlib.suppress(KeyboardInterrupt):
        by = trial(tables_file(kept), program, options.library, folder / VALUES)
        for each in all_found(paths, by, folder / FOUND, options.jobs):
            found.append(each)
            for line in differences(each) if options.list else ():
                print(line, flush=True)
    for line in [*(f"refused: {clean(each.refused)}" for each in found if each.refused), *table(found)]:
        print(line)
    return 0


@contextlib.contextmanager
def working_folder(kept: Path | None) -> Iterator[Path]:
    """The folder of what is found and of converted fonts, for this run alone where none is named."""
    with contextlib.ExitStack() as stack:
        folder = kept or Path(stack.enter_context(tempfile.TemporaryDirectory()))
        (folder / VALUES).mkdir(parents=True, exist_ok=True)
        yield folder


def all_found(paths: list[Path], by: Trial, file: Path, jobs: int) -> Iterator[Found]:
    """What is found of each font: first what the file has of the same font, tried by the same; then the others are
    tried, and added to it."""
    known, progress = read_found(file), Progress(NAME)
    stands = {path: known[str(path)] for path in paths if str(path) in known}
    stands = {path: found for path, found in stands.items() if found.stamp == by.stamp_of(path)}
    yield from stands.values()
    for number, found in enumerate(tried([path for path in paths if path not in stands], by, jobs), len(stands) + 1):
        add_found(file, found)
        progress.step(Path(found.font).name, number, len(paths))
        yield found
    progress.end()


def tried(paths: list[Path], by: Trial, jobs: int) -> Iterator[Found]:
    """What is found of each font, in the order in which they are done."""
    if jobs == 1:
        yield from (try_font(path, by) for path in paths)
        return
    # An interrupt is this process's: the others end what they are at.
    with ProcessPoolExecutor(jobs, initializer=signal.signal, initargs=(signal.SIGINT, signal.SIG_IGN)) as pool:
        try:
            yield from (done.result() for done in as_completed([pool.submit(try_font, path, by) for path in paths]))
        finally:
            pool.shutdown(cancel_futures=True)


def fonts_of(folders: list[Path]) -> list[Path]:
    """The font files of some folders, each once: first one of each family, then another one of each that has more. The
    order is the same each time and else looks like chance, so those that were tried when a run is ended are a sample."""
    met: dict[Path, Path] = {}
    for folder in folders:
        for path in sorted(folder.rglob("*")) if folder.is_dir() else [folder]:
            # A link may lead to a file of a package that isn't there.
            if path.suffix.lower() in ENDINGS and path.is_file():
                met.setdefault(path.resolve(), path)
    families: dict[tuple[Path, str], list[Path]] = {}
    for path in sorted(met.values(), key=lambda path: hashlib.sha256(os.fsencode(path)).digest()):
        families.setdefault((path.parent, FAMILY_END.split(path.stem)[0]), []).append(path)
    return [path for turn in zip_longest(*families.values()) for path in turn if path is not None]


def has_kern(path: Path) -> bool:
    """Whether a font file has a table `kern`, by its list of tables; a collection is passed over."""
    with open(path, "rb") as file:
        head = file.read(12)
        count = int.from_bytes(head[4:6], "big")
        return any(file.read(16)[:4] == b"kern" for _ in range(count))


def differences(found: Found) -> Iterator[str]:
    """A line for each text of a font whose line differs."""
    for unlike in found.unlike:
        numbers = " ".join(f"{ord(character):04X}" for character in unlike.text)
        what = f"{unlike.fault or unlike.own} where {THEIRS} has {unlike.theirs}"
        yield f"{clean(found.font)}: {cause_of(found, unlike)}: {numbers}: {what}"


def table(found: list[Found]) -> Iterator[str]:
    """Fonts and lines that were tried, those alike, and differences by their causes."""
    shaped = [each for each in found if each.lines]
    lines, scripts = sum(each.lines for each in shaped), {script for each in shaped for script in each.of_texts}
    causes = Counter(cause_of(each, unlike) for each in shaped for unlike in each.unlike)
    fonts = Counter(cause for each in shaped for cause in {cause_of(each, unlike) for unlike in each.unlike})
    yield "| | Lines | Fonts |"
    yield "|---|---|---|"
    yield f"| tried, in {len(scripts)} scripts | {lines:,} | {len(shaped):,} |"
    yield f"| alike | {lines - causes.total():,} | {sum(not each.unlike for each in shaped):,} in all lines |"
    for cause, count in causes.most_common():
        yield f"| {cause} | {count:,} | {fonts[cause]:,} |"
    without = [each for each in found if not each.lines and not each.refused]
    for what, count in (("without texts", len(without)), ("refused", sum(bool(each.refused) for each in found))):
        if count:
            yield f"| {what} | | {count:,} |"
