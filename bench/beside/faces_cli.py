"""The command line of faces."""

import contextlib
import json
import subprocess
from collections import Counter
from concurrent.futures import ProcessPoolExecutor, as_completed
from functools import partial
from pathlib import Path
from typing import Any, Callable, Iterator

from beside.faces_try import BOTH, CONVERTER, DIFFERS, READ, REFUSED, SAME, UNCONVERTED, Compared, compare, indices, read_alone
from beside.fonts_cli import USUAL, fonts_of
from common.faults import FILES, WORDS, ToolFault
from common.files import faults_of
from common.notes import Progress
from common.parsing import Words
from common.printing import clean
from sources.crates import ROOT

NAME = "faces"
ABOUT = """Reads each font file of some folders by the program kuspveli, which prints FONT of its bytes (--json), and by
font_to_json of a commit that read the bytes by itself, and compares the two values. A line is printed for each font whose
values differ or that one of the two refuses, and at the end how many there are of each kind. The status is 1 where values
differ."""
ENDS = (SAME, DIFFERS, REFUSED, UNCONVERTED, BOTH)


def main(words: list[str]) -> int:
    """Compares; its status is 1 where two faces differ."""
    parser = Words(prog=NAME, description=ABOUT)
    parser.add_argument("folders", nargs="*", type=Path, default=[USUAL], metavar="FOLDER", help=f"or a font ({USUAL})")
    parser.add_argument("--program", type=Path, metavar="FILE", required=True, help="the program kuspveli")
    parser.add_argument("--converter", metavar="COMMIT", help="font_to_json as of a commit")
    parser.add_argument("--alone", action="store_true", help="read by the program alone, without the converter")
    parser.add_argument("--every", type=int, default=1, metavar="N", help="each Nth font alone (1)")
    parser.add_argument("--most", type=int, metavar="BYTES", help="leave larger files out")
    parser.add_argument("--least", type=int, default=0, metavar="BYTES", help="leave smaller files out")
    parser.add_argument("--jobs", type=int, default=1, metavar="N", help="processes that read fonts (1)")
    parser.add_argument("--keep", type=Path, metavar="FILE", help="add what came of each font, pass over its fonts")
    options = parser.parse_args(words)
    if options.alone == (options.converter is not None):
        raise ToolFault(WORDS, "what the program is compared with: --converter=COMMIT, or nothing: --alone")
    work = partial(read_alone, options.program)
    if not options.alone:
        work = partial(compare, options.program, tools_of(options.converter) / CONVERTER)
    paths = [path for path in fonts_of(options.folders) if is_wanted(path, options)][:: options.every]
    return told(list(all_compared(paths, work, options)))


def tools_of(commit: str) -> Path:
    """The folder of the tools of a commit, in a worktree of its own below out/."""
    number = git("rev-parse", "--verify", f"{commit}^{{commit}}")
    if number is None:
        raise ToolFault(WORDS, f"--converter: no commit {commit}")
    folder = ROOT / "out" / "converters" / number
    if not (folder / "tools").is_dir() and git("worktree", "add", "--detach", "--force", str(folder), number) is None:
        raise ToolFault(FILES, f"--converter: {folder} can't be made by git worktree")
    return folder / "tools"


def git(*words: str) -> str | None:
    """What git prints in this repository; None where it fails."""
    ran = subprocess.run(["git", *words], cwd=ROOT, capture_output=True, text=True, check=False)
    return None if ran.returncode else ran.stdout.strip()


def is_wanted(path: Path, options: Any) -> bool:
    size = path.stat().st_size
    return options.least <= size and (options.most is None or size <= options.most)


def all_compared(paths: list[Path], work: Callable[[Path, int], Compared], options: Any) -> Iterator[Compared]:
    """What came of each font: first what is kept, then of the others."""
    known = kept(options.keep)
    yield from known
    done = {(each.font, each.index) for each in known}
    left = [(path, index) for path in paths for index in indices(path) if (str(path), index) not in done]
    progress = Progress(NAME)
    for number, each in enumerate(tried(left, work, options.jobs), 1):
        keep(options.keep, each)
        if each.end not in (SAME, READ):
            print(line_of(each), flush=True)
        progress.step(clean(Path(each.font).name), number, len(left))
        yield each
    progress.end()


def tried(fonts: list[tuple[Path, int]], work: Callable[[Path, int], Compared], jobs: int) -> Iterator[Compared]:
    """What comes of each font, in the order in which they are done."""
    if jobs == 1:
        yield from (work(*font) for font in fonts)
        return
    with ProcessPoolExecutor(jobs) as pool, contextlib.suppress(KeyboardInterrupt):
        yield from (done.result() for done in as_completed([pool.submit(work, *font) for font in fonts]))


def kept(path: Path | None) -> list[Compared]:
    """What a file has of fonts that were tried."""
    if path is None or not path.is_file():
        return []
    with open(path, encoding="utf-8") as file:
        return [Compared(**json.loads(line)) for line in file]


def keep(path: Path | None, each: Compared) -> None:
    if path is not None:
        with faults_of(path), open(path, "a", encoding="utf-8") as file:
            file.write(each.row())


def line_of(each: Compared) -> str:
    unconverted = each.unconverted and f"{CONVERTER}: {each.unconverted}"
    theirs = each.theirs and f"hb-shape: {each.theirs}"
    said = "; ".join(filter(None, (each.where, each.fault, unconverted, theirs)))
    return clean(f"{each.end}: {each.font} {each.index}: {said}")


def told(found: list[Compared]) -> int:
    ends = Counter(each.end for each in found)
    files = len({each.font for each in found})
    shown = (READ, REFUSED) if ends[READ] else ENDS
    print(f"{files:,} files, {len(found):,} fonts: {', '.join(f'{ends[end]:,} {end}' for end in shown)}")
    return 1 if ends[DIFFERS] else 0
