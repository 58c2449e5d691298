"""The command line of programs: a table of what each program had shaped, and of its pictures."""

import shutil
import sys
import tempfile
from collections import Counter
from dataclasses import dataclass
from math import inf
from pathlib import Path
from resource import RUSAGE_CHILDREN, getrusage

from clients.runs import CLIENTS, Client, pictures_of, run_client
from clients.texts import LONG, Paragraph, paragraphs
from common.documents import table_lines
from common.faults import FILES, ToolFault
from common.parsing import Words
from preload.cli import COMPARE, REPORT, preloaded
from preload.reports import OWN, Report, rows_of
from preload.shared_object import ready_object

NAME = "programs"
ABOUT = """Runs programs that use libharfbuzz on paragraphs of ten scripts, once as they are and once shaped by Kuspveli
(tools/instead), with each text also shaped by both. Prints a table in Markdown: the texts that each shaped, of how many
both gave the same glyphs, and positions but for one unit of the program, how many pictures are equal, and how many
pixels of all differ, by how much at most; then why HarfBuzz shaped texts, and what differs. With --times it measures
instead what each program takes of the processor for longer paragraphs. A program that isn't installed is named and
passed over. The status is 1 where a program failed."""
HEAD = [
    "Program", "version", "texts", "by Kuspveli", "glyphs and positions as HarfBuzz's", "pictures equal", "pixels differing",
]  # fmt: skip

TIMES_HEAD = ["Program", "seconds with HarfBuzz", "with Kuspveli", "ratio"]


@dataclass
class Row:
    """What came of a client."""

    client: Client
    report: Report
    what: Counter[str]
    pictures: str
    pixels: str
    is_well: bool

    def cells(self) -> list[str]:
        report = self.report
        compared = report.differences.total()
        return [
            self.client.name, self.client.told_version(), f"{report.all:,}", f"{report.own:,}",
            f"{report.same:,} of {compared:,}", self.pictures, self.pixels,
        ]  # fmt: skip


def main(words: list[str]) -> int:
    parser = Words(prog=NAME, description=ABOUT)
    parser.add_argument("--only", metavar="WORD", help="only the programs whose names have this word")
    parser.add_argument("--keep", type=Path, metavar="FOLDER", help="leave inputs, reports, differences and pictures there")
    parser.add_argument("--times", type=int, metavar="N", help="measure the least time of N runs of each program, both ways")
    options = parser.parse_args(words)
    chosen = [client for client in CLIENTS if not options.only or options.only.lower() in client.name.lower()]
    if not chosen:
        raise ToolFault(FILES, f"no program has {options.only!r} in its name")
    shared = ready_object(NAME)
    if options.times:
        return tell_times([client for client in chosen if is_there(client)], shared, options.times)
    texts = paragraphs()
    with tempfile.TemporaryDirectory(prefix="kuspveli-programs-") as name:
        folder = options.keep.absolute() if options.keep else Path(name)
        folder.mkdir(parents=True, exist_ok=True)
        rows = [row_of(client, folder, texts, shared) for client in chosen if is_there(client)]
    print_rows(rows)
    return 0 if all(row.is_well for row in rows) else 1


def tell_times(chosen: list[Client], shared: Path, runs: int) -> int:
    """Prints a table of the seconds of processor time that programs take as they are and shaped by Kuspveli, in turn."""
    rows, is_well, texts = [TIMES_HEAD], True, paragraphs(LONG)
    for client in chosen:
        least = [inf, inf]
        for _ in range(runs):
            for way, settings in enumerate(({}, preloaded(shared))):
                with tempfile.TemporaryDirectory(prefix="kuspveli-programs-") as name:
                    begun = processor_time()
                    is_well &= run_client(client, Path(name) / "run", texts, settings, is_drawn=False)
                    least[way] = min(least[way], processor_time() - begun)
        rows.append([client.name, *(f"{seconds:.2f}" for seconds in least), f"{least[1] / least[0]:.2f}"])
    print("\n".join(table_lines(rows)))
    return 0 if is_well else 1


def processor_time() -> float:
    """The seconds of processor time of all processes that ended below this one."""
    used = getrusage(RUSAGE_CHILDREN)
    return used.ru_utime + used.ru_stime


def is_there(client: Client) -> bool:
    found = client.is_there()
    if not found:
        print(f"{NAME}: {client.name} is not installed (Debian's {client.package})", file=sys.stderr)
    return found


def row_of(client: Client, folder: Path, texts: list[Paragraph], shared: Path) -> Row:
    """Runs a client both ways."""
    own = folder / client.command.rpartition("/")[2]
    shutil.rmtree(own, ignore_errors=True)
    own.mkdir()
    plain, instead = own / "plain", own / "instead"
    reports, differences = own / "reports", own / "differences"
    is_well = run_client(client, plain, texts, {})
    settings = {**preloaded(shared), REPORT: str(reports), COMPARE: str(differences)}
    is_well &= run_client(client, instead, texts, settings)
    report = Report()
    for row in rows_of(reports):
        report.add(row)
    what = Counter(difference_of(row) for row in rows_of(differences))
    return Row(client, report, what, *compared(plain, instead), is_well)


def difference_of(row: dict[str, object]) -> str:
    return f"{row['what']} in {row['font']} ({row['script']})"


def compared(plain: Path, instead: Path) -> tuple[str, str]:
    """How many pictures are equal, and how many pixels of all differ."""
    from clients.pictures import Compared

    found = Compared()
    for name in sorted({*pictures_of(plain), *pictures_of(instead)}):
        found.add(plain / name, instead / name)
    by = f", by {found.worst} of 255" if found.differing else ""
    return f"{found.equal:,} of {found.pictures:,}", f"{found.differing:,} of {found.pixels:,}{by}"


def print_rows(rows: list[Row]) -> None:
    print("\n".join(table_lines([HEAD, *(row.cells() for row in rows)])))
    for row in rows:
        told = [f"{count:,} by HarfBuzz: {why}" for why, count in row.report.calls.most_common() if why != OWN]
        told += [f"{count:,} {what}" for what, count in row.report.patches.most_common()]
        told += [f"{count:,} differ: {what}" for what, count in row.what.most_common()]
        if told:
            print(f"\n{row.client.name}:\n" + "\n".join(f"- {line}" for line in told))
