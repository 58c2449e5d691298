"""The command line of where."""

from itertools import groupby
from pathlib import Path

from common.documents import add_modes, deliver, wrapped
from common.parsing import Words
from sources.crates import ROOT
from sources.where import Port, ports, unmarked

NAME = "where"
TARGET = ROOT / "docs" / "WHERE.md"
ABOUT = """Makes docs/WHERE.md from the marks (rustybuzz: hb/..) in the comments of crates/*/src: which file and line here
has a function or type of rustybuzz."""
HEADING = """# Where rustybuzz's code stands here

By rustybuzz's files (under `src/hb`), each file here that ports of it stand in, with its functions and types and their
lines: the ports, mostly under rustybuzz's names, and what they are divided into. A name without a line is rustybuzz's
alone: the file's functions together do what it does. `tools/where` makes this list from the marks `(rustybuzz: hb/..)`
in the code.
"""


def main(words: list[str]) -> int:
    """Writes the document, or tells what differs; its status is 1 where it does."""
    parser = Words(prog=NAME, description=ABOUT)
    modes = add_modes(parser)
    modes.add_argument("--unmarked", action="store_true", help="list public items of files without a mark")
    options = parser.parse_args(words)
    if options.unmarked:
        for path, item in unmarked(ROOT):
            print(f"{path.relative_to(ROOT)}:{item.line}: {item.name}")
        return 0
    return deliver(NAME, TARGET, document(ROOT), options)


def document(root: Path) -> str:
    """The ports by rustybuzz's files, and within one by the files here, in the order of the crates."""
    lines = [HEADING]
    order = sorted(dict.fromkeys(ports(root)), key=lambda port: port.file)
    for file, of_file in groupby(order, key=lambda port: port.file):
        lines.append(f"## {file}\n")
        for path, here in groupby(of_file, key=lambda port: port.path):
            shown = path.relative_to(root / "crates")
            lines += wrapped(f"- [{shown}](../crates/{shown}): {', '.join(map(told, here))}")
        lines.append("")
    return "\n".join(lines)


def told(port: Port) -> str:
    """A port's name there and its line here, with its name here where it is another."""
    if not port.here:
        return f"`{port.name}`"
    return f"`{port.name}` {port.line}" if port.here == port.name else f"`{port.name}` as `{port.here}` {port.line}"
