"""What is installed: each file by its path below the prefix."""

import ast
import os
import re
import stat
from pathlib import Path
from typing import Iterator

from building.places import Place
from common.faults import WORDS, ToolFault
from common.plan import Entries, Entry
from common.version import version
from preload.shared_object import can_make, object_over
from releasing.library import link

# The repository's own folders, as its tools know them, with what they need of them.
OWN = "lib/kuspveli"
# Each command with the tool that it is.
COMMANDS = {
    "kuspveli-shape": "shape",
    "kuspveli-hb-shape": "hb_shape",
    "kuspveli-instead": "instead",
    "kuspveli-font-to-json": "font_to_json",
    "kuspveli-unicode-to-json": "unicode_to_json",
}
DATA = ("VERSION", "LICENSE", "data/tables.json", "data/LICENSE.txt")
# By which tools/shape calls the library, for what the program has no word for.
BINDING = ("bindings/python/kuspveli.py", "bindings/python/kuspveli_library.py")
# What stands after a backslash in a .pc file, and what can't be said there.
SPECIAL, QUOTED = re.compile(r"[^\w/.+-]", re.ASCII), r"\\\g<0>"
UNSAID = re.compile(r"[\n\r$()]")
# A folder of tools that no tool imports.
GRAMMARS = "machines"

def layout(root: Path, prefix: Path, program: Place, library: Place, *own: Place) -> Entries:
    """All entries by their paths below the prefix; `own` are the programs that are commands themselves."""
    number = version()
    entries = {f"bin/{name}": Entry(link=f"../{OWN}/tools/{tool}") for name, tool in COMMANDS.items()}
    entries["include/kuspveli.h"] = entry_of(root / "include" / "kuspveli.h")
    entries |= library_entries(root, library)
    entries["lib/pkgconfig/kuspveli.pc"] = Entry(pkg_config(prefix, number, library.is_proved), 0o644)
    for path in (*tool_files(root / "tools"), *(root / name for name in (*DATA, *BINDING)), program.file, program.stamp_file):
        entries[f"{OWN}/{path.relative_to(root)}"] = entry_of(path)
    for place in own:
        entries |= own_entries(root, place)
    return entries | instead_entries(root, library)


def own_entries(root: Path, place: Place) -> Entries:
    """A program with its stamp, and the command that it is: the program itself where it is proved, else the tool that
    says at each use that it isn't."""
    name = place.target.name
    files = (place.file, place.stamp_file, root / "tools" / name)
    entries = {f"{OWN}/{path.relative_to(root)}": entry_of(path) for path in files}
    called = place.file if place.is_proved else root / "tools" / name
    return entries | {f"bin/{name}": Entry(link=f"../{OWN}/{called.relative_to(root)}")}


def instead_entries(root: Path, library: Place) -> Entries:
    """The shared object that kuspveli-instead puts in front of a program's libraries; none where it can't be made."""
    if not can_make():
        return {}
    made = object_over(library)
    return {f"{OWN}/{made.relative_to(root)}": Entry(made.read_bytes(), 0o644)}


def entry_of(path: Path) -> Entry:
    return Entry(path.read_bytes(), 0o755 if path.stat().st_mode & stat.S_IXUSR else 0o644)


# ---- the library


def library_entries(root: Path, library: Place) -> Entries:
    """The archive, the shared library under its whole version, and the links by which it is linked and loaded."""
    archive = library.folder / "libkuspveli.a"
    shared = link(root, archive)
    return {
        "lib/libkuspveli.a": entry_of(archive),
        f"lib/{shared.file}": Entry(shared.text, 0o755),
        f"lib/{shared.soname}": Entry(link=shared.file),
        "lib/libkuspveli.so": Entry(link=shared.soname),
    }


def pkg_config(prefix: Path, number: str, is_proved: bool) -> bytes:
    about = "A text shaper that is proved right" + ("" if is_proved else "; this one was built without its proofs")
    return os.fsencode(
        f"prefix={SPECIAL.sub(QUOTED, str(prefix))}\nlibdir=${{prefix}}/lib\nincludedir=${{prefix}}/include\n\n"
        f"Name: kuspveli\nDescription: {about}\nVersion: {number}\n"
        "Libs: -L${libdir} -lkuspveli\nCflags: -I${includedir}\n"
    )


def check_prefix(prefix: Path) -> None:
    """Refuses a prefix that the .pc file can't say: pkg-config reads or prints these characters as others."""
    found = UNSAID.search(str(prefix))
    if found:
        raise ToolFault(WORDS, f"{prefix}: no prefix for pkg-config, which can't say {found[0]!r} in a file's path")


# ---- the tools


def tool_files(tools: Path) -> list[Path]:
    """The tools that are commands, and the packages that they import, directly or by another."""
    found = [tools / tool for tool in COMMANDS.values()]
    met: set[str] = set()
    waiting = list(found)
    while waiting:
        for package in imported(waiting.pop()):
            if package not in met and (tools / package).is_dir():
                met.add(package)
                waiting += (tools / package).rglob("*.py")
    for package in sorted({*met, GRAMMARS}):
        found += [path for path in sorted((tools / package).rglob("*")) if path.is_file() and path.suffix != ".pyc"]
    return found


def imported(path: Path) -> Iterator[str]:
    """The packages that a file names; none where it is no Python."""
    text = path.read_text(encoding="utf-8")
    if path.suffix != ".py" and "python" not in text.partition("\n")[0]:
        return
    for node in ast.walk(ast.parse(text)):
        if isinstance(node, ast.Import):
            yield from (name.name.split(".")[0] for name in node.names)
        elif isinstance(node, ast.ImportFrom) and node.module:
            yield node.module.split(os.extsep)[0]
