"""The command line of try_release: each way to install a release, in a root of its own, used and undone."""

import argparse
import time
from dataclasses import dataclass
from pathlib import Path
from typing import Callable

from common.faults import DATA, ToolFault
from common.parsing import Words
from releasing.cli import SUMS
from releasing.debian import FONTTOOLS
from releasing.roots import APT, Root, fresh, own_mounts
from releasing.sums import read_list, sum_of

NAME = "try_release"
ABOUT = """Installs what release made in FOLDER, uses it and removes it again, each way in a fresh root of Debian's
packages alone, which debootstrap makes below ROOTS: without rt and git, and without a compiler where none is needed. Each
shapes ten texts in ten scripts, and its lines have to be those of hb-shape; nothing may be left of it. It has to be run
by root, and takes packages from Debian's mirror."""
LINES = Path(__file__).parent / "lines.tsv"
PROGRAMS = Path(__file__).parent / "programs"
# What no root may have, and what those alone have that compile.
NEVER, COMPILERS = ("rt", "git"), ("gcc", "cc", "rustc", "cargo")
# The commands that take a font file and a text.
SHAPERS = ("kuspveli-shape", "kuspveli")
NUMBERS = "--no-glyph-names"
PICTURE = "/root/office.svg"
CACHE = "/root/.cache"
# What Python and pip keep beside their own modules.
KEPT = "__pycache__"
OURS = ("kuspveli", "kus_")
GONE = "nothing of it is left"

# Runs a text in a font, and answers its line.
Line = Callable[["Case"], str]


@dataclass(frozen=True)
class Case:
    """A text in a font, and the line that hb-shape 6.0 prints of it with --no-glyph-names and --utf8-clusters."""

    script: str
    font: str
    text: str
    line: str


def main(words: list[str]) -> int:
    """Tries each way, and prints a line of each; the first that fails is a fault."""
    parser = Words(prog=NAME, description=ABOUT, formatter_class=argparse.RawDescriptionHelpFormatter)
    parser.add_argument("folder", type=Path, metavar="FOLDER", help="a folder that release made")
    parser.add_argument("roots", type=Path, metavar="ROOTS", help="where roots are made; what is below all of them is kept")
    parser.add_argument("ways", nargs="*", metavar="WAY", help=f"some of them alone: {', '.join(WAYS)}")
    options = parser.parse_args(words)
    for way in options.ways:
        if way not in WAYS:
            parser.error(f"{way} is no way: {', '.join(WAYS)}")
    check_sums(options.folder)
    own_mounts()
    given = {"release": options.folder, "programs": PROGRAMS}
    for way in options.ways or WAYS:
        begun = time.monotonic()
        with fresh(options.roots.absolute(), way, {place: path.absolute() for place, path in given.items()}) as root:
            told = WAYS[way](root, options.folder)
        print(f"{way}: {told} ({time.monotonic() - begun:.0f} s)", flush=True)
    return 0


def check_sums(folder: Path) -> None:
    """Refuses a folder whose files are not those of its list."""
    listed = read_list(folder / SUMS)
    for name, made in listed.items():
        if sum_of(folder / name) != made:
            raise ToolFault(DATA, f"{folder / name} is not the file that {SUMS} has")
    if not listed:
        raise ToolFault(DATA, f"{folder} has no {SUMS}: release makes it")


def cases() -> list[Case]:
    return [Case(*line.split("\t")) for line in LINES.read_text(encoding="utf-8").splitlines()]


# ---- what is tried of each way


def check_lines(line_of: Line, what: str) -> None:
    """Holds the line of each text to that of hb-shape."""
    for case in cases():
        line = line_of(case).strip()
        if line != case.line:
            raise ToolFault(DATA, f"{what}: {case.script}: {line or 'nothing'}, and hb-shape prints {case.line}")


def use_commands(root: Root, folder: str) -> str:
    """Shapes by each command that takes font files, and draws."""
    found = [name for name in SHAPERS if (root.folder / folder.lstrip("/") / name).exists()]
    for name in found:
        check_lines(lambda case: root.run([f"{folder}/{name}", NUMBERS, case.font, case.text], has_network=False), name)
    first = cases()[0]
    root.run([f"{folder}/{SHAPERS[0]}", first.font, first.text, f"--svg={PICTURE}"], has_network=False)
    drawn = root.folder / PICTURE.lstrip("/")
    if drawn.read_text(encoding="utf-8").count("<path ") < len(first.line.split("|")):
        raise ToolFault(DATA, f"{PICTURE} has fewer outlines than glyphs")
    # Beside another letter: by the module for Python and the shared library, which the program has no word for.
    alone = root.run([f"{folder}/{SHAPERS[0]}", NUMBERS, cases()[4].font, "ل", "--text-after=ل"], has_network=False)
    both = root.run([f"{folder}/{SHAPERS[0]}", NUMBERS, cases()[4].font, "لل"], has_network=False)
    if both.strip().split("|")[1] != alone.strip():
        raise ToolFault(DATA, f"a letter before another is {alone.strip()}, and in both {both.strip()}")
    root.run(["rm", "-r", PICTURE, CACHE])
    return f"{len(cases())} scripts by {' and '.join(found)}, a picture"


def use_python(root: Root, python: str) -> None:
    words = [python, "/given/programs/shape.py"]
    check_lines(lambda case: root.run([*words, case.font, case.text], has_network=False), "Python")


def use_made(root: Root, program: str, what: str, **more: str) -> None:
    check_lines(lambda case: root.run([program, case.font, case.text], has_network=False, **more), what)


def check_root(root: Root, *, compiles: bool) -> None:
    """Refuses a root in which the way could take what a user hasn't."""
    for command in NEVER + (() if compiles else COMPILERS):
        if root.has(command):
            raise ToolFault(DATA, f"{root.folder} has {command}")


def check_gone(root: Root, before: set[str]) -> None:
    """Refuses what is left: a file of ours, or any other but what Python keeps."""
    left = {path for path in root.files() - before if KEPT not in path or any(name in path for name in OURS)}
    left |= {line for line in root.run(["ldconfig", "-p"]).splitlines() if "kuspveli" in line}
    if left:
        raise ToolFault(DATA, f"left: {', '.join(sorted(left)[:20])} ({len(left)})")


def file_of(folder: Path, pattern: str) -> str:
    """A file of the release, as it stands in a root."""
    [path] = folder.glob(pattern)
    return f"/given/release/{path.name}"


def packages(folder: Path, *names: str) -> list[str]:
    return [file_of(folder, f"{name}_*.deb") for name in names]


# ---- the ways


def by_archive(root: Root, folder: Path) -> str:
    """Unpacked, with Python and fontTools, in a folder whose name has a space."""
    root.run([*APT, "install", "python3", *(needed.partition(" ")[0] for needed in FONTTOOLS)])
    check_root(root, compiles=False)
    before = root.files()
    place = "/opt/own place"
    root.run(["mkdir", place])
    root.run(["tar", "-xzf", file_of(folder, "*-linux.tar.gz"), "-C", place, "--strip-components=1"])
    told = use_commands(root, f"{place}/bin")
    root.run(["rm", "-r", place])
    check_gone(root, before)
    return f"{told}; {GONE}"


def by_packages(root: Root, folder: Path) -> str:
    """By apt, which brings what they depend on; the module for Python too."""
    before = root.files()
    names = ("libkuspveli0", "kuspveli-tools", "python3-kuspveli")
    root.run([*APT, "install", *packages(folder, *names)])
    check_root(root, compiles=False)
    told = use_commands(root, "/usr/bin")
    use_python(root, "/usr/bin/python3")
    root.run([*APT, "purge", *names])
    root.run([*APT, "autoremove", "--purge"])
    check_gone(root, before)
    return f"{told}, and by Python; {GONE}"


def by_c(root: Root, folder: Path) -> str:
    """A program in C over the package, shared and with the archive inside, and over what is unpacked elsewhere."""
    root.run([*APT, "install", "gcc", "libc6-dev", "pkg-config"])
    check_root(root, compiles=True)
    before = root.files()
    names = ("libkuspveli0", "libkuspveli-dev")
    root.run([*APT, "install", *packages(folder, *names)])
    compile_c(root, "/opt/shared", "$(pkg-config --cflags --libs kuspveli)")
    use_made(root, "/opt/shared", "C, shared")
    compile_c(root, "/opt/whole", "$(pkg-config --variable=libdir kuspveli)/libkuspveli.a")
    root.run([*APT, "purge", *names])
    use_made(root, "/opt/whole", "C, the archive inside")
    root.run(["mkdir", "/opt/kuspveli"])
    root.run(["tar", "-xzf", file_of(folder, "*-linux.tar.gz"), "-C", "/opt/kuspveli", "--strip-components=1"])
    compile_c(root, "/opt/other", "$(pkg-config --cflags --libs kuspveli)", PKG_CONFIG_PATH="/opt/kuspveli/lib/pkgconfig")
    use_made(root, "/opt/other", "C, unpacked", LD_LIBRARY_PATH="/opt/kuspveli/lib")
    root.run(["rm", "-r", "/opt/kuspveli", "/opt/shared", "/opt/whole", "/opt/other"])
    check_gone(root, before)
    return f"{len(cases())} scripts in C, shared, with the archive inside, and unpacked elsewhere; {GONE}"


def compile_c(root: Root, made: str, words: str, **more: str) -> None:
    root.run(["sh", "-ec", f"gcc -Wall -Werror -O1 -o {made} /given/programs/shape.c {words}"], has_network=False, **more)


def by_wheel(root: Root, folder: Path) -> str:
    """By pip, into an environment of its own, without an index. A checker of types finds those of the module."""
    root.run([*APT, "install", "python3-venv", "mypy"])
    check_root(root, compiles=False)
    root.run(["python3", "-m", "venv", "/opt/venv"])
    pip = ["/opt/venv/bin/pip", "--disable-pip-version-check", "--quiet"]
    root.run([*pip, "list"], has_network=False)
    before = root.files()
    root.run([*pip, "install", "--no-index", file_of(folder, "*.whl")], has_network=False)
    use_python(root, "/opt/venv/bin/python")
    words = ["mypy", "--strict", "--cache-dir=/dev/null", "--python-executable=/opt/venv/bin/python"]
    root.run([*words, "/given/programs/shape.py"], has_network=False)
    root.run([*pip, "uninstall", "-y", "kuspveli"], has_network=False)
    check_gone(root, before)
    return f"{len(cases())} scripts by Python, with types; {GONE}"


def by_crate(root: Root, folder: Path) -> str:
    """A program in Rust whose manifest names the crate by its path, by Debian's cargo, without a registry."""
    root.run([*APT, "install", "cargo"])
    check_root(root, compiles=True)
    before = root.files()
    home = {"CARGO_HOME": "/opt/own/.cargo", "has_network": False}
    root.run(["mkdir", "/opt/kuspveli"])
    root.run(["tar", "-xzf", file_of(folder, "*-rust.tar.gz"), "-C", "/opt/kuspveli", "--strip-components=1"])
    root.run(["cargo", "new", "--quiet", "--vcs", "none", "/opt/own"], has_network=False)
    manifest = ["--manifest-path", "/opt/own/Cargo.toml"]
    root.run(["cargo", "add", "--quiet", "--offline", "--path", "/opt/kuspveli", *manifest], **home)
    root.run(["cp", "/given/programs/shape.rs", "/opt/own/src/main.rs"])
    root.run(["cargo", "build", "--quiet", "--offline", *manifest], **home)
    use_made(root, "/opt/own/target/debug/own", "Rust")
    root.run(["rm", "-r", "/opt/own", "/opt/kuspveli"])
    check_gone(root, before)
    return f"{len(cases())} scripts by Rust; {GONE}"


def by_lintian(root: Root, folder: Path) -> str:
    """The packages by Debian's own checker, which refuses errors."""
    root.run([*APT, "install", "lintian"])
    found = packages(folder, "libkuspveli0", "libkuspveli-dev", "kuspveli-tools", "python3-kuspveli")
    told = root.run(["lintian", "--allow-root", "--fail-on", "error", *found], has_network=False)
    return f"{len(found)} packages without errors, {len(told.splitlines())} warnings"


WAYS: dict[str, Callable[[Root, Path], str]] = {
    "archive": by_archive, "packages": by_packages, "c": by_c, "wheel": by_wheel, "crate": by_crate, "lintian": by_lintian,
}  # fmt: skip
