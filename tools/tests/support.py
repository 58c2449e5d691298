"""Where the tools and the fonts are, and running a tool."""

import contextlib
import importlib.util
import io
import json
import os
import re
import shutil
import signal
import subprocess
import sys
import tempfile
import unittest
from importlib.abc import MetaPathFinder
from pathlib import Path
from typing import Any, Callable

TOOLS = Path(__file__).parent.parent
BENCH = TOOLS.parent / "bench"
sys.path[:0] = [str(TOOLS), str(BENCH)]

import building.ready  # noqa: E402
from building.places import KUSPVELI, Place, standing  # noqa: E402
from building.ready import NO_BUILD  # noqa: E402
from common.faults import ToolFault  # noqa: E402

DEJAVU = "/usr/share/fonts/truetype/dejavu/DejaVuSans.ttf"
NASKH = "/usr/share/fonts/truetype/noto/NotoNaskhArabic-Regular.ttf"
DEVANAGARI = "/usr/share/fonts/truetype/noto/NotoSansDevanagari-Regular.ttf"
FONTS = (DEJAVU, NASKH, DEVANAGARI)
NOTO = "/usr/share/fonts/truetype/noto/"
UNICODE = "/usr/share/unicode/UnicodeData.txt"
HAS_FONTS = importlib.util.find_spec("fontTools") is not None and all(Path(font).is_file() for font in FONTS)
FONTS_NEED = "needs python3-fonttools, fonts-dejavu-core and fonts-noto-core"
needs_fonts = unittest.skipUnless(HAS_FONTS, FONTS_NEED)
# Stands before each use of a program that was compiled without proofs.
UNPROVED = re.compile(r"^\w+: (kuspveli|hb_shape) is unproved: .*\n", re.MULTILINE)
needs_unicode = unittest.skipUnless(Path(UNICODE).is_file(), "needs unicode-data")


# Fonts are read by this program. None is made for a test, in this process or in one that a test starts.
KUSPVELI_NEEDED = "needs the program kuspveli (tools/build)"
HAS_KUSPVELI = standing(KUSPVELI).is_current()
needs_kuspveli = unittest.skipUnless(HAS_KUSPVELI, KUSPVELI_NEEDED)
make_program = building.ready.make


def make_or_skip(place: Place, name: str, why: str) -> None:
    """Skips the test where this repository's program is missing."""
    try:
        make_program(place, name, why)
    except ToolFault as fault:
        raise unittest.SkipTest(KUSPVELI_NEEDED) if NO_BUILD in str(fault) else fault


if not HAS_KUSPVELI:
    os.environ[NO_BUILD] = "1"
    building.ready.make = make_or_skip


class WithoutFonts(MetaPathFinder):
    """Skips each module of tests that imports fontTools."""

    def find_spec(self, fullname: str, *_: object) -> None:
        if fullname == "fontTools":
            raise unittest.SkipTest(FONTS_NEED)


if not HAS_FONTS:
    sys.meta_path.insert(0, WithoutFonts())


def run(tool: str, *words: str | bytes) -> subprocess.CompletedProcess[bytes]:
    """Runs a tool; its cache is a folder of its own, so that no test sees another's."""
    environment = {**os.environ, "XDG_CACHE_HOME": tempfile.gettempdir()}
    ran = subprocess.run([TOOLS / tool, *words], capture_output=True, check=False, env=environment)
    if NO_BUILD.encode() in ran.stderr:
        raise unittest.SkipTest(KUSPVELI_NEEDED)
    return ran


def json_of(tool: str, *words: str) -> dict[str, Any]:
    """What a tool prints, as a value; it has to succeed."""
    result = run(tool, *words)
    if result.returncode != 0:
        raise AssertionError(result.stderr.decode())
    return json.loads(result.stdout)


def told_lines(stderr: bytes | str) -> str:
    """What a tool told, but that a program is unproved."""
    return UNPROVED.sub("", stderr if isinstance(stderr, str) else stderr.decode())


def write_files(root: Path, files: dict[str, str]) -> None:
    """Writes files by their paths below a folder."""
    for name, text in files.items():
        path = root / name
        path.parent.mkdir(parents=True, exist_ok=True)
        path.write_text(text, encoding="utf-8")


def copy_tools(root: Path) -> None:
    """Copies the tool build, with what it is made of, into another repository."""
    (root / "tools").mkdir()
    for part in ("build", "building", "common", "sources"):
        source = TOOLS / part
        (shutil.copytree if source.is_dir() else shutil.copy)(source, root / "tools" / part)


def write_stand_in(path: Path, body: str) -> str:
    """Writes a shell script that stands in for the program; its path."""
    path.write_text(f"#!/bin/sh\n{body}\n", encoding="utf-8")
    path.chmod(0o755)
    return str(path)


def interruptible() -> None:
    """For a process that is to be interrupted: where this one ignores interrupts those that it makes would too."""
    signal.signal(signal.SIGINT, signal.SIG_DFL)


def told_by(main: Callable[[list[str]], int], *words: str) -> tuple[int, str]:
    """A tool's status and what it prints."""
    out = io.StringIO()
    with contextlib.redirect_stdout(out):
        status = main(list(words))
    return status, out.getvalue()
