"""The two files of the library for C: one object, with the calls alone as its symbols."""

import subprocess
from pathlib import Path

from building.kit import Kit
from common.faults import FILES, ToolFault

# With this the names of the library's calls begin.
PREFIX = "kus_"


def link_library(kit: Kit, made: Path, room: Path) -> list[Path]:
    """Makes the archive and the shared library of what was compiled and of the kit's calls for memory."""
    whole, archive, shared = room / "whole.o", room / "libkuspveli.a", room / "libkuspveli.so"
    call("ld", "-r", "-o", whole, "--whole-archive", made, kit.heap)
    call("objcopy", "--wildcard", f"--keep-global-symbol={PREFIX}*", whole)
    call("ar", "rcs", archive, whole)
    call("gcc", "-shared", "-Wl,-z,defs", "-Wl,-soname,libkuspveli.so", "-s", "-o", shared, whole)
    return [archive, shared]


def call(*words: str | Path) -> None:
    ran = subprocess.run(words, stdin=subprocess.DEVNULL, capture_output=True, text=True, errors="replace", check=False)
    if ran.returncode:
        raise ToolFault(FILES, f"{Path(words[0]).name} failed: {ran.stderr.strip()[-2000:]}")
