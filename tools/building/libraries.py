"""The archive of the library for C, built over the libraries that the gate leaves in its folder.

rt lib would prove all crates once more: it takes a library by a stamp beside it, which the gate doesn't write. So
rattle is called as rt lib calls it over libraries that are built."""

import subprocess
from pathlib import Path

from building.gate import Failure
from building.kit import Kit
from common.files import faults_of
from sources.crates import all_needs, read_crates


def library_of(root: Path, name: str) -> Path:
    return root / "crates" / name / "out" / "rlib" / f"{name}.rlib"


def archive_words(kit: Kit, tree: Path, name: str, made: Path, jobs: int) -> list[str | Path]:
    """With what rattle proves a crate over the libraries below it, and builds it as a static library."""
    crates = read_crates(tree)
    words: list[str | Path] = [kit.folder / "bin" / "rattle", "build", "--crate-name", name, "src/lib.rt"]
    for needed in ("std", *crates[name]):
        rlib = library_of(tree, needed) if needed in crates else kit.folder / "rlibs" / f"{needed}.rlib"
        words += ["--extern", f"{needed}={rlib}"]
    below = [library_of(tree, crate).parent for crate in all_needs(name, crates)[:-1]]
    for folder in (kit.folder / "rlibs", *below):
        words += ["-L", f"dependency={folder}"]
    words += ["--antt-project", kit.folder / "rattle" / "logic" / "antt-project.json"]
    words += ["--logic-built", kit.folder / "logic_built", "--toolchain", kit.folder / "toolchain", "--backend", "llvm"]
    words += ["--links", f"{name}=", "--jobs", str(jobs), "--crate-type", "staticlib"]
    return [*words, "-o", made]


def build_archive(
    kit: Kit, tree: Path, root: Path, name: str, made: Path, log: Path, jobs: int | None
) -> Failure | None:
    """Proves the crate over the libraries of the tree, and builds its archive."""
    ran = subprocess.run(
        archive_words(kit, tree, name, made, jobs or 1),
        cwd=tree / "crates" / name,
        stdin=subprocess.DEVNULL,
        stdout=subprocess.PIPE,
        stderr=subprocess.STDOUT,
        text=True,
        errors="replace",
        check=False,
    )
    printed = ran.stdout.replace(str(tree), str(root))
    if ran.returncode < 0:
        printed += f"rattle was killed by signal {-ran.returncode}\n"
    with faults_of(log), open(log, "a", encoding="utf-8") as file:
        file.write(printed)
    return Failure(name, printed.splitlines(keepends=True), ran.returncode) if ran.returncode else None
