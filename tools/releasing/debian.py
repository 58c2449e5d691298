"""The four packages for Debian, by dpkg-deb, with what debhelper's commands would put into them."""

import hashlib
import os
import subprocess
import tempfile
from dataclasses import dataclass, field
from email.utils import formatdate
from pathlib import Path

from common.faults import FILES, ToolFault
from common.files import write_over
from common.plan import Entry
from common.version import numbers_of
from installing.layout import OWN
from releasing.archives import write_tree
from releasing.contents import EXAMPLES, MAN, PROOFS, TABLES, Built, documents, library_files, packed, pkg_config
from releasing.python import DISTRIBUTION, about_files, modules
from releasing.sources import EPOCH, Source

TRIPLET = "x86_64-linux-gnu"
REVISION = "1"
# The first two are the smaller ones of what python3-fonttools may have: without them apt takes SciPy, and a compiler for it.
FONTTOOLS = ("python3-munkres | python3-scipy", "python3-unicodedata2 | python3-all", "python3-fonttools")
LIBRARIES = f"usr/lib/{TRIPLET}"
# A document above this size is packed, as dh_compress does.
WHOLE = 4096
# What of a wheel's own files pip alone reads.
PIP = ("/LICENSE", "/WHEEL")
# What dh_python3 lets run: Python's own files are made after the files are there, and removed before them.
POSTINST = """#!/bin/sh
set -e
if [ "$1" = configure ] && command -v py3compile >/dev/null 2>&1; then
    py3compile -p {package}{folder}
fi
"""
PRERM = """#!/bin/sh
set -e
if command -v py3clean >/dev/null 2>&1; then
    py3clean -p {package}
else
    dpkg -L {package} | sed -n 's,/[^/]*\\.py$,/__pycache__,p' | sort -u | xargs -r rm -rf
fi
"""
COPYRIGHT = """Format: https://www.debian.org/doc/packaging-manuals/copyright-format/1.0/
Upstream-Name: Kuspveli

Files: *
Copyright: 2026 The Kuspveli authors
 HarfBuzz developers
 2020 Yevhenii Reizner
 Microsoft Corporation
License: Expat

Files: data/tables.json
Copyright: 1991-2022 Unicode, Inc.
License: Unicode

License: Expat
{licence}
License: Unicode
{unicode}"""


@dataclass(frozen=True)
class Package:
    """A package: fields of its control file, its files, and what stands beside the control file."""

    name: str
    fields: dict[str, str]
    about: str
    entries: dict[str, Entry]
    documents: tuple[str, ...] = ()
    control: dict[str, Entry] = field(default_factory=dict)

    @property
    def architecture(self) -> str:
        return self.fields["Architecture"]


def upstream(built: Built) -> str:
    """The version as Debian compares it: what was not proved is older than what was."""
    return built.name.replace("+", "~")


def debian_version(built: Built) -> str:
    return f"{upstream(built)}-{REVISION}"


def packages(built: Built, tree: dict[str, Entry], proofs: str) -> list[Package]:
    """The packages of a tree below a prefix."""
    library = f"libkuspveli{numbers_of(built.library.number)[0]}"
    return [
        shared_package(built, library, proofs),
        development_package(built, library, tree),
        tools_package(built, library, tree),
        python_package(built, library),
    ]


def shared_package(built: Built, name: str, proofs: str) -> Package:
    shared = built.library
    files = library_files(LIBRARIES, built)
    entries = {path: files[path] for path in (f"{LIBRARIES}/{shared.file}", f"{LIBRARIES}/{shared.soname}")}
    # It has the library's name, since the tables of another soname may stand beside these.
    entries[f"usr/share/{name}/{Path(TABLES).name}"] = Entry(built.tables)
    entries[f"usr/share/doc/{name}/{PROOFS}"] = Entry(proofs.encode())
    control = {
        "shlibs": Entry(f"libkuspveli {shared.soname.rpartition('.')[2]} {name} (>= {upstream(built)})\n".encode()),
        "symbols": Entry(symbols(built, name).encode()),
        "triggers": Entry(b"activate-noawait ldconfig\n"),
    }
    fields = {
        "Architecture": "amd64", "Multi-Arch": "same", "Section": "libs",
        "Depends": depends(shared.text),
    }  # fmt: skip
    return Package(name, fields, "text shaper that is proved right - shared library", entries, control=control)


def symbols(built: Built, name: str) -> str:
    """Since which version the library has each symbol, for the dependencies of programs that use it."""
    shared = built.library
    own = {f"{node}.0": f"{node}.0" for node in shared.calls.values()} | {shared.number: upstream(built)}
    rows = {f"KUSPVELI_{node}@KUSPVELI_{node}": node for node in shared.calls.values()}
    rows |= {f"{call}@KUSPVELI_{node}": node for call, node in shared.calls.items()}
    return "".join([f"{shared.soname} {name} #MINVER#\n", *(f" {row} {own[f'{rows[row]}.0']}\n" for row in sorted(rows))])


def development_package(built: Built, library: str, tree: dict[str, Entry]) -> Package:
    name = "libkuspveli-dev"
    files = library_files(LIBRARIES, built)
    entries = {path: files[path] for path in (f"{LIBRARIES}/libkuspveli.a", f"{LIBRARIES}/libkuspveli.so")}
    entries["usr/include/kuspveli.h"] = tree["include/kuspveli.h"]
    tables = f"share/{library}/{Path(TABLES).name}"
    entries[f"{LIBRARIES}/pkgconfig/kuspveli.pc"] = Entry(pkg_config("/usr", f"lib/{TRIPLET}", tables, built).encode())
    for each in EXAMPLES:
        entries[f"usr/share/doc/{name}/examples/{each}"] = Entry((built.root / "examples" / each).read_bytes())
    fields = {
        "Architecture": "amd64", "Multi-Arch": "same", "Section": "libdevel",
        "Depends": f"{library} (= {debian_version(built)})",
    }  # fmt: skip
    return Package(name, fields, "text shaper that is proved right - header and archive", entries, ("docs/API.md",))


def tools_package(built: Built, library: str, tree: dict[str, Entry]) -> Package:
    name = "kuspveli-tools"
    own = ("bin/", f"{OWN}/", f"{MAN}/")
    entries = {f"usr/{path}": entry for path, entry in tree.items() if path.startswith(own)}
    fields = {
        "Architecture": "amd64", "Section": "text",
        "Depends": ", ".join([
            depends(*(entry.text for entry in entries.values() if entry.text.startswith(b"\x7fELF"))),
            f"{library} (>= {upstream(built)})", "python3 (>= 3.11)", *FONTTOOLS,
        ]),
        "Suggests": "python3-cairo, unicode-data",
    }  # fmt: skip
    shown = ("README.md", "docs/TOOLS.md", "docs/DIFFERENCES.md", "docs/THEOREM.md")
    scripts = compiling(name, f" /usr/{OWN}")
    return Package(name, fields, "text shaper that is proved right - commands", entries, shown, scripts)


def python_package(built: Built, library: str) -> Package:
    name, folder = "python3-kuspveli", "usr/lib/python3/dist-packages"
    files = modules(built) | about_files(built, f"{DISTRIBUTION}-{built.name}.dist-info")
    entries = {f"{folder}/{path}": entry for path, entry in files.items() if not path.endswith(PIP)}
    fields = {
        "Architecture": "all", "Section": "python",
        "Depends": f"{library} (>= {upstream(built)}), python3:any",
    }  # fmt: skip
    about = "text shaper that is proved right - module for Python"
    return Package(name, fields, about, entries, ("docs/API.md",), compiling(name))


def compiling(package: str, folder: str = "") -> dict[str, Entry]:
    scripts = {"postinst": POSTINST, "prerm": PRERM}
    return {name: Entry(text.format(package=package, folder=folder).encode(), 0o755) for name, text in scripts.items()}


def depends(*files: bytes) -> str:
    """The packages of the libraries that programs or libraries are linked to, by dpkg-shlibdeps."""
    with tempfile.TemporaryDirectory() as folder:
        (Path(folder) / "debian").mkdir()
        control = "Source: kuspveli\n\nPackage: kuspveli\nArchitecture: amd64\n"
        write_over(Path(folder) / "debian" / "control", control)
        for number, text in enumerate(files):
            write_over(Path(folder) / f"{number}.so", text)
        words = ["dpkg-shlibdeps", "-O", *(f"-e{number}.so" for number in range(len(files)))]
        return call(words, folder).strip().removeprefix("shlibs:Depends=")


# ---- the files


def write_packages(folder: Path, built: Built, source: Source, tree: dict[str, Entry], proofs: str) -> None:
    """Writes the packages into a folder."""
    for package in packages(built, tree, proofs):
        write_package(folder, package, built, source)


def write_package(folder: Path, package: Package, built: Built, source: Source) -> None:
    entries = package.entries | papers(package, built, source)
    control = {**package.control, "control": Entry(control_text(package, built, source, entries).encode())}
    control["md5sums"] = Entry(md5sums(entries).encode())
    with tempfile.TemporaryDirectory() as room:
        root = Path(room) / "root"
        root.mkdir(mode=0o755)
        root.chmod(0o755)
        write_tree(root, entries | {f"DEBIAN/{name}": entry for name, entry in control.items()}, source.time)
        name = f"{package.name}_{debian_version(built)}_{package.architecture}.deb"
        # With one thread, since several cut what they pack into blocks.
        words = ["dpkg-deb", "--root-owner-group", "--threads-max=1", "-Zxz", "--build", str(root), str(folder / name)]
        call(words, room, {EPOCH: str(source.time)})


def papers(package: Package, built: Built, source: Source) -> dict[str, Entry]:
    """The licence, the changes of the package and of the project, and documents."""
    found = {
        "copyright": copyright_text(built.root).encode(),
        "changelog.gz": packed((built.root / "CHANGELOG.md").read_bytes()),
        "changelog.Debian.gz": packed(changelog(built, source)),
    }
    for name in package.documents:
        text = (built.root / name).read_bytes()
        found |= {f"{Path(name).name}.gz": packed(text)} if len(text) > WHOLE else {Path(name).name: text}
    return {f"usr/share/doc/{package.name}/{name}": Entry(text) for name, text in found.items()}


def changelog(built: Built, source: Source) -> str:
    what = "all crates proved" if built.is_proved else "compiled without proofs"
    return (
        f"kuspveli ({debian_version(built)}) unstable; urgency=medium\n\n"
        f"  * {built.name}, {what}. changelog.gz has its changes.\n\n"
        f" -- {source.author}  {formatdate(source.time)}\n"
    )


def copyright_text(root: Path) -> str:
    licence, unicode = ((root / name).read_text(encoding="utf-8") for name in ("LICENSE", "data/LICENSE.txt"))
    return COPYRIGHT.format(licence=indented(licence), unicode=indented(unicode))


def indented(text: str) -> str:
    """A text as the lines of a field."""
    return "".join(f" {line or '.'}\n" for line in text.rstrip("\n").split("\n"))


def control_text(package: Package, built: Built, source: Source, entries: dict[str, Entry]) -> str:
    kib = sum(-(-len(entry.text) // 1024) or 1 for entry in entries.values())
    own = {
        "Package": package.name, "Source": "kuspveli", "Version": debian_version(built), "Maintainer": source.author,
        "Installed-Size": str(kib), "Priority": "optional", **package.fields,
    }  # fmt: skip
    proof = (
        " Kuspveli turns a text and a font into glyphs with positions, as HarfBuzz does.\n"
        " It is a port of rustybuzz in which each function is proved.\n"
    )
    unproved = " .\n This one was compiled without its proofs, so nothing is known of it.\n"
    lines = "".join(f"{name}: {value}\n" for name, value in own.items() if value)
    return f"{lines}Description: {package.about}\n{proof}{'' if built.is_proved else unproved}"


def md5sums(entries: dict[str, Entry]) -> str:
    files = sorted((name, entry.text) for name, entry in entries.items() if not entry.link)
    return "".join(f"{hashlib.md5(text, usedforsecurity=False).hexdigest()}  {name}\n" for name, text in files)


def call(words: list[str], folder: str, more: dict[str, str] | None = None) -> str:
    environment = {**os.environ, "LC_ALL": "C.UTF-8", **(more or {})}
    ran = subprocess.run(words, cwd=folder, capture_output=True, text=True, errors="replace", check=False, env=environment)
    if ran.returncode:
        raise ToolFault(FILES, f"{words[0]}: {ran.stderr.strip()[-1000:]}")
    return ran.stdout
