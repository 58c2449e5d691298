"""The wheel: the module as a typed package, with library and tables inside."""

import base64
import hashlib
import sys
from pathlib import Path

from common.files import write_over
from common.plan import Entry
from releasing.archives import zip_file
from releasing.contents import TABLES, Built
from sources.crates import ROOT

BINDING = ROOT / "bindings" / "python"
sys.path.append(str(BINDING))

import kuspveli_library as library  # noqa: E402

DISTRIBUTION = "kuspveli"
TEXT = Path(__file__).parent / "wheel.md"
# What pip takes by the name of a wheel: PEP 600.
LEAST_GLIBC = 5
PYTHON = ">=3.9"


def modules(built: Built) -> dict[str, Entry]:
    """The module as a package, since one that says that it has types is a folder, with the tables, and the module that
    finds the library."""
    return {
        f"{DISTRIBUTION}/__init__.py": Entry((BINDING / "kuspveli.py").read_bytes()),
        f"{DISTRIBUTION}/py.typed": Entry(),
        f"{DISTRIBUTION}/{Path(TABLES).name}": Entry(built.tables),
        "kuspveli_library.py": Entry((BINDING / "kuspveli_library.py").read_bytes()),
    }


def about_files(built: Built, about: str) -> dict[str, Entry]:
    """What tells of the package, but for the list of its files."""
    wheel = f"Wheel-Version: 1.0\nGenerator: {DISTRIBUTION}\nRoot-Is-Purelib: false\nTag: {tag(built)}\n"
    return {
        f"{about}/LICENSE": Entry(built.licences),
        f"{about}/METADATA": Entry(metadata(built).encode()),
        f"{about}/WHEEL": Entry(wheel.encode()),
        f"{about}/top_level.txt": Entry(f"{DISTRIBUTION}\nkuspveli_library\n".encode()),
    }


def tag(built: Built) -> str:
    """For which systems it is: those with the glibc that the library needs, or a newer one."""
    return f"py3-none-manylinux_2_{max(built.library.glibc, LEAST_GLIBC)}_x86_64"


def metadata(built: Built) -> str:
    about = "A text shaper that is proved right" + ("" if built.is_proved else "; this one was compiled without its proofs")
    return (
        f"Metadata-Version: 2.1\nName: {DISTRIBUTION}\nVersion: {built.name}\nSummary: {about}\nLicense: MIT\n"
        f"Requires-Python: {PYTHON}\nClassifier: Typing :: Typed\nClassifier: Operating System :: POSIX :: Linux\n"
        f"Description-Content-Type: text/markdown\n\n{TEXT.read_text(encoding='utf-8')}"
    )


def write_wheel(folder: Path, built: Built, time: int) -> None:
    """Writes the wheel into a folder. The list of its files is its last one."""
    about = f"{DISTRIBUTION}-{built.name}.dist-info"
    files = modules(built)
    if built.is_proved:
        files[f"{library.FOLDER}/{library.LIBRARY}"] = Entry(built.library.text, 0o755)
    else:
        files[f"{library.FOLDER}/{library.UNPROVED}/{library.LIBRARY}"] = Entry(built.library.text, 0o755)
        # pip removes the folder of each file, and no folder that has folders alone.
        files[f"{library.FOLDER}/{library.UNPROVED}.txt"] = Entry(b"The library was compiled without its proofs.\n")
    files = dict(sorted((files | about_files(built, about)).items()))
    lines = [f"{name},sha256={digest(entry.text)},{len(entry.text)}\n" for name, entry in files.items()]
    files[f"{about}/RECORD"] = Entry("".join([*lines, f"{about}/RECORD,,\n"]).encode())
    write_over(folder / f"{DISTRIBUTION}-{built.name}-{tag(built)}.whl", zip_file(files, time))


def digest(text: bytes) -> str:
    return base64.urlsafe_b64encode(hashlib.sha256(text).digest()).rstrip(b"=").decode()
