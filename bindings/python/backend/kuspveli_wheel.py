"""The backend (PEP 517) by which pip makes a wheel of this folder: the module as a package, since one that says that it
has types (PEP 561) is a folder, with the tables; the shared library where it is built, and where the clone is. It needs
the standard library alone."""

import base64
import hashlib
import os
import sys
import zipfile
from pathlib import Path
from typing import Any, Optional

HERE = Path(__file__).resolve().parent.parent
ROOT = HERE.parent.parent
sys.path.insert(0, str(HERE))

import kuspveli_library as library  # noqa: E402

NAME = "kuspveli"
# Each file of the wheel by the one of this folder that it is.
MODULES = {f"{NAME}/__init__.py": "kuspveli.py", "kuspveli_library.py": "kuspveli_library.py"}
MARK, TABLES = f"{NAME}/py.typed", f"{NAME}/tables.json"
LICENCES = ("LICENSE", "data/LICENSE.txt")
TAG = "py3-none-linux_x86_64"
PYTHON = ">=3.9"


def build_wheel(folder: str, settings: Optional[dict[str, Any]] = None, metadata: Optional[str] = None) -> str:
    """Writes the wheel into a folder, and returns its name."""
    version = (ROOT / "VERSION").read_text(encoding="utf-8").strip()
    files = contents(version)
    record = f"{NAME}-{version}.dist-info/RECORD"
    lines = [f"{name},sha256={digest(text)},{len(text)}\n" for name, text in files.items()]
    files[record] = "".join([*lines, f"{record},,\n"]).encode()
    made = f"{NAME}-{version}-{TAG}.whl"
    with zipfile.ZipFile(os.path.join(folder, made), "w", zipfile.ZIP_DEFLATED) as wheel:
        for name, text in files.items():
            wheel.writestr(name, text)
    return made


def build_sdist(folder: str, settings: Optional[dict[str, Any]] = None) -> str:
    raise NotImplementedError("kuspveli has no source distribution: pip install the folder bindings/python of a clone")


def contents(version: str) -> dict[str, bytes]:
    """What the wheel has, by the names in it."""
    about = f"{NAME}-{version}.dist-info"
    files = {name: (HERE / module).read_bytes() for name, module in MODULES.items()}
    files |= {MARK: b"", TABLES: (ROOT / "data" / "tables.json").read_bytes()}
    files[f"{library.FOLDER}/{library.CLONE}"] = os.fsencode(ROOT) + b"\n"
    built = library.built_in(ROOT)
    if built is not None:
        kept = f"{library.UNPROVED}/" if library.is_unproved(built) else ""
        files[f"{library.FOLDER}/{kept}{library.LIBRARY}"] = built.read_bytes()
    files[f"{about}/LICENSE"] = b"\n".join((ROOT / name).read_bytes() for name in LICENCES)
    files[f"{about}/METADATA"] = metadata_of(version).encode()
    files[f"{about}/WHEEL"] = f"Wheel-Version: 1.0\nGenerator: {NAME}\nRoot-Is-Purelib: false\nTag: {TAG}\n".encode()
    return files


def metadata_of(version: str) -> str:
    return (
        f"Metadata-Version: 2.1\nName: {NAME}\nVersion: {version}\n"
        "Summary: A text shaper that is proved right, over libkuspveli\n"
        f"License: MIT\nRequires-Python: {PYTHON}\nClassifier: Typing :: Typed\n"
        "Classifier: Operating System :: POSIX :: Linux\nDescription-Content-Type: text/markdown\n\n"
        f"{(HERE / 'README.md').read_text(encoding='utf-8')}"
    )


def digest(text: bytes) -> str:
    return base64.urlsafe_b64encode(hashlib.sha256(text).digest()).rstrip(b"=").decode()
