"""The bindings as packages: one version, where each finds the library, what a missing one says, pip without network."""

import contextlib
import io
import os
import re
import shutil
import subprocess
import sys
import tempfile
import tomllib
import unittest
from pathlib import Path
from unittest import mock

from support import write_files

from sources.crates import ROOT

PYTHON = ROOT / "bindings" / "python"
RUST = ROOT / "bindings" / "rust"
sys.path.append(str(PYTHON))

import kuspveli_library as library  # noqa: E402

VERSION = (ROOT / "VERSION").read_text(encoding="utf-8").strip()
BUILDS = "tools/build_library proves and builds it"
# What pip may not reach: no index, and none at the place where it is sought.
ALONE = {"PIP_NO_INDEX": "1", "PIP_INDEX_URL": "http://127.0.0.1:9/", "PIP_DISABLE_PIP_VERSION_CHECK": "1"}

# What a checker of types has to take, and what not after it, each with a part of what it says.
TYPED = """
from kuspveli import Feature, Flags, Font, Glyph

def shaped(path: str) -> list[Glyph]:
    font = Font.open(path, names=False)
    return font.shape("office", features=[Feature("liga", 0)], direction="ltr", flags=Flags.BOT)

"""
WRONG = {
    'Font.open("a").shape("b", directions="ltr")\n': 'Unexpected keyword argument "directions" for "shape"',
    "Font(b'', index='0')\n": "No overload variant",
    'Font.open("a").upem().x\n': '"int" has no attribute "x"',
}


def without_library() -> dict[str, str]:
    """The environment without a library that it names, and without modules."""
    left_out = (library.VARIABLE, "LD_LIBRARY_PATH", "PYTHONPATH")
    return {name: value for name, value in os.environ.items() if name not in left_out}


def stand_in(folder: Path, number: str = VERSION) -> Path:
    """A shared library of a version with each call that the module declares."""
    calls = sorted(set(re.findall(r"\bkus_\w+", (PYTHON / "kuspveli.py").read_text(encoding="utf-8"))))
    source = folder / "calls.c"
    code = int.from_bytes(bytes(map(int, number.split("."))), "big")
    answers = {call: code if call == "kus_version" else 0 for call in calls}
    source.write_text("".join(f"int {call} (void) {{ return {answer}; }}\n" for call, answer in answers.items()))
    made = folder / "made.so"
    subprocess.run(["gcc", "-shared", "-o", made, source], check=True)
    return made


class Version(unittest.TestCase):
    def test_one(self) -> None:
        """What can't read VERSION has the same: Rust's package and its lock, and the newest version of the changes."""
        self.assertRegex(VERSION, r"^\d+\.\d+\.\d+$")
        package = tomllib.loads((RUST / "Cargo.toml").read_text())["package"]
        [locked] = tomllib.loads((RUST / "Cargo.lock").read_text())["package"]
        self.assertEqual([package["version"], locked["version"]], [VERSION, VERSION])
        self.assertEqual(re.findall(r"^## (\d\S*)", (ROOT / "CHANGELOG.md").read_text(), re.MULTILINE)[0], VERSION)
        self.assertEqual(library.version(), VERSION)


class Found(unittest.TestCase):
    """Where the module for Python finds the library."""

    def setUp(self) -> None:
        folder = tempfile.TemporaryDirectory()
        self.addCleanup(folder.cleanup)
        self.root = Path(folder.name)
        self.here = self.root / "clone" / "bindings" / "python"
        self.here.mkdir(parents=True)
        for patch in (
            mock.patch.object(library, "HERE", self.here),
            mock.patch.object(sys, "prefix", str(self.root / "prefix")),
            mock.patch.dict(os.environ, without_library(), clear=True),
        ):
            patch.start()
            self.addCleanup(patch.stop)

    def put(self, *names: str) -> None:
        write_files(self.root, {name: "" for name in names})

    def found(self) -> tuple[str, str]:
        """The path below the folder, and what is told."""
        with contextlib.redirect_stderr(io.StringIO()) as told:
            path = library.find()
        return str(Path(path).relative_to(self.root)), told.getvalue()

    def test_order(self) -> None:
        """What is named, beside the module, in the clone, proved before unproved, and in the prefix."""
        beside, built = "clone/bindings/python/kuspveli.libs/", "clone/out/"
        places = ["prefix/lib/", f"{built}unproved/", built, f"{beside}unproved/", beside]
        self.put("clone/tools/build_library")
        for place in places:
            self.put(f"{place}libkuspveli.so")
            path, told = self.found()
            self.assertEqual(path, f"{place}libkuspveli.so")
            self.assertEqual("unproved" in path, "unproved" in told)
            self.assertEqual("tools/build_library proves" in told, "unproved" in told)
        self.put("named.so")
        with mock.patch.dict(os.environ, {library.VARIABLE: str(self.root / "named.so")}):
            self.assertEqual(self.found(), ("named.so", ""))

    def test_noted_clone(self) -> None:
        """Where pip put the module, the clone that it was made of is known."""
        self.put("other/out/libkuspveli.so")
        write_files(self.here, {"kuspveli.libs/clone.txt": f"{self.root}/other\n"})
        self.assertEqual(self.found(), ("other/out/libkuspveli.so", ""))
        for name, mode in (("other/out/libkuspveli.so", 0o666), ("other/out", 0o775), ("other", 0o777)):
            before = (self.root / name).stat().st_mode
            (self.root / name).chmod(mode)
            with mock.patch.object(library, "SYSTEM", ()):
                self.assertRaisesRegex(ImportError, "passed over, since others may write there: .*other/out", library.find)
            (self.root / name).chmod(before)
        (self.root / "other").rename(self.root / "moved")
        (self.root / "other").symlink_to("moved")
        with mock.patch.object(library, "SYSTEM", ()):
            self.assertRaisesRegex(ImportError, "passed over", library.find)

    def test_installed(self) -> None:
        """The library below whose prefix the module is installed. It is unproved where tools/install noted so; LD_LIBRARY_PATH is sought too."""
        self.put("prefix/lib/libkuspveli.so", "own/libkuspveli.so", "clone/installed.sha256", "libkuspveli.so")
        self.assertEqual(self.found()[0], "libkuspveli.so")
        (self.root / "clone/installed.sha256").unlink()
        self.assertEqual(self.found()[1], "")
        (self.root / "prefix/lib/kuspveli/out/unproved").mkdir(parents=True)
        self.assertIn("kuspveli: unproved: ", self.found()[1])
        with mock.patch.dict(os.environ, {"LD_LIBRARY_PATH": f"/none:{self.root}/own"}):
            self.assertEqual(self.found(), ("own/libkuspveli.so", ""))

    def test_loader(self) -> None:
        """Where no place has a file, the loader is asked for the soname; of what it finds the name alone is known."""
        loaded = mock.patch.multiple(library, SYSTEM=(), SONAME="libc.so.6")
        with loaded:
            self.assertEqual(library.find(), "libc.so.6")
            self.put("prefix/lib/libkuspveli.so")
            self.assertEqual(self.found()[0], "prefix/lib/libkuspveli.so")

    def test_unpacked(self) -> None:
        """Beside the tools of an archive that was unpacked, which has VERSION and no list of what was installed."""
        self.put("clone/VERSION", "libkuspveli.so", "prefix/lib/libkuspveli.so")
        self.assertEqual(self.found()[0], "libkuspveli.so")

    def test_missing(self) -> None:
        """One line says what builds it, and where it was sought."""
        with mock.patch.dict(os.environ, {library.VARIABLE: "/none.so"}):
            self.assertRaisesRegex(ImportError, f"^KUSPVELI_LIBRARY names /none.so, and .*{BUILDS}", library.find)
        alone = mock.patch.multiple(library, SYSTEM=(), SONAME="libnone.so.0")
        with alone, self.assertRaises(ImportError) as caught:
            library.find()
        told = str(caught.exception)
        self.assertTrue(told.startswith(f"libkuspveli.so is not there: {BUILDS}") and "\n" not in told, told)
        self.assertIn(str(self.root / "prefix" / "lib"), told)


@unittest.skipUnless(shutil.which("gcc"), "needs gcc")
class Pip(unittest.TestCase):
    """pip install of the folder, into a virtual environment, where no index can be reached."""

    def setUp(self) -> None:
        folder = tempfile.TemporaryDirectory()
        self.addCleanup(folder.cleanup)
        self.root = Path(folder.name)
        self.clone = self.root / "clone"
        shutil.copytree(PYTHON, self.clone / "bindings" / "python", ignore=shutil.ignore_patterns("__pycache__"))
        (self.clone / "data").mkdir()
        for name in ("VERSION", "LICENSE", "data/LICENSE.txt", "data/tables.json"):
            shutil.copy(ROOT / name, self.clone / name)
        subprocess.run(["/usr/bin/python3", "-m", "venv", self.root / "venv"], check=True, capture_output=True)
        self.python = self.root / "venv" / "bin" / "python"
        self.environment = {**without_library(), **ALONE}

    def install(self) -> None:
        words = [self.python, "-m", "pip", "install", "--quiet", self.clone / "bindings" / "python"]
        ran = subprocess.run(words, capture_output=True, text=True, check=False, env=self.environment)
        self.assertEqual(ran.returncode, 0, ran.stderr)

    def run_python(self, code: str) -> subprocess.CompletedProcess[str]:
        words = [self.python, "-c", code]
        return subprocess.run(words, capture_output=True, text=True, check=False, env=self.environment, cwd=self.root)

    def test_with_library(self) -> None:
        """The library that is built comes along, with the tables, so the clone may go; what pip put there, pip removes."""
        (self.clone / "out").mkdir()
        shutil.copy(stand_in(self.root), self.clone / "out" / "libkuspveli.so")
        self.install()
        shutil.rmtree(self.clone)
        ran = self.run_python("import kuspveli; print(kuspveli.__version__, kuspveli.LIBRARY._name)")
        self.assertEqual(ran.returncode, 0, ran.stderr)
        version, path = ran.stdout.split()
        self.assertEqual((version, ran.stderr), (VERSION, ""))
        self.assertTrue(path.endswith("site-packages/kuspveli.libs/libkuspveli.so"), path)
        code = "from importlib.resources import files; print((files('kuspveli') / 'tables.json').read_text(), end='')"
        self.assertEqual(self.run_python(code).stdout, (ROOT / "data" / "tables.json").read_text())
        words = [self.python, "-m", "pip", "uninstall", "--quiet", "-y", "kuspveli"]
        subprocess.run(words, check=True, capture_output=True, env=self.environment)
        packages = Path(path).parent.parent
        self.assertEqual([each.name for each in packages.glob("kuspveli*")], [])

    @unittest.skipUnless(shutil.which("mypy"), "needs mypy")
    def test_types(self) -> None:
        """A checker of types finds those of the module, and takes a program that passes each setting by name."""
        self.install()
        given = self.root / "own.py"
        given.write_text(TYPED, encoding="utf-8")
        ran = self.mypy(given)
        self.assertEqual((ran.returncode, ran.stdout), (0, "Success: no issues found in 1 source file\n"), ran.stderr)
        for wrong, told in WRONG.items():
            given.write_text(TYPED + wrong, encoding="utf-8")
            self.assertIn(told, self.mypy(given).stdout, wrong)

    def mypy(self, given: Path) -> subprocess.CompletedProcess[str]:
        words = ["mypy", "--strict", "--cache-dir=/dev/null", f"--python-executable={self.python}", given]
        return subprocess.run(words, capture_output=True, text=True, check=False, env=self.environment, cwd=self.root)

    def test_other_version(self) -> None:
        """A library of another first number, or of an earlier second one, is refused by its file's name; a later one isn't."""
        self.install()
        first, second, _ = map(int, VERSION.split("."))
        earlier = [f"{first}.{second - 1}.0"] if second else []
        for number in (f"{first + 1}.{second}.0", *earlier, f"{first}.{second + 1}.0"):
            other = stand_in(self.root, number)
            self.environment["KUSPVELI_LIBRARY"] = str(other)
            ran = self.run_python("import kuspveli")
            if number == f"{first}.{second + 1}.0":
                self.assertEqual((ran.returncode, ran.stderr), (0, ""))
                continue
            self.assertEqual(ran.returncode, 1)
            told = f"ImportError: {other}: the library is of version {number}, and kuspveli.py of {VERSION}: {BUILDS}"
            self.assertIn(told, ran.stderr)

    def test_without_library(self) -> None:
        """Without one the import says what builds it; one that is built later is found in the clone."""
        self.install()
        ran = self.run_python("import kuspveli")
        self.assertNotEqual(ran.returncode, 0)
        self.assertIn(f"ImportError: libkuspveli.so is not there: {BUILDS}", ran.stderr)
        built = self.clone / "out" / "unproved" / "libkuspveli.so"
        built.parent.mkdir(parents=True)
        shutil.copy(stand_in(self.root), built)
        ran = self.run_python("import kuspveli; print(kuspveli.LIBRARY._name)")
        self.assertEqual((ran.returncode, ran.stdout), (0, f"{built}\n"), ran.stderr)
        self.assertEqual(ran.stderr, f"kuspveli: unproved: {built}; tools/build_library proves and builds it\n")


@unittest.skipUnless(shutil.which("cargo"), "needs cargo")
class Cargo(unittest.TestCase):
    def test_missing(self) -> None:
        """A crate that names the binding by its path is told what builds the archive."""
        with tempfile.TemporaryDirectory() as folder:
            package = f'[package]\nname = "own"\nversion = "0.1.0"\n[dependencies]\nkuspveli = {{ path = "{RUST}" }}\n'
            write_files(Path(folder), {"Cargo.toml": package, "src/main.rs": "fn main() {}\n"})
            environment = {**os.environ, "KUSPVELI_OUT": f"{folder}/none"}
            words = ["cargo", "build", "--quiet", "--offline"]
            ran = subprocess.run(words, cwd=folder, env=environment, capture_output=True, text=True, check=False)
        self.assertNotEqual(ran.returncode, 0)
        told = [line.strip() for line in ran.stderr.splitlines() if "kuspveli: " in line]
        self.assertEqual(len(told), 1, ran.stderr)
        self.assertTrue(told[0].startswith(f"kuspveli: libkuspveli.a is not there: {BUILDS}"), told)
        self.assertIn(f"{folder}/none", told[0])


if __name__ == "__main__":
    unittest.main()
