"""What tools write: whole, or a status and the name of what couldn't be written, for each tool and each kind of output."""

import os
import resource
import signal
import subprocess
import tempfile
import unittest
from pathlib import Path
from typing import Any

from support import BENCH, DEJAVU, TOOLS, needs_fonts, needs_kuspveli, needs_unicode, write_files

from building.places import KUSPVELI
from building.ready import is_ready
from common.files import NEW, write_file, write_over

FILES = 6
UNBUFFERED = {"PYTHONUNBUFFERED": "1"}
# What prints more than a pipe or a small file holds.
LONG = (("where", "--print"), ("hostile", "--list"), ("growing_calls",))
# What a tool and the program tell of a full disk: what of, and why.
OF_TOOL, OF_PROGRAM = ("standard output", "No space left on device"), ("output", "Write")
# Bytes that a file may have.
SMALL = 1000


def tools() -> list[Path]:
    """Each tool that is a command of this project's own: those that begin with the first import."""
    found = [path for folder in (TOOLS, BENCH) for path in sorted(folder.iterdir()) if path.is_file()]
    return [path for path in found if b"import common.start" in path.read_bytes()]


def limited(size: int) -> Any:
    """A process whose files may have so many bytes: a write past it is short, and the next one fails."""

    def prepare() -> None:
        signal.signal(signal.SIGXFSZ, signal.SIG_IGN)
        resource.setrlimit(resource.RLIMIT_FSIZE, (size, size))

    return prepare


class Written(unittest.TestCase):
    def setUp(self) -> None:
        self.folder = Path(self.enterContext(tempfile.TemporaryDirectory()))
        self.environment = {**os.environ, "XDG_CACHE_HOME": str(self.folder / "cache")}

    def ran(self, words: list[str | Path], more: dict[str, str], **how: Any) -> subprocess.CompletedProcess[str]:
        how = {"stdout": subprocess.PIPE, **how}
        environment = {**self.environment, **more}
        return subprocess.run(words, stderr=subprocess.PIPE, text=True, check=False, env=environment, timeout=120, **how)

    def assert_told(self, ran: subprocess.CompletedProcess[str], name: object, why: str) -> None:
        """Status 6, and one line with the name and why."""
        self.assertEqual(ran.returncode, FILES, (ran.args, ran.stderr))
        told = [line for line in ran.stderr.splitlines() if "unproved" not in line]
        self.assertEqual(len(told), 1, ran.stderr)
        self.assertTrue(told[0].endswith(f"{name}: {why}"), told)

    def test_all_tools(self) -> None:
        """The help of each, to a full disk, without Python's buffer."""
        self.assertGreater(len(tools()), 20)
        for tool in tools():
            with open("/dev/full", "w", encoding="utf-8") as full:
                ran = self.ran([tool, "--help"], UNBUFFERED, stdout=full)
            # The program says by itself what it takes, in its own words.
            is_program = tool.name == KUSPVELI.name and is_ready(KUSPVELI)
            self.assert_told(ran, *(OF_PROGRAM if is_program else OF_TOOL))

    def test_short_writes(self) -> None:
        """A file that takes a part of what is written, and a pipe whose reader goes."""
        for tool, *words in LONG:
            with open(self.folder / "out", "wb") as out:
                ran = self.ran([TOOLS / tool, *words], UNBUFFERED, stdout=out, preexec_fn=limited(SMALL))
            self.assert_told(ran, "standard output", "File too large")
        command = f"'{TOOLS}/where' --print | true; echo ${{PIPESTATUS[0]}}"
        ran = self.ran(["/bin/bash", "-c", command], UNBUFFERED)
        self.assertEqual(ran.stdout, f"{FILES}\n")
        self.assertIn("standard output: Broken pipe", ran.stderr)

    @needs_fonts
    @needs_kuspveli
    @needs_unicode
    def test_converters(self) -> None:
        for words in (["font_to_json", "--quiet", DEJAVU], ["unicode_to_json"]):
            with open(self.folder / "out", "wb") as out:
                ran = self.ran([TOOLS / words[0], *words[1:]], UNBUFFERED, stdout=out, preexec_fn=limited(SMALL))
            told = [line for line in ran.stderr.splitlines() if "standard output" in line]
            self.assertEqual((ran.returncode, len(told)), (FILES, 1), ran.stderr)

    def test_files(self) -> None:
        """A file that can't be written whole is as it was, and nothing stands beside it."""
        write_files(self.folder, {"whole": "whole\n"})
        code = "import sys; sys.path.insert(0, sys.argv[1])\nfrom pathlib import Path\nfrom common.files import write_file\n"
        code += "try: write_file(Path(sys.argv[2]), 'x' * 5000)\nexcept OSError as error: print(error.filename, error.strerror)"
        for name, left in (("whole", ["whole"]), ("new", ["whole"])):
            path = self.folder / name
            words: list[str | Path] = ["/usr/bin/python3", "-c", code, TOOLS, path]
            self.assertEqual(self.ran(words, {}, preexec_fn=limited(SMALL)).stdout, f"{path} File too large\n")
            self.assertEqual([each.name for each in self.folder.iterdir()], left)
        self.assertEqual((self.folder / "whole").read_text(), "whole\n")

    def test_tools_that_write_files(self) -> None:
        """Each names the file that can't be written whole, and leaves no half of one."""
        write_files(self.folder, {"other/crates.txt": "#\n"})
        rows = (["hostile", "--write", self.folder / "attacks", "removed ignorables"], ["vendor", self.folder / "other"])
        for tool, *words in rows:
            ran = self.ran([TOOLS / tool, *words], UNBUFFERED, preexec_fn=limited(SMALL))
            self.assertEqual((ran.returncode, ran.stderr.count("\n")), (FILES, 1), ran.stderr)
            self.assertIn(f"{self.folder}/", ran.stderr)
            self.assertIn(": File too large", ran.stderr)
        found = [path for path in self.folder.rglob("*") if path.is_file()]
        self.assertFalse([path for path in found if path.name.startswith(NEW)])
        self.assertEqual([path for path in found if path.stat().st_size == SMALL], [])

    def test_pictures(self) -> None:
        """A picture stays as it was where a new one can't be written whole."""
        path = self.folder / "old.svg"
        code = "import sys; sys.path.insert(0, sys.argv[1])\nfrom shaping.cli import write\nfrom common.faults import run_tool\n"
        code += "run_tool('shape', lambda words: write(sys.argv[2], b'<svg/>' * 1000) or 0)"
        path.write_text("<svg>old</svg>")
        ran = self.ran(["/usr/bin/python3", "-c", code, TOOLS, path], UNBUFFERED, preexec_fn=limited(SMALL))
        self.assertEqual((ran.returncode, ran.stderr), (FILES, f"shape: {path}: File too large\n"))
        self.assertEqual((path.read_text(), list(self.folder.iterdir())), ("<svg>old</svg>", [path]))

    def test_write_file(self) -> None:
        """A file keeps its mode, a link leads to the same file, a pipe is written to, and a folder is named."""
        path, link = self.folder / "file", self.folder / "link"
        write_file(path, "a")
        path.chmod(0o640)
        link.symlink_to("file")
        write_file(link, b"\xff")
        self.assertTrue(link.is_symlink())
        self.assertEqual((path.read_bytes(), path.stat().st_mode & 0o777), (b"\xff", 0o640))
        write_over(path, "b")
        self.assertEqual(path.read_text(), "b")
        for wrong in (self.folder, self.folder / "none" / "x"):
            with self.assertRaises(OSError) as caught:
                write_file(wrong, "a")
            self.assertEqual(caught.exception.filename, str(wrong))
        write_file(Path("/dev/null"), "a")
        self.assertFalse([name for name in os.listdir(self.folder) if name.startswith(NEW)])


if __name__ == "__main__":
    unittest.main()
