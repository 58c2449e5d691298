"""Fonts that are made to take much: one line and status 3, within 10 seconds and 1 GB."""

import io
import os
import re
import resource
import subprocess
import tempfile
import unittest
from pathlib import Path
from types import SimpleNamespace

from support import HAS_KUSPVELI, TOOLS, needs_kuspveli, run, told_lines, write_stand_in

from common.faults import ToolFault
from common.notes import Notes
from fontjson.drawing import check_subroutines
from fontjson.limits import Refused
from fontjson.program import font_text
from hostile_fonts import cmap, composite, coverage, dots, glyf, groups, kinds, nested_calls, one_lookup, single

DATA = 3
SECONDS, MEMORY = 10, 1_000_000_000
def confine() -> None:
    """The limits within which a font has to be refused; beyond them the tool would say another thing, or be ended."""
    resource.setrlimit(resource.RLIMIT_CPU, (SECONDS, SECONDS))
    resource.setrlimit(resource.RLIMIT_AS, (MEMORY, MEMORY))


class HostileFonts(unittest.TestCase):
    def setUp(self) -> None:
        self.folder = Path(self.enterContext(tempfile.TemporaryDirectory()))

    def refused(self, tool: str, path: Path, *words: str) -> str:
        """The one line that refuses a font."""
        environment = {**os.environ, "XDG_CACHE_HOME": str(self.folder)}
        command = [TOOLS / tool, path, *words]
        ran = subprocess.run(command, capture_output=True, check=False, preexec_fn=confine, env=environment)
        told = told_lines(ran.stderr)
        self.assertEqual((ran.returncode, ran.stdout), (DATA, b""), told)
        self.assertEqual(told.count("\n"), 1, told)
        self.assertTrue(told.startswith(f"{tool}: {path}: "), told)
        self.assertNotIn("damaged", told)
        return told

    def test_kinds(self) -> None:
        """What fontTools would read, for an instance or a picture, is refused before it is; of packed files each time."""
        for name, make, says in kinds():
            with self.subTest(name):
                path = self.folder / "font.ttf"
                path.write_bytes(make())
                self.assertIn(says, self.refused("font_to_json", path, "--sizes"))
                if "WOFF" in name and HAS_KUSPVELI:
                    self.assertIn(says, self.refused("font_to_json", path))

    @needs_kuspveli
    def test_program(self) -> None:
        """The program reads each, or refuses it, within the same time and memory."""
        for name, make, _ in kinds():
            with self.subTest(name):
                path = self.folder / "font.ttf"
                path.write_bytes(make())
                ran = subprocess.run([TOOLS / "font_to_json", path], capture_output=True, check=False, preexec_fn=confine)
                self.assertIn((ran.returncode, told_lines(ran.stderr).count("\n")), ((0, 0), (DATA, 1)), ran.stderr)

    @needs_kuspveli
    def test_file_of_gigabytes(self) -> None:
        path = self.folder / "large.ttf"
        path.touch()
        os.truncate(path, 3 << 30)
        self.assertIn("more than 134,217,728 bytes", self.refused("font_to_json", path))

    def test_limits_of_the_process(self) -> None:
        """A font that takes more memory or time than is allowed has one line; the program has the limits, unless they are
        lifted."""
        path = self.folder / "font.ttf"
        path.write_bytes(glyf([dots()]))
        for body, says in (
            ("echo kuspveli: OutOfMemory >&2; exit 5", "reading it takes more than 2 GiB of memory (--no-limits lifts"),
            ("kill -XCPU $$", "reading it takes more than 300 seconds of processor time (--no-limits lifts"),
            ("echo 'kuspveli: /dev/stdin: F1 Short in GSUB at 7' >&2; exit 3", f"{path}: F1 Short in GSUB at 7: a table, or"),
            ("kill -SEGV $$", f"{path}: status 139"),
        ):
            program = Path(write_stand_in(self.folder / "kuspveli", body))
            with self.assertRaisesRegex(ToolFault, re.escape(says)):
                font_text(str(path), 0, Notes(), program=program)
        program = Path(write_stand_in(self.folder / "kuspveli", "ulimit -S -v; ulimit -S -t"))
        memory, seconds = font_text(str(path), 0, Notes(), program=program).split()
        self.assertEqual((int(memory), int(seconds) >= 300), (2 << 20, True))
        before = subprocess.run(["sh", "-c", "ulimit -S -v; ulimit -S -t"], capture_output=True, check=True).stdout
        self.assertEqual(font_text(str(path), 0, Notes(), False, program=program), before)

    def test_shared_subroutines(self) -> None:
        """Font DICTs that share what they read: each has 65,535 subroutines, and a private DICT of ten bytes."""
        private = SimpleNamespace(rawDict={"Subrs": 0}, file=io.BytesIO(b"\xff\xff"), offset=0, _isCFF2=False)
        one = SimpleNamespace(rawDict={"Private": (10, 0)}, Private=private)
        for count, length, says in ((257, 9999, "font DICTs"), (17, 9999, "subroutines"), (16, 159, "overlap")):
            top = SimpleNamespace(rawDict={"FDArray": 0}, FDArray=[one] * count)
            self.assertRaisesRegex(Refused, says, check_subroutines, top, length)
        top = SimpleNamespace(rawDict={"FDArray": 0}, FDArray=[one] * 16)
        self.assertEqual(check_subroutines(top, 160), (16, 16 * 65535))

    def test_sizes(self) -> None:
        """What the fonts are made of is no fault, and is counted as it was written."""
        path = self.folder / "font.ttf"
        path.write_bytes(glyf([dots(), composite(0), composite(1, 1)]))
        told = run("font_to_json", "--sizes", str(path)).stdout.decode()
        sizes = {what: int(found) for what, found, _ in (line.split("\t") for line in told.splitlines())}
        wanted = {
            "bytes": path.stat().st_size,
            "cmap: characters and variants": 1,
            "glyf: points": 65535,
            "glyf: points of a glyph": 2 * 65535,
            "glyf: parts of a glyph": 4,
            "glyf: levels of parts": 2,
        }
        self.assertEqual({what: sizes.get(what) for what in wanted}, wanted)
        # A lookup that names one subtable three times has three.
        path.write_bytes(one_lookup("GSUB", 1, single(coverage((1, 10))), 3))
        told = run("font_to_json", "--sizes", str(path)).stdout.decode()
        self.assertIn("GSUB: subtables\t3\t65536\n", told)


if __name__ == "__main__":
    unittest.main()
