"""What is printed of names that a font or a file gives, and streams and files that are closed, full or without end."""

import contextlib
import io
import json
import os
import re
import signal
import subprocess
import tempfile
import threading
import time
import unittest
import xml.etree.ElementTree as tree
from pathlib import Path
from typing import Any
from unittest import mock

from support import TOOLS, interruptible, needs_kuspveli, told_lines, write_files, write_stand_in

from common.printing import clean, clean_name
from hostile_fonts import plain, saved
from shaping import cli, converting

WORDS, DATA, TEXT, FILES, INTERRUPTED = 2, 3, 4, 6, 130
# A window's title, a colour, a second glyph and a second line, C1, DEL, and the marks of a line, as a font's bytes can
# have them.
NAME = "\x1b]0;t\x07\x1b[31mx=0+1|y]\r\n\x9b\x7f\\@#<>,"
SHOWN = r"\x1b\x5d0;t\x07\x1b\x5b31mx\x3d0+1\x7cy\x5d\x0d\x0a\u009b\x7f\x5c@#<>,"
PRINTABLE = re.compile("[ -~\n]*")
# The characters that XML 1.0 may hold.
XML = re.compile("[\t\n\r -\ud7ff\ue000-\ufffd\U00010000-\U0010ffff]*")
READER = """[ "$(head -c 4)" = none ] && echo 'kuspveli: /dev/stdin: F2 Kind at 0' >&2 && exit 3
cat '{}'"""
LINE = "1=0+500|2=1+500\n"
# The font as the program that reads it prints it.
VALUE = {"format": "kuspveli-font", "upem": 1000, "cmap": [[97, 1], [98, 2]], "names": [[0, ".notdef"], [1, NAME], [2, "b"]]}
# The tool with stand-ins for both programs, and without tables of Unicode.
TOOL = """
import sys
from pathlib import Path
sys.path.insert(0, sys.argv.pop(1))
from common.faults import run_tool
from shaping import cli, converting
program = Path(sys.argv.pop(1))
converting.ready_program = lambda name, target: program.with_name("reader")
cli.ready_program, converting.TABLES_READ = lambda name: program, ["thai"]
cli.is_read_by_program = lambda given: False
run_tool("shape", cli.main)
"""


class Printed(unittest.TestCase):
    def setUp(self) -> None:
        self.folder = Path(self.enterContext(tempfile.TemporaryDirectory()))
        self.program = write_stand_in(self.folder / "hb_shape", f"printf '{LINE}'")
        (self.folder / "printed").write_text(json.dumps(VALUE))
        self.reader = Path(write_stand_in(self.folder / "reader", READER.format(self.folder / "printed")))
        self.font = self.folder / "font.ttf"
        self.font.write_bytes(saved(plain(NAME)))
        self.environment = {**os.environ, "XDG_CACHE_HOME": str(self.folder)}

    def command(self, *words: str | Path | bytes) -> list[str | Path | bytes]:
        return ["/usr/bin/python3", "-c", TOOL, str(TOOLS), self.program, *words]

    def shape(self, *words: str | Path | bytes, **streams: Any) -> subprocess.CompletedProcess[str]:
        return self.ran(self.command(*words), **streams)

    def ran(self, command: list[Any], **streams: Any) -> subprocess.CompletedProcess[str]:
        """A command with standard output and error captured, but for those that are given."""
        streams = {"stdout": subprocess.PIPE, "stderr": subprocess.PIPE, **streams}
        return subprocess.run(command, check=False, env=self.environment, text=True, timeout=60, **streams)

    def assert_refused(self, ran: subprocess.CompletedProcess[str], status: int, says: str) -> None:
        """One line that says it, the status, and nothing on standard output."""
        self.assertEqual((ran.returncode, ran.stdout or ""), (status, ""), ran.stderr)
        told = told_lines(ran.stderr)
        self.assertEqual(told.count("\n"), 1, told)
        self.assertIn(says, told)
        self.assertTrue(PRINTABLE.fullmatch(told), told)


class Names(Printed):
    def test_clean(self) -> None:
        self.assertEqual(clean_name(NAME), SHOWN)
        self.assertEqual(clean_name("a+1@2,3#4<5", False), r"a\x2b1\x402,3\x234\x3c5")
        self.assertEqual(
            clean("a b\n\x1b\u202e\u2066\x85\ufffe\U000e0001"), r"a b\x0a\x1b\u202e\u2066\u0085\ufffe\U000e0001"
        )
        self.assertEqual(clean(os.fsdecode(b"\xffa")), r"\xffa")
        self.assertEqual(clean_name("uni0061.alt-é"), "uni0061.alt-é")

    def test_line(self) -> None:
        """A font with such names is shaped as any, and each name stays one field of the line; of JSON fonts too."""
        value = self.folder / "font.json"
        value.write_text(json.dumps({"cmap": [[97, 1], [98, 2]], "names": [[1, NAME], [2, "b"]]}))
        for font in (self.font, value):
            ran = self.shape(font, "ab")
            self.assertEqual((ran.returncode, ran.stdout), (0, f"{SHOWN}=0+500|b=1+500\n"), ran.stderr)
        write_stand_in(Path(self.program), "echo '1+500|2+500'")
        ran = self.shape(self.font, "ab", "--no-clusters")
        self.assertEqual(ran.stdout, f"{clean_name(NAME, False)}+500|b+500\n")

    def test_json(self) -> None:
        """JSON has the name as it is, in printable characters."""
        ran = self.shape(self.font, "ab", "--json")
        self.assertTrue(PRINTABLE.fullmatch(ran.stdout), ran.stdout)
        self.assertEqual(json.loads(ran.stdout)[0]["g"], NAME)

    @needs_kuspveli
    def test_font(self) -> None:
        font = self.ran([TOOLS / "font_to_json", self.font])
        self.assertTrue(PRINTABLE.fullmatch(font.stdout), font.stdout)
        self.assertEqual(json.loads(font.stdout)["names"][1], [1, NAME])

    def test_picture(self) -> None:
        """A picture is XML whatever the names and the text are made of."""
        text = "".join(map(chr, (*range(1, 0x20), 0x7F, 0x85, 0x202E, 0xFFFE, 0xFFFF, 0x1FFFE)))
        ran = self.shape(self.font, f"--text={text}", "--svg=-")
        self.assertTrue(XML.fullmatch(ran.stdout))
        titles = [each.text or "" for each in tree.fromstring(ran.stdout).iter("{http://www.w3.org/2000/svg}title")]
        self.assertIn(f"{clean(NAME)} (1), cluster 0, advance 500,0", titles)

    @needs_kuspveli
    def test_names_of_files(self) -> None:
        folder = os.fsencode(self.folder)
        for name, says in ((b"\x1b[31m\n.ttf", r"\x1b[31m\x0a.ttf: "), (b"\xff.ttf", r"\xff.ttf: ")):
            for content, status in ((b"none", DATA), (None, FILES)):
                path = folder + b"/" + name
                if content is not None:
                    Path(os.fsdecode(path)).write_bytes(content)
                self.assert_refused(self.shape(path, "ab"), status, says)
                self.assert_refused(self.ran([TOOLS / "font_to_json", path]), status, says)
                with contextlib.suppress(FileNotFoundError):
                    os.unlink(path)
        self.assert_refused(self.shape(self.font, "ab", b"--text-file=\x1b\n\xff"), WORDS, "more than one text")
        self.assert_refused(self.shape(self.font, b"--text-file=\x1b\n\xff"), FILES, r"\x1b\x0a\xff: ")


class Streams(Printed):
    @needs_kuspveli
    def test_output(self) -> None:
        """Standard output that is full, closed, or read by nobody."""
        reading, writing = os.pipe()
        os.close(reading)
        self.addCleanup(os.close, writing)
        for command in (self.command(self.font, "ab"), self.command("--help"), [TOOLS / "font_to_json", self.font]):
            with open("/dev/full", "w", encoding="utf-8") as full:
                self.assert_refused(self.ran(command, stdout=full), FILES, "standard output: No space left")
            self.assert_refused(self.ran(command, stdout=writing), FILES, "standard output: Broken pipe")
            closed = self.ran(["/bin/sh", "-c", 'exec "$@" >&-', "sh", *command])
            self.assert_refused(closed, FILES, "standard output: Bad file descriptor")

    def test_errors(self) -> None:
        """Where standard error is full or closed a fault keeps its status, and no fault has none."""
        for words, status, line in (
            ((self.font, "ab"), 0, f"{SHOWN}=0+500|b=1+500\n"),
            ((self.font, "a", "b"), WORDS, ""),
        ):
            for end in (">&-", "</dev/null", ">/dev/full"):
                ran = self.ran(["/bin/sh", "-c", f'exec "$@" 2{end}', "sh", *self.command(*words)])
                self.assertEqual((ran.returncode, ran.stdout, ran.stderr), (status, line, ""), end)
        ran = self.ran(["/bin/sh", "-c", 'exec "$@" <&- >&- 2>&-', "sh", *self.command(self.font, "a", "b")])
        self.assertEqual(ran.returncode, WORDS)

    def test_texts(self) -> None:
        """A file of texts without end, a pipe, and standard input that is closed."""
        self.assert_refused(self.shape(self.font, "--text-file=/dev/zero"), FILES, "more than 67,108,864 bytes")
        self.assert_refused(self.shape(self.font, f"--text-file={self.folder}"), FILES, "Is a directory")
        closed = self.ran(["/bin/sh", "-c", 'exec "$@" <&-', "sh", *self.command(self.font, "--text-file=-")])
        self.assert_refused(closed, FILES, "standard input: Bad file descriptor")
        pipe = self.folder / "texts"
        os.mkfifo(pipe)
        writer = threading.Thread(target=pipe.write_bytes, args=(b"ab\n",))
        writer.start()
        ran = self.shape(self.font, f"--text-file={pipe}")
        writer.join()
        self.assertEqual((ran.returncode, ran.stdout), (0, f"{SHOWN}=0+500|b=1+500\n"), ran.stderr)

    def test_interrupted(self) -> None:
        """A tool that waits for a text is interrupted without a word."""
        pipe = self.folder / "texts"
        os.mkfifo(pipe)
        streams = {"stdout": subprocess.PIPE, "stderr": subprocess.PIPE, "env": self.environment}
        command = self.command(self.font, f"--text-file={pipe}")
        with subprocess.Popen(command, preexec_fn=interruptible, **streams) as process:
            with open(pipe, "wb"):
                # The pipe opens here when the tool reads it.
                process.send_signal(signal.SIGINT)
                ended = process.communicate(timeout=60)
        self.assertEqual((process.returncode, *ended), (INTERRUPTED, b"", b""))

    def test_interrupted_early(self) -> None:
        """A tool is interrupted while a module is loaded, here one that takes long, and says nothing."""
        module = f"import time\nopen({str(self.folder / 'loads')!r}, 'w').close()\ntime.sleep(60)\n"
        write_files(self.folder / "slow", {"argparse.py": module, "difflib.py": module})
        environment = {**self.environment, "PYTHONPATH": str(self.folder / "slow")}
        for tool in ("font_to_json", "shape", "hb_shape", "vendor", "install"):
            streams = {"stdout": subprocess.PIPE, "stderr": subprocess.PIPE, "env": environment}
            with subprocess.Popen([TOOLS / tool, "--help"], preexec_fn=interruptible, **streams) as process:
                while not (self.folder / "loads").exists() and process.poll() is None:
                    time.sleep(0.01)
                process.send_signal(signal.SIGINT)
                ended = process.communicate(timeout=60)
            self.assertEqual((process.returncode, *ended), (INTERRUPTED, b"", b""), tool)
            (self.folder / "loads").unlink()

    def test_pictures(self) -> None:
        """A picture that can't be written is told before a line is printed; one may go to standard output."""
        for path, says in ((self.folder, "Is a directory"), ("/dev/full", "/dev/full: No space left")):
            self.assert_refused(self.shape(self.font, "ab", f"--svg={path}"), FILES, says)
        self.assert_refused(self.shape(self.font, "ab", f"--svg={self.folder}/none/x"), FILES, "none/x: No such file")
        self.assert_refused(self.shape(self.font, "ab", "--svg=-", "--json"), WORDS, "--svg=-")
        ran = self.shape(self.font, "ab", "--svg=-")
        self.assertEqual(tree.fromstring(ran.stdout).tag, "{http://www.w3.org/2000/svg}svg")

    def test_nested_json(self) -> None:
        """JSON of any depth has one line, with its place where it is found."""
        write_stand_in(Path(self.program), 'echo "hb_shape: J1 NotJson" >&2; exit 3')
        for depth in (200, 900, 1000, 100_000):
            for opening in ("[", '{"a":'):
                font = self.folder / "nested.json"
                font.write_text(f'{{"cmap":{opening * depth}')
                self.assert_refused(self.shape(font, "ab"), DATA, f"{font}: J1 NotJson")
                font.write_text(f'{{"cmap":{"[" * depth}{"]" * depth}}}')
                self.assert_refused(self.shape(font, "ab"), DATA, f"{font}: J1 NotJson")

    def test_fonts_that_are_no_files(self) -> None:
        """A pipe is not waited for, and a device not read."""
        for name in ("pipe.ttf", "pipe.json"):
            os.mkfifo(self.folder / name)
            self.assert_refused(self.shape(self.folder / name, "ab"), FILES, "a pipe or device, not a font file")
        (self.folder / "zero.json").symlink_to("/dev/zero")
        self.assert_refused(self.shape(self.folder / "zero.json", "ab"), FILES, "a pipe or device")
        self.assert_refused(self.ran([TOOLS / "font_to_json", self.folder / "pipe.ttf"]), FILES, "a pipe or device")


# A stand-in that refuses each file with a word in it.
REFUSING = """for word; do
    if test -f "$word" && grep -q forged "$word"; then echo "hb_shape: U1 OutOfOrder" >&2; exit 3; fi
done
printf '1=0+500|2=1+500\\n'"""


class Kept(Printed):
    """What stands in the cache in place of a kept value."""

    def setUp(self) -> None:
        super().setUp()
        write_stand_in(Path(self.program), REFUSING)
        patches = [
            mock.patch.object(cli, "ready_program", lambda name: Path(self.program)),
            mock.patch.object(cli, "is_read_by_program", lambda given: False),
            mock.patch.object(converting, "ready_program", lambda name, target: self.reader),
            mock.patch.object(converting, "TABLES_READ", ["thai"]),
            mock.patch.dict(os.environ, self.environment),
        ]
        for patch in patches:
            self.enterContext(patch)
        self.cache = self.folder / "kuspveli"
        self.assert_shaped()
        [font] = self.cache.glob("*-font.ttf.0.json")
        self.kept = (font, self.cache / "tables.json")

    def assert_shaped(self) -> None:
        with contextlib.redirect_stdout(io.StringIO()) as shown, contextlib.redirect_stderr(io.StringIO()):
            self.assertEqual(cli.main([str(self.font), "ab"]), 0)
        self.assertEqual(shown.getvalue(), f"{SHOWN}=0+500|b=1+500\n")

    def assert_healed(self) -> None:
        self.assert_shaped()
        for path in self.kept:
            self.assertTrue(path.is_file() and not path.is_symlink(), path)
            self.assertNotIn("forged", path.read_text())
        self.assertEqual(len(list(self.cache.iterdir())), 2)

    def test_pipes_and_folders(self) -> None:
        for path in self.kept:
            for make in (os.mkfifo, os.mkdir):
                path.unlink()
                make(path)
                self.assert_healed()

    def test_folder_with_files(self) -> None:
        for path in self.kept:
            path.unlink()
            path.mkdir()
            (path / "own").write_text("own")
            self.assert_refused(self.shape(self.font, "ab"), FILES, f"{path}: a folder where a value is to be kept")
            (path / "own").unlink()
            self.assert_healed()

    def test_links(self) -> None:
        """A link is replaced, and what it names is left as it is."""
        own = self.folder / "own"
        for path in self.kept:
            own.write_bytes(path.read_bytes())
            for target in (own, Path("/dev/zero"), self.folder / "none"):
                path.unlink()
                path.symlink_to(target)
                self.assert_healed()
            self.assertEqual(own.stat().st_nlink, 1)
            self.assertFalse((self.folder / "none").exists())

    def test_forged(self) -> None:
        """A file with the right stamp that the program refuses is made anew, whether its fault is found or not."""
        for path in self.kept:
            rows = path.read_text().splitlines()
            for forged in ('"h":[[1,2],[1,3]],"forged":0,', '"forged":0,', '"forged":', "[" * 1000 + '"forged",'):
                path.write_text("\n".join([*rows[:2], forged, *rows[-2:], ""]))
                self.assert_healed()

    def test_other_owner(self) -> None:
        """In a folder of somebody else nothing is read or kept; a folder that others may write to is made private."""
        self.kept[0].write_text("other")
        with mock.patch("os.geteuid", return_value=os.geteuid() + 1):
            self.assert_shaped()
        self.assertEqual(self.kept[0].read_text(), "other")
        self.cache.chmod(0o777)
        self.assert_healed()
        self.assertEqual(self.cache.stat().st_mode & 0o777, 0o700)


if __name__ == "__main__":
    unittest.main()
