"""Failing files, over stand-ins for the program: one that answers as the program has to, and some that don't."""

import subprocess
import tempfile
import unittest
from pathlib import Path
from unittest import mock

from support import told_by

from common.faults import ToolFault
from streams import cli
from streams.rows import Row, row
from streams.shim import compiler

RIGHT = """#!/usr/bin/python3
import json, os, signal, sys
signal.signal(signal.SIGPIPE, signal.SIG_IGN)
def end(status, word):
    os.write(2, b"hb_shape: " + word + b"\\n")
    os._exit(status)
try:
    "".join(sys.argv).encode()
except UnicodeError:
    end(2, b"words")
try:
    parts = [open(name, "rb").read() for name in sys.argv[-3:]]
except OSError:
    end(6, b"Read")
try:
    list(map(json.loads, parts[:2]))
except ValueError:
    end(3, b"J1 NotJson")
line = b"1=0\\n"
try:
    while line:
        line = line[os.write(1, line):]
except OSError:
    end(6, b"Write")
"""
SHORT = Row("short", b'{"a":1}', b'{"b":[2]}', b"abc", b"1=0\n")
# It reads three files into memory that grows, and writes a line.
IN_C = r"""
#include <fcntl.h>
#include <stdlib.h>
#include <string.h>
#include <unistd.h>
static void end(int status, const char *word) {
    write(2, word, strlen(word));
    _exit(status);
}
int main(int count, char **words) {
    char *kept = 0, more[8], *line = "1=0\n";
    size_t held = 0;
    for (int at = count - 3; at < count; at++) {
        int file = open(words[at], O_RDONLY);
        ssize_t got;
        while ((got = read(file, more, 8)) > 0) {
            char *grown = realloc(kept, held + got);
            if (!grown)
                MEMORY;
            memcpy((kept = grown) + held, more, got);
            held += got;
        }
        if (got < 0)
            end(6, "hb_shape: Read\n");
    }
    while (*line) {
        ssize_t taken = write(1, line, strlen(line));
        if (taken <= 0)
            end(6, "hb_shape: Write\n");
        line += taken;
    }
    return 0;
}
"""
RIGHT_MEMORY, WRONG_MEMORY = 'end(5, "hb_shape: OutOfMemory\\n")', "abort()"


class FailingFiles(unittest.TestCase):
    def setUp(self) -> None:
        self.folder = Path(self.enterContext(tempfile.TemporaryDirectory()))
        for name in ("row", "long_row"):
            self.enterContext(mock.patch.object(cli, name, lambda: SHORT))
        self.enterContext(mock.patch.object(cli, "rows", lambda: [SHORT]))

    def told(self, program: str, *words: str) -> tuple[int, str]:
        """The tool's status and what it prints of a stand-in."""
        path = self.folder / "program"
        path.write_text(program, encoding="utf-8")
        path.chmod(0o755)
        return self.said(*words)

    def said(self, *words: str) -> tuple[int, str]:
        """The tool's status and what it prints of the stand-in that is there."""
        return told_by(cli.main, f"--program={self.folder / 'program'}", *words)

    def compile(self, memory: str) -> None:
        """Makes the stand-in in C, which does so where it is refused memory."""
        source = self.folder / "program.c"
        source.write_text(IN_C.replace("MEMORY", memory), encoding="utf-8")
        subprocess.run([compiler() or "cc", "-w", "-o", self.folder / "program", source], check=True)

    @unittest.skipIf(compiler() is None, "no C compiler is there")
    def test_calls_of_the_library(self) -> None:
        """Reads, writes and allocations that fail or are short, each in turn."""
        self.compile(RIGHT_MEMORY)
        for group in ("reads", "writes", "allocations"):
            status, told = self.said(f"--only={group}")
            self.assertEqual(status, 0, told)
        self.assertRegex(told, r"\n *[1-9][0-9]* runs, 0 with")
        self.compile(WRONG_MEMORY)
        self.assertEqual(self.said("--only=allocations")[0], 1)

    def test_a_right_program(self) -> None:
        """Words that are no text, files that are missing, cut or in pieces, and outputs that are full or closed."""
        for group in ("words", "unopened", "cut", "pieces", "outputs"):
            status, told = self.told(RIGHT, f"--only={group}")
            self.assertEqual(status, 0, told)
            self.assertIn(" 0 with an answer that is not right", told)

    def test_wrong_programs(self) -> None:
        """One that takes each word, one that writes before it refuses, one that takes a part for the whole, one that
        stops at a short write."""
        each = RIGHT.replace("    end(2,", "    end(6,")
        self.assertEqual(self.told(each, "--only=words")[0], 1)
        early = RIGHT.replace("    end(3,", "    os.write(1, b'1')\n    end(3,")
        self.assertEqual(self.told(early, "--only=cut")[0], 1)
        parts = RIGHT.replace('open(name, "rb").read()', "os.read(os.open(name, os.O_RDONLY), 4096)")
        self.assertEqual(self.told(parts, "--only=pieces")[0], 1)
        once = RIGHT.replace("    while line:\n        line = line[os.write(1, line):]", "    os.write(1, line)")
        self.assertEqual(self.told(once, "--only=outputs")[0], 1)

    def test_the_row(self) -> None:
        """The row that is worked out by hand: its line ends with the slices of a ligature."""
        self.assertTrue(row().line.endswith(b"0 1\n1 3\n"))

    def test_refuses_words(self) -> None:
        """A program that is not there, and a group that is none."""
        for words in (["--program=/missing"], ["--only=more"]):
            with self.assertRaises(ToolFault):
                cli.main(words)


if __name__ == "__main__":
    unittest.main()
