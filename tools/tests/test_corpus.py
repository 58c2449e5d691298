"""Words of many scripts: the program's line beside that of hb-shape, each difference with its reason."""

import os
import re
import shutil
import subprocess
import tempfile
import unittest
from pathlib import Path

from support import NOTO, TOOLS

from building.places import PROGRAM, standing

CORPUS = Path(__file__).parent / "corpus.txt"
DEJAVU = "/usr/share/fonts/truetype/dejavu/"
# Words that the program shapes otherwise than hb-shape, with the reason; anything else that differs is a fault.
DIFFERENCES: dict[str, str] = {}
SCRIPTS = 20


def corpus() -> dict[str, list[str]]:
    """The words for each font file."""
    found: dict[str, list[str]] = {}
    for line in CORPUS.read_text(encoding="utf-8").splitlines():
        if line and not line.startswith("#"):
            font, words = line.split(" ; ")
            folder = DEJAVU if font.startswith("DejaVu") else NOTO
            name = font if font.startswith("DejaVu") else f"{font}-Regular"
            found[f"{folder}{name}.ttf"] = words.split(" ")
    return found


def lines_of(command: list[str], words: list[str]) -> tuple[list[str], str]:
    """What a command prints of a file with a word on each line, and what it tells."""
    with tempfile.NamedTemporaryFile("w", encoding="utf-8") as file:
        file.write("\n".join(words) + "\n")
        file.flush()
        environment = {**os.environ, "XDG_CACHE_HOME": tempfile.gettempdir()}
        full = [*command, "--no-glyph-names", f"--text-file={file.name}"]
        ran = subprocess.run(full, capture_output=True, text=True, check=False, env=environment)
    return [line.strip("[]") for line in ran.stdout.splitlines()], ran.stderr


def shaped(font: str, words: list[str]) -> list[tuple[str, str]]:
    """The program's line for each word, or its fault: all in one run, and one by one where a word has a fault."""
    command = [str(TOOLS / "shape"), font]
    lines, _ = lines_of(command, words)
    if len(lines) == len(words):
        return [(line, "") for line in lines]
    found = []
    for word in words:
        own, told = lines_of(command, [word])
        found.append(("".join(own), told))
    return found


@unittest.skipUnless(shutil.which("hb-shape"), "needs hb-shape (libharfbuzz-bin)")
class Corpus(unittest.TestCase):
    def test_whole(self) -> None:
        """Each font is there and has all characters of its words, of at least so many scripts."""
        self.assertGreaterEqual(len(corpus()), SCRIPTS)
        for font, words in corpus().items():
            lines, told = lines_of(["hb-shape", font], words)
            self.assertEqual(len(lines), len(words), (font, told))
            for word, line in zip(words, lines, strict=True):
                self.assertIsNone(re.search(r"(^|\|)0=", line), (font, word, line))

    @unittest.skipUnless(standing(PROGRAM).is_current(), "needs the program (tools/build)")
    def test_lines(self) -> None:
        unexplained = []
        for font, words in corpus().items():
            expected, _ = lines_of(["hb-shape", "--utf8-clusters", font], words)
            for word, wanted, (found, told) in zip(words, expected, shaped(font, words), strict=True):
                if found != wanted and word not in DIFFERENCES:
                    unexplained.append(f"{Path(font).name}: {word}: {found or told} where hb-shape has {wanted}")
        self.assertEqual(unexplained, [], "\n".join(unexplained))


if __name__ == "__main__":
    unittest.main()
