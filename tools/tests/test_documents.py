"""Documents: their links; those that tools make: written, checked, and a part of one between two lines."""

import argparse
import contextlib
import io
import re
import tempfile
import unittest
from pathlib import Path

import support  # noqa: F401 (it puts the tools on the path)

from common.documents import add_modes, deliver, replace_part, table_lines, wrapped
from common.faults import ToolFault
from sources.crates import ROOT

BEGIN, END = "<!-- begins -->", "<!-- ends -->"
DOCUMENTS = ("*.md", "docs/*.md", "bindings/*/README.md")


def anchors(path: Path) -> set[str]:
    """The names by which links reach the headings of a document."""
    text = re.sub(r"^```.*?^```$", "", path.read_text(encoding="utf-8"), flags=re.MULTILINE | re.DOTALL)
    headings = re.findall(r"^#+ (.*)$", text, re.MULTILINE)
    return {re.sub(r"[^\w\- ]", "", heading.lower()).replace(" ", "-") for heading in headings}


class Links(unittest.TestCase):
    def test_links(self) -> None:
        """Each leads to a file that is there, and to a heading of it where it names one."""
        for path in (path for pattern in DOCUMENTS for path in sorted(ROOT.glob(pattern))):
            for link in re.findall(r"\]\(\s*([^)\s]+)\)", path.read_text(encoding="utf-8")):
                name, _, heading = link.partition("#")
                leads_to = path.parent / name if name else path
                self.assertTrue(leads_to.exists(), f"{path.name}: {link}")
                if heading:
                    self.assertIn(heading, anchors(leads_to), f"{path.name}: {link}")


class Whole(unittest.TestCase):
    def setUp(self) -> None:
        folder = tempfile.TemporaryDirectory()
        self.addCleanup(folder.cleanup)
        self.path = Path(folder.name) / "A.md"

    def deliver(self, made: str, *words: str) -> tuple[int, str, str]:
        """The status, and what is printed and told."""
        parser = argparse.ArgumentParser()
        add_modes(parser)
        with contextlib.redirect_stdout(io.StringIO()) as shown, contextlib.redirect_stderr(io.StringIO()) as told:
            status = deliver("where", self.path, made, parser.parse_args(words))
        return status, shown.getvalue(), told.getvalue()

    def test_written_and_checked(self) -> None:
        name = f"{self.path.parent.name}/A.md"
        told = f"where: {name} is not what tools/where makes: run it, and commit the file\n"
        self.assertEqual(self.deliver("a\n", "--check"), (1, f"--- {name}\n+++ made now\n@@ -0,0 +1 @@\n+a\n", told))
        self.assertFalse(self.path.exists())
        self.assertEqual(self.deliver("a\n"), (0, "", ""))
        self.assertEqual(self.path.read_text(), "a\n")
        self.assertEqual(self.deliver("a\n", "--check"), (0, "", ""))
        self.assertEqual(self.deliver("b\n", "--print"), (0, "b\n", ""))
        self.assertEqual(self.path.read_text(), "a\n")

    def test_part(self) -> None:
        """What stands between the two lines is replaced, and nothing else; without them the document stays."""
        self.path.write_text(f"head\n\n{BEGIN}\nold\n{END}\n\nrest\n")
        for _ in range(2):
            replace_part(self.path, BEGIN, END, ["new", "more"])
            self.assertEqual(self.path.read_text(), f"head\n\n{BEGIN}\n\nnew\nmore\n\n{END}\n\nrest\n")
        for text in (f"{BEGIN}\n", f"{END}\n{BEGIN}\n", f"{BEGIN}\n{BEGIN}\n{END}\n"):
            self.path.write_text(text)
            self.assertRaisesRegex(ToolFault, "once each", replace_part, self.path, BEGIN, END, ["new"])
            self.assertEqual(self.path.read_text(), text)

    def test_lines(self) -> None:
        self.assertEqual(table_lines([["A", "B"], ["1", "2"]]), ["| A | B |", "| --- | --- |", "| 1 | 2 |"])
        self.assertEqual(wrapped("- " + "word " * 30), ["- " + " ".join(["word"] * 23), "  " + " ".join(["word"] * 7)])
        self.assertEqual(wrapped("a b"), ["a b"])


if __name__ == "__main__":
    unittest.main()
