"""The programs: how each is run on the paragraphs, and the pictures that come of it."""

import os
import shutil
import subprocess
import sys
from dataclasses import dataclass
from pathlib import Path
from typing import Callable

from clients import texts
from clients.texts import Paragraph
from common.files import write_over

QT = Path(__file__).parent / "qt.py"
QT_VERSION = "import PyQt5.QtCore as core; print(core.QT_VERSION_STR)"
# The words of programs that are run one after another.
Work = Callable[[Path, list[Paragraph]], list[list[str]]]


@dataclass(frozen=True)
class Client:
    """A program: the command and the package that has it, its version's words, what it is run on, and whether what it
    makes are pages of PDF."""

    name: str
    command: str
    package: str
    work: Work
    version: tuple[str, ...] = ("--version",)
    has_pages: bool = False
    module: str = ""

    def is_there(self) -> bool:
        if shutil.which(self.command) is None:
            return False
        if not self.module:
            return True
        words = [self.command, "-c", f"import {self.module}"]
        return subprocess.run(words, capture_output=True, check=False).returncode == 0

    def told_version(self) -> str:
        ran = subprocess.run([self.command, *self.version], capture_output=True, text=True, errors="replace", check=False)
        words = [word.strip(",()v") for word in (ran.stdout or ran.stderr).partition("\n")[0].split()]
        return next((word for word in words if word[:1].isdigit()), "")


def run_client(
    client: Client, folder: Path, paragraphs: list[Paragraph], settings: dict[str, str], *, is_drawn: bool = True
) -> bool:
    """Runs a client in a folder of its own, with settings in its environment, and draws its pages; whether all went well."""
    folder.mkdir()
    own = {"HOME": str(folder), "QT_QPA_PLATFORM": "offscreen", "SOURCE_DATE_EPOCH": "0"}
    environment = {**os.environ, **settings, **own}
    is_well = True
    for words in client.work(folder, paragraphs):
        ran = subprocess.run(
            words, cwd=folder, env=environment, stdin=subprocess.DEVNULL, capture_output=True, check=False
        )
        if ran.returncode:
            is_well = False
            told = ran.stderr.decode(errors="replace").strip().splitlines()[-3:]
            print(f"{client.name}: {words[0]} ended with {ran.returncode}: {' / '.join(told)}", file=sys.stderr)
    if client.has_pages and is_drawn:
        draw_pages(folder)
    return is_well


def draw_pages(folder: Path) -> None:
    """Draws each page of PDF, which has glyphs and shapes nothing."""
    for path in sorted(folder.glob("*.pdf")):
        subprocess.run(
            ["mutool", "draw", "-q", "-r", "96", "-o", str(folder / f"{path.stem}-%d.png"), str(path)],
            capture_output=True,
            check=False,
        )


def pictures_of(folder: Path) -> list[str]:
    return sorted(path.name for path in folder.glob("*.png"))


# ---- what each is run on


def hb_shape(folder: Path, paragraphs: list[Paragraph]) -> list[list[str]]:
    """Lines of every set with the hinted advances of FreeType, at 13 pixels of 64 units."""
    made = []
    for number, each in enumerate(texts.hinted_paragraphs()):
        text = texts.write_text(folder / f"{number}.txt", each.lines[: texts.HINTED])
        made.append([
            "hb-shape", str(each.font), f"--text-file={text}", f"--language={each.language}", "--font-funcs=ft",
            "--ft-load-flags=0", "--font-size=832",
        ])  # fmt: skip
    return made


def hb_view(folder: Path, paragraphs: list[Paragraph]) -> list[list[str]]:
    made = []
    for number, each in enumerate(paragraphs):
        text = texts.write_text(folder / f"{number}.txt", each.lines)
        made.append([
            "hb-view", str(each.font), f"--text-file={text}", f"--language={each.language}", "--font-size=32",
            "--output-format=png", f"--output-file={folder / f'{number}.png'}",
        ])  # fmt: skip
    return made


def pango_view(folder: Path, paragraphs: list[Paragraph]) -> list[list[str]]:
    made = []
    for number, each in enumerate(paragraphs):
        text = texts.write_text(folder / f"{number}.txt", [each.text])
        made.append([
            "pango-view", "--no-display", f"--font={each.family} 16", f"--language={each.language}", "--width=600",
            "--wrap=word-char", f"--output={folder / f'{number}.png'}", str(text),
        ])  # fmt: skip
    return made


def rsvg_convert(folder: Path, paragraphs: list[Paragraph]) -> list[list[str]]:
    write_over(folder / "in.svg", texts.svg_of(paragraphs))
    return [["rsvg-convert", "--output=out.png", "in.svg"]]


def inkscape(folder: Path, paragraphs: list[Paragraph]) -> list[list[str]]:
    write_over(folder / "in.svg", texts.svg_of(paragraphs))
    return [["inkscape", "--export-type=png", "--export-filename=out.png", "in.svg"]]


def weasyprint(folder: Path, paragraphs: list[Paragraph]) -> list[list[str]]:
    write_over(folder / "in.html", texts.html_of(paragraphs))
    return [["weasyprint", "-q", "in.html", "out.pdf"]]


def mutool(folder: Path, paragraphs: list[Paragraph]) -> list[list[str]]:
    write_over(folder / "in.xhtml", texts.html_of(paragraphs))
    return [["mutool", "draw", "-q", "-r", "96", "-o", "out-%d.png", "in.xhtml"]]


def ffmpeg(folder: Path, paragraphs: list[Paragraph]) -> list[list[str]]:
    write_over(folder / "in.ass", texts.subtitles_of(paragraphs))
    source = f"color=white:size=1280x200:rate=1:duration={len(paragraphs)}"
    return [["ffmpeg", "-loglevel", "error", "-f", "lavfi", "-i", source, "-vf", "ass=in.ass", "out-%02d.png"]]


def qt(folder: Path, paragraphs: list[Paragraph]) -> list[list[str]]:
    write_over(folder / "in.txt", "".join(f"{each.family}\t{each.text}\n" for each in paragraphs))
    return [["/usr/bin/python3", str(QT), "out.png", "in.txt"]]


def xetex(folder: Path, paragraphs: list[Paragraph]) -> list[list[str]]:
    write_over(folder / "in.tex", texts.tex_of(paragraphs))
    return [["xetex", "-interaction=batchmode", "-no-shell-escape", "in.tex"]]


def libreoffice(folder: Path, paragraphs: list[Paragraph]) -> list[list[str]]:
    write_over(folder / "in.fodt", texts.fodt_of(paragraphs))
    return [["soffice", "--headless", f"-env:UserInstallation=file://{folder}/profile", "--convert-to", "pdf", "in.fodt"]]


CLIENTS = (
    Client("hb-shape, hinted", "hb-shape", "libharfbuzz-bin", hb_shape),
    Client("hb-view", "hb-view", "libharfbuzz-bin", hb_view),
    Client("pango-view", "pango-view", "pango1.0-tools", pango_view),
    Client("rsvg-convert", "rsvg-convert", "librsvg2-bin", rsvg_convert),
    Client("inkscape", "inkscape", "inkscape", inkscape),
    Client("WeasyPrint", "weasyprint", "weasyprint", weasyprint, has_pages=True),
    Client("mutool", "mutool", "mupdf-tools", mutool, version=("-v",)),
    Client("ffmpeg, libass", "ffmpeg", "ffmpeg", ffmpeg, version=("-version",)),
    Client("Qt 5", "/usr/bin/python3", "python3-pyqt5", qt, version=("-c", QT_VERSION), module="PyQt5.QtGui"),
    Client("XeTeX", "xetex", "texlive-xetex", xetex, has_pages=True),
    Client("LibreOffice", "soffice", "libreoffice-writer", libreoffice, has_pages=True),
)
