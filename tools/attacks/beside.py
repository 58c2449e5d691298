"""The same files for hb-shape: the font as OpenType, the text, and the options."""

from pathlib import Path

from attacks.attack import Files, as_bytes
from attacks.opentype import Unwritten, write_opentype
from attacks.texts import real_tables
from common.files import write_over

FONT, TEXT = "font.ttf", "text.txt"
# By OpenType's rules alone, with what the program prints.
OPTIONS = ["--shapers=ot", "--utf8-clusters", "--no-glyph-names"]


def write_beside(folder: Path, files: Files) -> list[str] | None:
    """Writes the files; the words of hb-shape's command line. None where it can't have the same: tables of the attack's
    own, JSON that is no value, or a font that isn't written."""
    if not isinstance(files.font, dict) or not (files.tables == b"{}" or files.tables is real_tables()):
        return None
    try:
        write_opentype(files.font, folder / FONT)
    except Unwritten:
        return None
    write_over(folder / TEXT, as_bytes(files.text))
    return [*OPTIONS, *files.options, f"--text-file={folder / TEXT}", str(folder / FONT)]

