"""The pictures of the README: words in Debian's fonts, as tools/shape draws them."""

from pathlib import Path

from common.faults import FILES, ToolFault
from common.parsing import Words
from shaping import cli

NAME = "pictures"
FOLDER = Path(__file__).parent.parent.parent / "docs" / "pictures"
FONTS = Path("/usr/share/fonts/truetype")
# A file, its font with the package of it, and its text.
PICTURES = (
    ("office.svg", FONTS / "dejavu" / "DejaVuSans.ttf", "fonts-dejavu-core", "office"),
    ("shakti.svg", FONTS / "noto" / "NotoSansDevanagari-Regular.ttf", "fonts-noto-core", "शक्ति"),
)


def main(words: list[str]) -> int:
    """Draws, and prints each line; its status is that of the first fault."""
    parser = Words(prog=NAME, description="Draws the words of the README by tools/shape, and prints their glyphs.")
    parser.add_argument("--into", type=Path, default=FOLDER, metavar="FOLDER", help="where to (docs/pictures)")
    folder = parser.parse_args(words).into
    for _, font, package, _ in PICTURES:
        if not font.is_file():
            raise ToolFault(FILES, f"apt-get install {package}: {font} is not there")
    for file, font, _, text in PICTURES:
        status = cli.main([str(font), text, f"--svg={folder / file}"])
        if status:
            return status
    return 0
