"""qt PICTURE FILE: draws paragraphs by Qt, which shapes by libharfbuzz. FILE has lines of a family and a text."""

import sys

from PyQt5.QtCore import QRectF, Qt
from PyQt5.QtGui import QFont, QGuiApplication, QImage, QPainter, QTextDocument

WIDTH, HEIGHT = 800, 1800
MARGIN = 10


def main(picture: str, file: str) -> None:
    application = QGuiApplication(sys.argv[:1])
    image = QImage(WIDTH, HEIGHT, QImage.Format_RGB32)
    image.fill(Qt.white)
    painter = QPainter(image)
    top = MARGIN
    with open(file, encoding="utf-8") as rows:
        for row in rows:
            family, _, text = row.rstrip("\n").partition("\t")
            document = QTextDocument()
            document.setDefaultFont(QFont(family, 13))
            document.setTextWidth(WIDTH - 2 * MARGIN)
            document.setPlainText(text)
            painter.save()
            painter.translate(MARGIN, top)
            document.drawContents(painter, QRectF())
            painter.restore()
            top += int(document.size().height())
    painter.end()
    image.save(picture)
    del application


if __name__ == "__main__":
    main(*sys.argv[1:])
