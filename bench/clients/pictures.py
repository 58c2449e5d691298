"""Pictures that two runs of a program made, compared pixel by pixel."""

from dataclasses import dataclass
from pathlib import Path

import cairo

# A colour that is there whole.
WHOLE = 255


@dataclass
class Compared:
    """How many pictures there were, how many of them are equal, how many pixels of all differ, and by how much at most
    (of 255, in one colour)."""

    pictures: int = 0
    equal: int = 0
    pixels: int = 0
    differing: int = 0
    worst: int = 0

    def add(self, left: Path, right: Path) -> None:
        self.pictures += 1
        if not (left.is_file() and right.is_file()):
            return
        pixels, differing, worst = differing_pixels(left, right)
        self.pixels += pixels
        self.differing += differing
        self.worst = max(self.worst, worst)
        self.equal += not differing


def differing_pixels(left: Path, right: Path) -> tuple[int, int, int]:
    """How many pixels the larger picture has, how many of them differ, and by how much at most; in pictures of two sizes
    all do."""
    one, other = (cairo.ImageSurface.create_from_png(str(path)) for path in (left, right))
    sizes = [(each.get_width(), each.get_height()) for each in (one, other)]
    pixels = max(width * height for width, height in sizes)
    if sizes[0] != sizes[1] or one.get_format() != other.get_format():
        return pixels, pixels, WHOLE
    first, second = bytes(one.get_data()), bytes(other.get_data())
    if first == second:
        return pixels, 0, 0
    size = one.get_stride() // one.get_width() or 1
    worst, count = 0, 0
    for at in range(0, len(first), size):
        if first[at : at + size] != second[at : at + size]:
            count += 1
            worst = max(worst, *(abs(a - b) for a, b in zip(first[at : at + size], second[at : at + size])))
    return pixels, count, worst
