"""What the operations of a picture draw, as operations of a script: rectangles, level lines and texts of version 1, round
shapes, arcs, polygons and slanted lines of version 3."""

from __future__ import annotations

from typing import NamedTuple

from desk_kit.resources.cursor import Rect
from desk_kit.resources.images import NAMED
from desk_kit.resources.script import LEAST, MOST
from desk_kit.resources.words import digits

# What is done with a shape, by the low bits of an opcode.
FRAME, PAINT, ERASE, INVERT, FILL = range(5)
PATTERN_MODES = ("patCopy", "patOr", "patXor", "patBic", "notPatCopy", "notPatOr", "notPatXor", "notPatBic")
SOURCE_MODES = ("srcCopy", "srcOr", "srcXor", "srcBic", "notSrcCopy", "notSrcOr", "notSrcXor", "notSrcBic")
FIRST_PATTERN_MODE = 8
LONGEST_LINE_OF_PIXELS, LARGEST_PEN = 1024, 1024


class Drawn(NamedTuple):
    """An operation of a script, and the version that has it."""

    operation: str
    version: int = 1


class Pen(NamedTuple):
    """The pen of a picture."""

    width: int = 1
    height: int = 1
    mode: int = FIRST_PATTERN_MODE
    pattern: bytes = b"\xff" * 8

    def manner(self) -> str | None:
        """How the pen draws, as a script has it, or None where its mode is none of a pen."""
        number = self.mode - FIRST_PATTERN_MODE
        return f"{PATTERN_MODES[number]} {pattern_name(self.pattern)}" if 0 <= number < len(PATTERN_MODES) else None


def pattern_name(pattern: bytes) -> str:
    """The name of a pattern, or of the one that has as many black pixels, nearly, where it has none."""
    found = NAMED.get(digits(pattern))
    return found or ("white", "ltGray", "gray", "dkGray", "black")[(bin(int.from_bytes(pattern, "big")).count("1") + 8) // 16]


def has_name(pattern: bytes) -> bool:
    """Whether a script has this pattern."""
    return digits(pattern) in NAMED


def spaced(*numbers: int) -> str:
    """Numbers as words."""
    return " ".join(map(str, numbers))


def in_range(*numbers: int) -> bool:
    """Whether these are coordinates of a desk."""
    return all(LEAST <= it <= MOST for it in numbers)


def rectangle(verb: int, rect: Rect, pen: Pen, fill: bytes) -> list[Drawn]:
    """A rectangle. A frame of another pen than one of a pixel is made of its four sides."""
    sides = spaced(*rect.sides())
    if verb == ERASE:
        return [Drawn(f"erase {sides}")]
    if verb == INVERT:
        return [Drawn(f"invert {sides}")]
    if verb == FILL:
        return [Drawn(f"fill {sides} patCopy {pattern_name(fill)}")]
    if verb == PAINT:
        return [Drawn(f"fill {sides} {pen.manner()}")]
    if (pen.width, pen.height) == (1, 1):
        return [Drawn(f"frame {sides} {pen.manner()}")]
    return [Drawn(f"fill {spaced(*it.sides())} {pen.manner()}") for it in sides_of(rect, pen)]


def sides_of(rect: Rect, pen: Pen) -> list[Rect]:
    """The frame of a rectangle by a pen, as rectangles that share no pixel."""
    top, bottom = min(rect.top + pen.height, rect.bottom), max(rect.bottom - pen.height, rect.top)
    left, right = min(rect.left + pen.width, rect.right), max(rect.right - pen.width, rect.left)
    if pen.width == 0 or pen.height == 0 or rect.width <= 0 or rect.height <= 0:
        return []
    if top >= bottom or left >= right:
        return [rect]
    across = [Rect(rect.top, rect.left, top, rect.right), Rect(bottom, rect.left, rect.bottom, rect.right)]
    return [*across, Rect(top, rect.left, bottom, left), Rect(top, right, bottom, rect.right)]


def shape(verb: int, form: str, pen: Pen, fill: bytes) -> list[Drawn]:
    """A shape of version 3, of which the form has the word and the numbers."""
    if verb == FRAME:
        return [Drawn(f"f{form} {spaced(pen.width, pen.height)} {pen.manner()}", 3)]
    how = {ERASE: "patCopy white", INVERT: "patXor black", FILL: f"patCopy {pattern_name(fill)}"}.get(verb, pen.manner())
    return [Drawn(f"{form} {how}", 3)]


def region(verb: int, bytes_of_region: str, pen: Pen, fill: bytes) -> list[Drawn]:
    """A region: all but its frame is of version 1."""
    found = shape(verb, f"rgn {bytes_of_region}", pen, fill)
    return [it._replace(version=3 if verb == FRAME else 1) for it in found]


def line(begin: tuple[int, int], end: tuple[int, int], pen: Pen) -> list[Drawn]:
    """A line from a point to another, both as column and row. The pen hangs below and right of each of its pixels."""
    (h, v), (h2, v2) = begin, end
    if pen.width == 0 or pen.height == 0:
        return []
    if h != h2 and v != v2:
        return [Drawn(f"line {spaced(h, v, h2, v2, pen.width, pen.height)} {pen.manner()}", 3)]
    left, top, wide, high = min(h, h2), min(v, v2), abs(h - h2), abs(v - v2)
    if (pen.width, pen.height) == (1, 1) and max(wide, high) < LONGEST_LINE_OF_PIXELS:
        word, count = ("hline", wide + 1) if v == v2 else ("vline", high + 1)
        return [Drawn(f"{word} {spaced(left, top, count)} {pen.manner()}")]
    sides = spaced(left, top, left + wide + pen.width, top + high + pen.height)
    return [Drawn(f"fill {sides} {pen.manner()}")]
