"""Wedges of ovals and of their frames, insets of sets of pixels and the frames that these leave, pixel by pixel, as
docs/SHAPES.md defines them: a slow model, to be set beside a program.
"""

import functools
import math
from typing import NamedTuple

# How far the border of the square lies from its middle on which directions end.
SIDE = 65536


@functools.cache
def direction(degree):
    """Where the direction of a whole degree ends, across and down from the middle. Tangents are those of the language."""
    turns, rest = divmod(degree % 360, 90)
    x, y = (tangent(rest), -SIDE) if rest <= 45 else (SIDE, -tangent(90 - rest))
    for _ in range(turns):
        x, y = -y, x
    return x, y


def tangent(degree):
    return round(SIDE * math.tan(math.radians(degree)))


class Wedge(NamedTuple):
    """What the wedge from a degree on, over an angle, has of a shape in a rectangle."""

    shape: object
    sides: tuple
    start: int
    angle: int

    def is_from(self, degree, h, v):
        """Whether the pixel in column h and row v is seen from a degree on."""
        left, top, right, bottom = self.sides
        x, y = (2 * h + 1 - left - right) * (bottom - top), (2 * v + 1 - top - bottom) * (right - left)
        if (x, y) == (0, 0):
            y = -1
        a, b = direction(degree)
        turn = a * y - b * x
        return turn > 0 or (turn == 0 and a * x + b * y > 0)

    def is_between(self, h, v):
        """Whether the wedge has the pixel."""
        start, angle = (self.start, self.angle) if self.angle >= 0 else (self.start + self.angle, -self.angle)
        if angle >= 360:
            return True
        first, last = self.is_from(start, h, v), not self.is_from(start + angle, h, v)
        return (first and last) if angle <= 180 else (first or last)

    def has(self, h, v):
        """Whether the pixel in column h and row v is one of the shape's that the wedge has."""
        return self.shape.has(h, v) and self.is_between(h, v)

    def box(self):
        """The sides of the rectangle."""
        return self.sides


class Some(NamedTuple):
    """Some pixels, each a column and a row."""

    those: frozenset

    def has(self, h, v):
        """Whether the pixel in column h and row v is one of them."""
        return (h, v) in self.those

    def box(self):
        """The sides of a rectangle around them."""
        columns, rows = ([it[at] for it in self.those] or [0] for at in (0, 1))
        return min(columns), min(rows), max(columns) + 1, max(rows) + 1


class Inset(NamedTuple):
    """The inset of a shape: columns first, and then rows of what that gave. By a number below 0 it grows."""

    shape: object
    across: int
    down: int

    def has_beside(self, h, v):
        """Whether all pixels that far beside this one are in the shape, or one of them."""
        which = all if self.across >= 0 else any
        return which(self.shape.has(h + i, v) for i in range(-abs(self.across), abs(self.across) + 1))

    def has(self, h, v):
        """Whether the pixel in column h and row v is one of the inset."""
        which = all if self.down >= 0 else any
        return which(self.has_beside(h, v + j) for j in range(-abs(self.down), abs(self.down) + 1))

    def box(self):
        """The sides of a rectangle around the inset."""
        left, top, right, bottom = self.shape.box()
        across, down = max(0, -self.across), max(0, -self.down)
        return left - across, top - down, right + across, bottom + down


class FramedRegion(NamedTuple):
    """The frame of a set of pixels: what its inset by the pen has not."""

    shape: object
    pen: tuple

    def has(self, h, v):
        """Whether the pixel in column h and row v is one of the frame."""
        return 0 not in self.pen and self.shape.has(h, v) and not Inset(self.shape, *self.pen).has(h, v)

    def box(self):
        """The sides of a rectangle around the set."""
        return self.shape.box()
