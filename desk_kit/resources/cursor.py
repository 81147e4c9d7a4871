"""Bytes that are read from their begin on, and never past their end. What lacks bytes is a Fault that names the place."""

from __future__ import annotations

import functools
import struct
from typing import NamedTuple

from desk_kit.answers import Fault


class Rect(NamedTuple):
    """A rectangle as QuickDraw has it: the rows top up to bottom - 1, the columns left up to right - 1."""

    top: int
    left: int
    bottom: int
    right: int

    @property
    def width(self) -> int:
        """How many columns the rectangle has. Of an empty one the number is 0 or below."""
        return self.right - self.left

    @property
    def height(self) -> int:
        """How many rows the rectangle has, likewise."""
        return self.bottom - self.top

    def moved(self, right: int, down: int) -> Rect:
        """The rectangle, so many columns farther right and rows farther down."""
        return Rect(self.top + down, self.left + right, self.bottom + down, self.right + right)

    def sides(self) -> tuple[int, int, int, int]:
        """Left, top, right and bottom, as a script has them."""
        return self.left, self.top, self.right, self.bottom


@functools.lru_cache(maxsize=64)
def layout(form: str) -> struct.Struct:
    """Numbers of this form, big-endian."""
    return struct.Struct(f">{form}")


class Cursor:
    """A place in bytes. Each method reads what stands there, big-endian, and goes past it. The word of a part says what is
    read, for the sentence where the bytes end before that."""

    def __init__(self, data: bytes, what: str, at: int = 0) -> None:
        self.data = data
        self.what = what
        self.at = at

    @property
    def left(self) -> int:
        """How many bytes are left."""
        return len(self.data) - self.at

    def need(self, count: int, part: str) -> None:
        """A Fault where fewer bytes are left than this."""
        if count > self.left:
            size = len(self.data)
            raise Fault(f"{self.what} has {size} bytes, and {part} at byte {self.at} needs {count}")

    def take(self, count: int, part: str) -> bytes:
        """So many bytes."""
        if count > len(self.data) - self.at:
            self.need(count, part)
        self.at += count
        return self.data[self.at - count : self.at]

    def numbers(self, form: str, part: str) -> tuple[int, ...]:
        """Numbers of this form, as the module struct has it."""
        found = layout(form)
        if found.size > len(self.data) - self.at:
            self.need(found.size, part)
        self.at += found.size
        return found.unpack_from(self.data, self.at - found.size)

    def number(self, form: str, part: str) -> int:
        """One number of this form: B and b of a byte, H and h of a word, I of a long, the capital ones unsigned."""
        return self.numbers(form, part)[0]

    def rect(self, part: str) -> Rect:
        """A rectangle: top, left, bottom and right, a word each."""
        return Rect(*self.numbers("hhhh", part))

    def pascal(self, part: str) -> bytes:
        """A Pascal string: a byte that says how many follow, and these."""
        count = self.number("B", part)
        return self.take(count, part)
