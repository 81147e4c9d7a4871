"""The images of a picture, and the parts in which a script draws them. *Inside Macintosh* I has what a bit map is, in the
chapter "QuickDraw", and how rows are packed, in "Toolbox Utilities" (PackBits)."""

from __future__ import annotations

from typing import NamedTuple

from desk_kit.answers import Fault
from desk_kit.resources.cursor import Cursor, Rect
from desk_kit.resources.regions import region_in
from desk_kit.resources.script import MOST_OPERATIONS

# A row of fewer bytes than this is not packed, and of more than this has its count in a word.
LEAST_PACKED, MOST_OF_A_BYTE = 8, 250
# A row of pixels that are more than a bit each.
OF_COLORS = 0x8000
# The largest part of an image that a command draws: so many columns, and so many bytes in its line.
COLUMNS_OF_A_PART, ROWS_OF_A_PART, BYTES_OF_A_PART = 256, 256, 400


class Bits(NamedTuple):
    """An image of a picture."""

    # Its rows as the picture has them, whether they are packed, and how many bytes each has where it is not.
    rows: list[bytes]
    packed: bool
    stride: int
    bounds: Rect
    # What of it is drawn, where, in which mode, and whether a region cuts it.
    source: Rect
    target: Rect
    mode: int
    mask: bool


class Part(NamedTuple):
    """A part of an image, by its place in what is drawn of it."""

    left: int
    top: int
    width: int
    height: int
    rows: bytes


def bits_of(read: Cursor, opcode: int, part: str) -> Bits | None:
    """The image behind this opcode, or None of one that is not of one bit for each pixel."""
    stride = read.number("H", part)
    if stride & OF_COLORS:
        return None
    bounds, source, target = read.rect(part), read.rect(part), read.rect(part)
    mode = read.number("h", part)
    if opcode & 1:
        region_in(read)
    if bounds.height < 0 or bounds.width < 0 or stride * 8 < bounds.width:
        raise Fault(f"{read.what} has an image of {bounds.width} by {bounds.height} in rows of {stride} bytes, which none has")
    packed = bool(opcode & 8) and stride >= LEAST_PACKED
    rows = [packed_row(read, stride, part) if packed else read.take(stride, part) for _ in range(bounds.height)]
    return Bits(rows, packed, stride, bounds, source, target, mode, bool(opcode & 1))


def packed_row(read: Cursor, stride: int, part: str) -> bytes:
    """The bytes of a row as they are packed, behind their count."""
    return read.take(read.number("H" if stride > MOST_OF_A_BYTE else "B", part), part)


def unpacked(row: bytes, wanted: int) -> bytes:
    """So many bytes of a packed row, from its begin on: a byte n below 128 stands before n + 1 bytes, one above 128 before a
    byte that is there 257 - n times, and 128 for nothing."""
    found, at = bytearray(), 0
    while len(found) < wanted:
        if at + 1 >= len(row):
            raise Fault(f"a packed row of {len(row)} bytes ends before the {wanted} bytes that it stands for")
        count = row[at]
        if count < 128:
            found += row[at + 1 : at + 2 + count]
            at += 2 + count
        elif count > 128:
            found += row[at + 1 : at + 2] * (257 - count)
            at += 2
        else:
            at += 1
    return bytes(found[:wanted])


def parts_of(bits: Bits) -> list[Part] | None:
    """The parts in which an image is drawn, or None where what is drawn of it is more than a window's picture holds, or than
    the image has."""
    source, bounds = bits.source, bits.bounds
    width, height = source.width, source.height
    inside = bounds.left <= source.left and source.right <= bounds.right
    if not inside or not (bounds.top <= source.top and source.bottom <= bounds.bottom):
        return None
    if width <= 0 or height <= 0:
        return []
    columns = min(width, COLUMNS_OF_A_PART)
    count = min(ROWS_OF_A_PART, BYTES_OF_A_PART // ((columns + 7) // 8))
    if -(-width // columns) * -(-height // count) > MOST_OPERATIONS:
        return None
    rows = [row_of(bits, it) for it in range(source.top - bounds.top, source.bottom - bounds.top)]
    return [
        part_of(rows, width, left, top, min(columns, width - left), min(count, height - top))
        for top in range(0, height, count)
        for left in range(0, width, columns)
    ]


def row_of(bits: Bits, row: int) -> int:
    """The pixels of a row, from the source's left side to its right one, as a number with the leftmost one in its high bit."""
    first, last = bits.source.left - bits.bounds.left, bits.source.right - bits.bounds.left
    wanted = (last + 7) // 8
    data = unpacked(bits.rows[row], wanted) if bits.packed else bits.rows[row][:wanted]
    return int.from_bytes(data, "big") >> (8 * wanted - last) & ((1 << last - first) - 1)


def part_of(rows: list[int], width: int, left: int, top: int, wide: int, high: int) -> Part:
    """The part of these rows that begins at this column and row and is so wide and high."""
    count = (wide + 7) // 8
    cut = [(row >> (width - left - wide) & ((1 << wide) - 1)) << (8 * count - wide) for row in rows[top : top + high]]
    return Part(left, top, wide, high, b"".join(it.to_bytes(count, "big") for it in cut))
