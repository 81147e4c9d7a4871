"""The bytes of regions, as a picture has them and as a script takes them. *Imaging With QuickDraw*, chapter "Basic QuickDraw",
says what a Region is; docs/SCRIPT.md has the form of its rows."""

from __future__ import annotations

import struct

from desk_kit.answers import Fault
from desk_kit.resources.cursor import Cursor, Rect
from desk_kit.resources.script import LEAST, MOST

END = 0x7FFF
RECTANGLE = 10
EMPTY = struct.pack(">Hhhhh", RECTANGLE, 0, 0, 0, 0)


def region_in(read: Cursor) -> bytes:
    """The bytes of the region that is next."""
    size = read.number("H", "the size of a region")
    if size < RECTANGLE:
        raise Fault(f"{read.what} has a region of {size} bytes at byte {read.at - 2}, and one has {RECTANGLE} at least")
    return struct.pack(">H", size) + read.take(size - 2, "a region")


def box_of(region: bytes) -> Rect:
    """The rectangle around a region."""
    return Rect(*struct.unpack_from(">hhhh", region, 2))


def moved(region: bytes, right: int, down: int) -> bytes | None:
    """The region, so far to the right and down, where its bytes have the form that a script takes and it lies in the range
    of coordinates then; else None."""
    box = box_of(region)
    if len(region) == RECTANGLE:
        if box.width <= 0 or box.height <= 0:
            return EMPTY
        return packed(box.moved(right, down), [])
    rows = rows_of(region)
    if rows is None or not is_whole(box, rows):
        return None
    return packed(box.moved(right, down), [(row + down, [it + right for it in turns]) for row, turns in rows])


def rows_of(region: bytes) -> list[tuple[int, list[int]]] | None:
    """Each row in which something changes, with the columns at which it does, or None where the bytes have no such form."""
    count = len(region) // 2 - 5
    words, rows, row = list(struct.unpack_from(f">{count}h", region, RECTANGLE)), [], None
    if len(region) % 2 or words[-1:] != [END]:
        return None
    for it in words[:-1]:
        if row is None:
            row = (it, [])
        elif it == END:
            rows.append(row)
            row = None
        else:
            row[1].append(it)
    return rows if row is None else None


def is_whole(box: Rect, rows: list[tuple[int, list[int]]]) -> bool:
    """Whether these rows rise, close, lie in just this box, and are more than a rectangle."""
    inside: set[int] = set()
    left, right, before = MOST, LEAST, None
    for row, turns in rows:
        if not turns or len(turns) % 2 or sorted(set(turns)) != turns or (before is not None and row <= before):
            return False
        inside ^= set(turns)
        if len(inside) > 2 * (MOST - LEAST):
            return False
        left, right, before = min(left, turns[0]), max(right, turns[-1]), row
    if inside or len(rows) < 2 or (len(rows) == 2 and len(rows[0][1]) == 2):
        return False
    return box == Rect(rows[0][0], left, rows[-1][0], right)


def packed(box: Rect, rows: list[tuple[int, list[int]]]) -> bytes | None:
    """The bytes of a region of this box and these rows, or None where they leave the range of coordinates."""
    words = [word for row, turns in rows for word in (row, *turns, END)]
    numbers = [*box, *(it for it in words if it != END)]
    if min(numbers) < LEAST or max(numbers) > MOST:
        return None
    words += [END] if rows else []
    return struct.pack(f">H4h{len(words)}h", RECTANGLE + 2 * len(words), *box, *words)
