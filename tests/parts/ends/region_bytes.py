"""Regions as sets of pixels, and the bytes that they have in a script, as docs/SCRIPT.md words them: a slow model, to be
set beside a program.

A region is a list of the rows in which something changes against the row above it, from the top: each a pair of the row
and of the set of its columns, which the rows below have too, up to the next one of the list. The last one has none. A set
of columns is a number: bit n is 1 where it has the column LEAST + n. So an empty region has no rows at all.
"""

import collections

LEAST = -(2**15)
# The word that ends a row, and the data.
END = 0x7FFF
# The coordinates that a region may have.
IN_RANGE = range(-16384, 16384)
# How many words stand before the rows: the size, and the sides of the box.
HEAD = 5

BAD_REGION = b"refused 14 BadRegion\n"
OUT_OF_RANGE = b"refused 8 OutOfRange\n"


class BadRegion(Exception):
    """The bytes are no region's."""


def from_on(column):
    """The columns from this one on, without end: a number below 0."""
    return -1 << column - LEAST


def columns_where_it_changes(columns):
    """The columns that are in a set while the one left of them is not, or the other way round."""
    changes, found = columns ^ columns << 1, []
    while changes:
        lowest = changes & -changes
        found.append(lowest.bit_length() - 1 + LEAST)
        changes ^= lowest
    return found


def region_of_rows(rows):
    """The region with these columns in each of these rows, and in those below it up to the next."""
    region, above = [], 0
    for row, columns in sorted(rows.items()):
        if columns != above:
            region.append((row, columns))
        above = columns
    return region


def rectangle(top, left, bottom, right):
    if top >= bottom or left >= right:
        return []
    return [(top, from_on(left) ^ from_on(right)), (bottom, 0)]


def region_of_points(points):
    """The region whose pixels have an odd number of these points at them, above them, left of them, or both."""
    toggled = collections.defaultdict(int)
    for row, column in points:
        toggled[row] ^= from_on(column)
    rows, columns = {}, 0
    for row in sorted(toggled):
        columns ^= toggled[row]
        if columns < 0:
            raise BadRegion("a row has no end")
        rows[row] = columns
    if columns:
        raise BadRegion("there is no last row")
    return region_of_rows(rows)


def cut(region, top, left, bottom, right):
    """What of a region lies in a rectangle."""
    within = from_on(left) ^ from_on(right)
    rows = {max(row, top): columns & within for row, columns in region if row < bottom}
    return region_of_rows({**rows, bottom: 0})


def picture(region, width, height):
    """The pixels of a region from 0 0 on, so many columns and rows: 1 where it has one, and 0 elsewhere."""
    rows, columns, starts = [], 0, dict(cut(region, 0, 0, height, width))
    for row in range(height):
        columns = starts.get(row, columns)
        rows.append(b"".join(b"1" if columns >> column - LEAST & 1 else b"0" for column in range(width)))
    return rows


def box(region):
    """The top, left, bottom and right side of the smallest rectangle around a region."""
    every = 0
    for _, columns in region:
        every |= columns
    if not every:
        return [0, 0, 0, 0]
    sides = columns_where_it_changes(every)
    return [region[0][0], sides[0], region[-1][0], sides[-1]]


def rows_written(region):
    """The words of the rows: of each the row, the columns at which it changes against the one above, and the end."""
    words, above = [], 0
    for row, columns in region:
        words += [row, *columns_where_it_changes(columns ^ above), END]
        above = columns
    return [*words, END]


def bytes_of(region):
    """The bytes of a region."""
    words = box(region)
    if region != rectangle(*words):
        words += rows_written(region)
    return b"".join(word.to_bytes(2, "big", signed=True) for word in [2 * len(words) + 2, *words])


def points_written(words):
    """The points of rows that are written so."""
    row = None
    for at, word in enumerate(words):
        if row is not None and word != END:
            yield row, word
        elif row is None and word == END and at < len(words) - 1:
            raise BadRegion("something stands behind the end")
        else:
            row = word if row is None else None


def region_of(words):
    """The region with these words, if they are a region's."""
    return region_of_points(points_written(words[HEAD:])) if words[HEAD:] else rectangle(*words[1:HEAD])


def read(data):
    """The region with these bytes."""
    words = [int.from_bytes(data[at : at + 2], "big", signed=True) for at in range(0, len(data), 2)]
    if len(words) < HEAD:
        raise BadRegion("the box is not whole")
    region = region_of(words)
    if bytes_of(region) != data:
        raise BadRegion("the region has other bytes")
    return region


def judged(data):
    """What is answered to bytes that are refused as a region's, or None where they are a region's."""
    try:
        region = read(data)
    except BadRegion:
        return BAD_REGION
    coordinates = [*box(region), *(row for row, _ in region)]
    return None if all(it in IN_RANGE for it in coordinates) else OUT_OF_RANGE
