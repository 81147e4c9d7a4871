"""Images for a terminal in Braille: each character has two by four dots, of which those of black pixels are raised. An image
with more pixels than dots is shrunk. A row of an image is a text of 0 for white and 1 for black."""

ACROSS, DOWN = 2, 4
# The first of the 256 characters, without dots, and the bit of each dot, row by row.
EMPTY = 0x2800
BITS = ((0x01, 0x08), (0x02, 0x10), (0x04, 0x20), (0x40, 0x80))
# Of each two by two dots as many are black as the mean of their pixels asks for: a dot is where the mean exceeds its bound,
# in fifths.
BOUNDS = ((1, 3), (4, 2))
FIFTHS = 5


def braille(rows):
    """The lines of an image. To the right and below it is white."""
    wide = [row + "0" * (-len(row) % ACROSS) for row in rows]
    full = [*wide, *["0" * len(wide[0])] * (-len(rows) % DOWN)]
    return [line_of(full[top : top + DOWN]) for top in range(0, len(full), DOWN)]


def line_of(band):
    """The line of four rows."""
    return "".join(sign_of([row[left : left + ACROSS] for row in band]) for left in range(0, len(band[0]), ACROSS))


def sign_of(cell):
    """The character of two by four pixels."""
    places = [(h, v) for v in range(DOWN) for h in range(ACROSS) if cell[v][h] == "1"]
    return chr(EMPTY + sum(BITS[v][h] for h, v in places))


def shrunk(rows, side):
    """An image each pixel of which was a square of this side. A square with a stroke is black, so that no line is lost;
    another one is black or white by the mean of its pixels, and by its place, so that gray stays as gray as it was."""
    bands = [rows[top : top + side] for top in range(0, len(rows), side)]
    return ["".join(colors_of(band, side, BOUNDS[v % 2])) for v, band in enumerate(bands)]


def colors_of(band, side, bounds):
    """The colors of the squares of a band of rows, by the bounds of their row."""
    squares = ([row[left : left + side] for row in band] for left in range(0, len(band[0]), side))
    return ["01"[is_black(square, side, bounds[h % 2])] for h, square in enumerate(squares)]


def is_black(square, side, bound):
    """Whether a square is shown black where the mean of its pixels has this bound."""
    pixels = "".join(square)
    black = pixels.count("1")
    if touch(square, "1") and touch(square, "0"):
        return black >= side
    return FIFTHS * black > bound * len(pixels)


def touch(square, color):
    """Whether two pixels of a square that lie beside or above each other have this color. In no pattern of gray do both
    colors touch."""
    beside = any(color * 2 in row for row in square)
    return beside or any(pair == (color, color) for rows in zip(square, square[1:]) for pair in zip(*rows))


def side_for(width, dots):
    """The smallest side of squares with which an image of this width takes so many dots at most."""
    return -(-width // dots)
