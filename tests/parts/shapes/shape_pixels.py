"""Round shapes, lines, polygons and frames, pixel by pixel, as docs/SHAPES.md defines them: a slow model, to be set beside a program.

A rectangle is its sides left, top, right and bottom. An oval and a pen are a width and a height. Nothing here looks at more
than one pixel at a time.
"""

from typing import NamedTuple

# The first line of the table of circles.
HEAD = "| Diameter | Pixels | Of each row, down to the middle | Frame, pen 1 1 | Frame, pen 2 2 |"


class Round(NamedTuple):
    """A rectangle whose corners are quarters of an oval. One that is as large as the rectangle makes it an oval, and one
    without width or height leaves the rectangle."""

    left: int
    top: int
    right: int
    bottom: int
    oval: tuple = (0, 0)

    def has(self, h, v):
        """Whether the pixel in column h and row v is one of the shape."""
        if not (self.left <= h < self.right and self.top <= v < self.bottom):
            return False
        width = min(self.oval[0], self.right - self.left)
        height = min(self.oval[1], self.bottom - self.top)
        x = max(0, width - 1 - 2 * min(h - self.left, self.right - 1 - h))
        y = max(0, height - 1 - 2 * min(v - self.top, self.bottom - 1 - v))
        return (x * height) ** 2 + (y * width) ** 2 <= (width * height) ** 2

    def surrounds(self, h, v):
        """Whether the shape has the pixel and the four beside it."""
        return all(self.has(*it) for it in ((h, v), (h - 1, v), (h + 1, v), (h, v - 1), (h, v + 1)))

    def smaller(self, pen):
        """What is left of the shape without a pen's width at the left and right, and its height at the top and bottom."""
        across, down = pen
        oval = max(0, self.oval[0] - 2 * across), max(0, self.oval[1] - 2 * down)
        return Round(self.left + across, self.top + down, self.right - across, self.bottom - down, oval)

    def box(self):
        """The sides of the rectangle."""
        return self[:4]


class Frame(NamedTuple):
    """The frame of a round shape, which a pen draws within the shape."""

    shape: Round
    pen: tuple

    def has(self, h, v):
        """Whether the pixel in column h and row v is one of the frame."""
        is_inside = self.shape.smaller(self.pen).has(h, v) and self.shape.surrounds(h, v)
        return 0 not in self.pen and self.shape.has(h, v) and not is_inside

    def box(self):
        """The sides of a rectangle around the frame."""
        return self.shape.box()


class Line(NamedTuple):
    """A line from one point to another, each a column and a row, by a pen that hangs below and right of it."""

    start: tuple
    end: tuple
    pen: tuple

    def is_thin_at(self, h, v):
        """Whether the pixel in column h and row v is one of the thin line."""
        is_flat = abs(self.end[1] - self.start[1]) <= abs(self.end[0] - self.start[0])
        along = 0 if is_flat else 1
        first, last = sorted((self.start, self.end), key=lambda point: point[along])
        far, aside = last[along] - first[along], last[1 - along] - first[1 - along]
        on, off = (h, v)[along] - first[along], (h, v)[1 - along] - first[1 - along]
        if far == 0:
            return (h, v) == first
        return 0 <= on <= far and -far < 2 * (far * off - aside * on) <= far

    def has(self, h, v):
        """Whether the pixel in column h and row v is one that the pen covers."""
        return any(self.is_thin_at(h - i, v - j) for i in range(self.pen[0]) for j in range(self.pen[1]))

    def box(self):
        """The sides of a rectangle around the line."""
        columns, rows = zip(self.start, self.end)
        return min(columns), min(rows), max(columns) + self.pen[0], max(rows) + self.pen[1]


class Polygon(NamedTuple):
    """A polygon by its points, each a column and a row."""

    points: tuple

    def edges(self):
        """Each point and the next one, and the last and the first."""
        return zip(self.points, (*self.points[1:], self.points[0]))

    def has(self, h, v):
        """Whether an odd number of edges turns the pixel in column h and row v."""
        return sum(is_turned(h, v, *sorted(edge, key=lambda point: point[1])) for edge in self.edges()) % 2 == 1

    def box(self):
        """The sides of a rectangle around the polygon."""
        columns, rows = zip(*self.points)
        return min(columns), min(rows), max(columns), max(rows)


class FramedPolygon(NamedTuple):
    """The frame of a polygon: the lines of its edges, which a pen draws."""

    polygon: Polygon
    pen: tuple

    def has(self, h, v):
        """Whether the pixel in column h and row v is one of a line's."""
        return any(Line(*edge, self.pen).has(h, v) for edge in self.polygon.edges())

    def box(self):
        """The sides of a rectangle around the frame."""
        left, top, right, bottom = self.polygon.box()
        return left, top, right + self.pen[0], bottom + self.pen[1]


def is_turned(h, v, upper, lower):
    """Whether the edge from its upper to its lower end turns the pixel in column h and row v."""
    (h0, v0), (h1, v1) = upper, lower
    return v0 <= v < v1 and (2 * (v - v0) + 1) * (h1 - h0) <= (2 * (h - h0) + 1) * (v1 - v0)


def oval(left, top, right, bottom):
    """The oval that touches the four sides of a rectangle."""
    return Round(left, top, right, bottom, (right - left, bottom - top))


def pixels(shape, left, top, right, bottom):
    """The rows of a shape within a rectangle, each as its signs: 1 for a pixel that it has, and 0 for another."""
    return ["".join("01"[shape.has(h, v)] for h in range(left, right)) for v in range(top, bottom)]


def circle(size):
    """The rows of the oval of this width and height."""
    return pixels(oval(0, 0, size, size), 0, 0, size, size)


def table_of_circles(last):
    """A table in Markdown of the circles up to this diameter: how many pixels each has, and each row of it down to the
    middle, and how many its frames have that pens of 1 by 1 and of 2 by 2 draw."""
    lines = [HEAD, "|---|---|---|---|---|"]
    for size in range(1, last + 1):
        rows = [row.count("1") for row in circle(size)]
        frames = [Frame(oval(0, 0, size, size), (pen, pen)) for pen in (1, 2)]
        counts = ["".join(pixels(it, 0, 0, size, size)).count("1") for it in frames]
        half = " ".join(map(str, rows[: (size + 1) // 2]))
        lines.append(f"| {size} | {sum(rows)} | {half} | {counts[0]} | {counts[1]} |")
    return "\n".join(lines) + "\n"


def pictures_of_circles(sizes):
    """The pictures of the circles of these sizes, beside each other, as lines of code in Markdown."""
    circles = [circle(size) for size in sizes]
    height = max(map(len, circles))
    lines = []
    for row in range(height):
        cells = [it[row] if row < len(it) else " " * len(it) for it in circles]
        lines.append(f"    {'  '.join(cells)}".rstrip().replace("0", ".").replace("1", "#"))
    return "\n".join(lines) + "\n"
