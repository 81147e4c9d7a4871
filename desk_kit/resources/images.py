"""ICON, ICN#, CURS, PAT and PAT# as images. *Inside Macintosh* I, chapter "Toolbox Utilities", section "Formats of Miscellaneous
Resources", has their bytes: rows of pixels, the high bit left, 1 for black."""

from __future__ import annotations

from typing import NamedTuple

from desk_kit.answers import Fault
from desk_kit.resources.fork import Resource
from desk_kit.resources.script import MOST_OPERATIONS, Script, Window
from desk_kit.resources.words import digits

ICON_SIZE, CURSOR_SIZE, PATTERN_SIZE = 128, 32, 8
# The patterns that a script has by name.
NAMED = {
    "FFFFFFFFFFFFFFFF": "black", "77DD77DD77DD77DD": "dkGray", "AA55AA55AA55AA55": "gray", "8822882288228822": "ltGray",
    "0000000000000000": "white",
}  # fmt: skip
# A shelf shows images in cells of this side, so many in a row, each 4 pixels from the corner of its cell.
CELL, CELLS_OF_A_ROW, MARGIN = 40, 12, 4
# A pattern is shown by a square of this side.
SWATCH = 32
# How an image, its mask and what is under them come together.
BY_ITSELF, UNDER_MASK, WITH_MASK, OF_CURSOR = "srcCopy", "srcBic", "srcOr", "srcXor"


class Image(NamedTuple):
    """An image of a resource, and its mask, if it has one."""

    width: int
    height: int
    rows: bytes
    mask: bytes = b""
    # The mode in which it is drawn where it has a mask.
    mode: str = WITH_MASK


def images_of(resource: Resource) -> list[Image]:
    """The images of a resource of one of these types."""
    read = resource.cursor()
    if resource.kind == "ICON":
        return [Image(32, 32, read.take(ICON_SIZE, "the icon"))]
    if resource.kind == "ICN#":
        icon = read.take(ICON_SIZE, "the icon")
        return [Image(32, 32, icon, read.take(ICON_SIZE, "the mask") if read.left else b"")]
    if resource.kind == "CURS":
        cursor, mask = read.take(CURSOR_SIZE, "the cursor"), read.take(CURSOR_SIZE, "the mask")
        read.numbers("hh", "the hot spot")
        return [Image(16, 16, cursor, mask, OF_CURSOR)]
    count = read.number("H", "the count of its patterns") if resource.kind == "PAT#" else 1
    read.need(count * PATTERN_SIZE, f"a list of {count} patterns" if resource.kind == "PAT#" else "the pattern")
    return [Image(8, 8, read.take(PATTERN_SIZE, "a pattern")) for _ in range(count)]


def hot_spot(resource: Resource) -> tuple[int, int]:
    """The column and row of a cursor's hot spot."""
    row, column = resource.cursor().numbers("32x32xhh", "the hot spot")
    return column, row


def rows_of(image: Image, of_mask: bool = False) -> list[str]:
    """The rows of an image or of its mask, each a text of 0 for white and 1 for black."""
    data, stride = (image.mask if of_mask else image.rows), (image.width + 7) // 8
    lines = [data[at : at + stride] for at in range(0, stride * image.height, stride)]
    return ["".join(f"{byte:08b}" for byte in line)[: image.width] for line in lines]


def picture_of(resource: Resource, of_mask: bool) -> list[str]:
    """The rows of the picture of a resource: of a list of patterns all of them, side by side."""
    images = images_of(resource)
    if not images:
        raise Fault(f"{resource.label} has no pattern")
    if of_mask and not images[0].mask:
        raise Fault(f"{resource.label} has no mask")
    parts = [rows_of(it, of_mask) for it in images]
    return ["".join(row) for row in zip(*parts)]


def write_image(script: Script, resource: Resource) -> None:
    """An image, or the patterns of a list, drawn on the shelf."""
    images = images_of(resource)
    what = {"ICN#": "an icon and its mask", "PAT#": f"{len(images)} patterns"}.get(resource.kind, "")
    if resource.kind == "CURS":
        column, row = hot_spot(resource)
        what = f"a cursor; its hot spot is in column {column} and row {row}"
    script.head(resource, what)
    for number, image in enumerate(images, 1):
        shelf = script.shelf or new_shelf(script, resource)
        if shelf is None or not put(script, resource, shelf, image):
            script.tell(resource, f"image {number} and those behind it are left out: the window for images is full")
            return


def new_shelf(script: Script, resource: Resource) -> Window | None:
    """Opens the window that holds all images of the script, with room for a row; it grows by a row where it has to."""
    script.note("a window for images")
    script.shelf = script.own_window(resource, CELLS_OF_A_ROW * CELL, CELL)
    return script.shelf


def put(script: Script, resource: Resource, shelf: Window, image: Image) -> bool:
    """Draws an image in the next cell of the shelf, and tells whether there is room."""
    row, column = divmod(script.on_shelf, CELLS_OF_A_ROW)
    commands = drawn_at(resource, image, column * CELL + MARGIN, row * CELL + MARGIN)
    if shelf.operations + len(commands) > MOST_OPERATIONS:
        return False
    if column == 0 and row > 0:
        script.do(f"size {shelf.number} {CELLS_OF_A_ROW * CELL} {(row + 1) * CELL}")
    script.on_shelf += 1
    return all([script.draw(shelf, it) for it in commands])


def drawn_at(resource: Resource, image: Image, left: int, top: int) -> list[str]:
    """The operations that draw an image at this place. A pattern fills a square."""
    if resource.kind.startswith("PAT"):
        return [swatch(image.rows, left, top)]
    place = f"bits {left} {top} {image.width} {image.height}"
    if not image.mask:
        return [f"{place} {BY_ITSELF} {digits(image.rows)}"]
    return [f"{place} {UNDER_MASK} {digits(image.mask)}", f"{place} {image.mode} {digits(image.rows)}"]


def swatch(pattern: bytes, left: int, top: int) -> str:
    """The operation that fills a square with a pattern: by its name, or as an image. A pattern begins in the corner of the
    picture, from which the shelf's cells are whole patterns away, and 4 pixels more."""
    name = NAMED.get(digits(pattern))
    if name:
        return f"fill {left} {top} {left + SWATCH} {top + SWATCH} patCopy {name}"
    rows = [turned(pattern[(top + it) % 8], left % 8) * (SWATCH // 8) for it in range(SWATCH)]
    return f"bits {left} {top} {SWATCH} {SWATCH} {BY_ITSELF} {digits(b''.join(rows))}"


def turned(byte: int, by: int) -> bytes:
    """The eight pixels of a row of a pattern, from this column of it on."""
    return bytes([(byte << by | byte >> (8 - by)) & 0xFF])
