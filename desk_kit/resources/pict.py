"""PICT, as far as its opcodes are what a script draws. *Inside Macintosh* V, chapter "Color QuickDraw", and *Imaging With
QuickDraw*, appendix A, "Picture Opcodes", have the opcodes of both versions and the sizes of their data.

The picture's frame is moved to the window's 0 0. An opcode without a counterpart is told, once for each kind; behind one
whose size is not known nothing is read."""

from __future__ import annotations

from collections.abc import Callable

from desk_kit.answers import Fault
from desk_kit.resources import pict_shapes
from desk_kit.resources.cursor import Cursor, Rect
from desk_kit.resources.fork import Resource
from desk_kit.resources.pict_bits import bits_of, parts_of
from desk_kit.resources.pict_shapes import FILL, FRAME, PAINT, SOURCE_MODES, Drawn, Pen, in_range, spaced
from desk_kit.resources.regions import box_of, moved, region_in
from desk_kit.resources.script import MOST_OPERATIONS, Script, Window
from desk_kit.resources.words import digits, is_plain, text_word

# Opcodes that end a picture, and those that change nothing that a script has, with the sizes of their data.
END = 0xFF
WITHOUT_EFFECT = {0x00: 0, 0x11: 1, 0x15: 2, 0x16: 2, 0x1C: 0, 0x1E: 0, 0xA0: 2}
# Opcodes that a script has no counterpart of: what they are, and the sizes of their data.
LACKING = {
    0x04: ("the style of a text", 1), 0x06: ("spaces of another width", 4), 0x0C: ("another origin", 4),
    0x0E: ("a color", 4), 0x0F: ("a color", 4), 0x10: ("a text of another size", 8), 0x1A: ("a color", 6),
    0x1B: ("a color", 6), 0x1D: ("a color", 6), 0x1F: ("a color", 6),
}  # fmt: skip
# The values of these that are what every picture begins with, and so lack nothing.
AS_AT_FIRST = {
    0x04: ("00",), 0x06: ("00000000",), 0x0C: ("00000000",), 0x0E: ("00000021",), 0x0F: ("0000001E",),
    0x10: ("0001000100010001",), 0x1A: ("000000000000",), 0x1B: ("FFFFFFFFFFFF",),
}  # fmt: skip
WORDS_OF_MODES = {1: "srcOr", 2: "srcXor", 3: "srcBic"}
SHAPES = {3: "rectangle", 4: "round", 5: "oval", 6: "arc", 7: "poly", 8: "region"}
# (a region that is no clip: a picture begins with one as large as the plane)
NO_CLIP = b""


class Picture:
    """A picture that is being read, with all that its opcodes have set."""

    def __init__(self, resource: Resource) -> None:
        self.read = resource.cursor()
        self.read.number("H", "its size")
        self.frame = self.read.rect("its frame")
        self.pen = Pen()
        self.fill = b"\xff" * 8
        self.clip = NO_CLIP
        self.oval = (0, 0)
        self.text_mode = 1
        # Where the last line ended, and the last text began.
        self.at = self.text_at = (0, 0)
        # What was drawn last of each sort, for the opcodes that draw the same again.
        self.rects: dict[int, Rect] = {}
        self.last: dict[int, bytes] = {}
        self.drawn: list[Drawn] = []
        self.lacks: list[str] = []
        self.of_words = False

    def lack(self, what: str) -> None:
        """Notes that this has no counterpart, once."""
        if what not in self.lacks:
            self.lacks.append(what)

    def add(self, drawn: list[Drawn]) -> None:
        """Adds operations, within the clip. Those with a number that is no coordinate are left out."""
        clip = f"clip {digits(self.clip)} " if self.clip else ""
        for it in drawn:
            if in_range(*numbers_in(it.operation)):
                self.drawn.append(Drawn(clip + it.operation, it.version))
            else:
                self.lack("a coordinate outside of the desk's")

    def point(self, what: str) -> tuple[int, int]:
        """A point, as column and row from the frame's corner."""
        v, h = self.read.numbers("hh", what)
        return h - self.frame.left, v - self.frame.top

    def rect(self, what: str) -> Rect:
        """A rectangle, from the frame's corner."""
        return self.read.rect(what).moved(-self.frame.left, -self.frame.top)

    def opcode(self) -> int:
        """The next opcode: a byte, or in the second version a word at an even byte."""
        if not self.of_words:
            return self.read.number("B", "an opcode")
        self.read.at += self.read.at % 2
        return self.read.number("H", "an opcode")


def numbers_in(operation: str) -> list[int]:
    """The numbers of an operation, but for those of a text, of bytes and of a region, in which there are no coordinates."""
    found = []
    for word in operation.partition('"')[0].split(" ")[1:7]:
        if word.removeprefix("-").isdigit() and len(word) <= 6:
            found.append(int(word))
    return found


def write_pict(script: Script, resource: Resource) -> None:
    """A picture, in a window that is opened for it and is as large as its frame."""
    picture = picture_of(resource)
    script.head(resource, f"a picture of {picture.frame.width} by {picture.frame.height}")
    window = script.own_window(resource, picture.frame.width, picture.frame.height)
    if window is not None:
        write_in(script, resource, picture, window)


def write_in(script: Script, resource: Resource, picture: Picture, window: Window) -> None:
    """Writes what a picture draws, and tells what it lacks."""
    for lack in picture.lacks:
        script.tell(resource, f"{lack} has no counterpart")
    for it in picture.drawn:
        if not script.draw(window, it.operation, it.version):
            script.tell(resource, "what does not fit a line, or the window's picture, is left out")
            return


def picture_of(resource: Resource) -> Picture:
    """All that a picture draws, up to one operation more than a window's picture holds."""
    picture = Picture(resource)
    # (the second version begins with the opcode 0011 and its version, 02FF)
    picture.of_words = picture.read.data[picture.read.at : picture.read.at + 4] == bytes.fromhex("001102FF")
    while len(picture.drawn) <= MOST_OPERATIONS:
        at, opcode = picture.read.at, picture.opcode()
        if opcode == END:
            break
        if picture.of_words and opcode == 0x11:
            picture.read.take(2, "its version")
        elif not take(picture, opcode):
            picture.lack(f"the opcode {opcode:0{4 if picture.of_words else 2}X} at byte {at}, behind which nothing is read,")
            break
    return picture


def take(picture: Picture, opcode: int) -> bool:
    """Takes an opcode with its data, and tells whether it is known."""
    part = f"the opcode {opcode:02X}"
    if opcode in WITHOUT_EFFECT:
        picture.read.take(WITHOUT_EFFECT[opcode], part)
    elif opcode in LACKING:
        what, size = LACKING[opcode]
        if digits(picture.read.take(size, part)) not in AS_AT_FIRST.get(opcode, ()):
            picture.lack(what)
    elif opcode in SETTINGS:
        SETTINGS[opcode](picture, part)
    elif 0x20 <= opcode <= 0x23:
        take_line(picture, opcode, part)
    elif 0x28 <= opcode <= 0x2B:
        take_text(picture, opcode, part)
    elif opcode >> 4 in SHAPES and opcode & 7 <= FILL and opcode < 0x90:
        take_shape(picture, opcode, part)
    elif opcode in (0x90, 0x91, 0x98, 0x99):
        return take_bits(picture, opcode, part)
    else:
        return skip(picture, opcode, part)
    return True


def skip(picture: Picture, opcode: int, part: str) -> bool:
    """Goes past an opcode whose size is known, and tells whether it is such a one: a comment, the name of a font and the like,
    the head of the second version, and what that reserves for later ones, which is told."""
    if opcode == 0xA1:
        picture.read.take(2, part)
        picture.read.take(picture.read.number("H", part), part)
    elif picture.of_words and 0x2C <= opcode <= 0x2F:
        picture.read.take(picture.read.number("H", part), part)
    elif picture.of_words and opcode == 0x0C00:
        picture.read.take(24, part)
    elif picture.of_words and opcode >= 0xB0:
        reserved(picture, opcode, part)
        picture.lack(f"the opcode {opcode:04X}")
    else:
        return False
    return True


def reserved(picture: Picture, opcode: int, part: str) -> None:
    """Goes past an opcode that is reserved: its high byte says its size, or a long of its data does, or it has none."""
    if 0xD0 <= opcode <= 0xFE or opcode >= 0x8100:
        picture.read.take(picture.read.number("I", part), part)
    elif 0x0100 <= opcode <= 0x7FFF:
        picture.read.take(2 * (opcode >> 8), part)


def set_clip(picture: Picture, part: str) -> None:
    """The region outside of which nothing is drawn. One that has the whole frame is none."""
    found = region_in(picture.read)
    box = box_of(found)
    at = moved(found, -picture.frame.left, -picture.frame.top)
    if len(found) == 10 and holds(box, picture.frame):
        picture.clip = NO_CLIP
    elif at is None:
        picture.lack("a clip that leaves the coordinates, or is no region,")
        picture.clip = NO_CLIP
    else:
        picture.clip = at


def holds(box: Rect, inner: Rect) -> bool:
    """Whether a rectangle has all of another."""
    is_above = box.top <= inner.top and box.left <= inner.left
    return is_above and box.bottom >= inner.bottom and box.right >= inner.right


def set_pattern(picture: Picture, part: str) -> bytes:
    """A pattern. One without a name is told."""
    found = picture.read.take(8, part)
    if not pict_shapes.has_name(found):
        picture.lack(f"the pattern {digits(found)}, for which the one that is nearest stands,")
    return found


def set_pen_size(picture: Picture, part: str) -> None:
    """The sides of the pen. One that is larger than any of a script draws nothing."""
    high, wide = picture.read.numbers("hh", part)
    most = pict_shapes.LARGEST_PEN
    if not (0 <= high <= most and 0 <= wide <= most):
        picture.lack(f"a pen of {wide} by {high}")
        high = wide = 0
    picture.pen = picture.pen._replace(width=wide, height=high)


def set_pen_mode(picture: Picture, part: str) -> None:
    """The mode of the pen. One that is no mode of a pen is told, and patCopy stands for it."""
    mode = picture.read.number("h", part)
    if not 8 <= mode <= 15:
        picture.lack(f"the mode {mode} of a pen, for which patCopy stands,")
        mode = 8
    picture.pen = picture.pen._replace(mode=mode)


def set_background(picture: Picture, part: str) -> None:
    """The pattern with which shapes are erased. One that is not white is told."""
    if set_pattern(picture, part) != bytes(8):
        picture.lack("a background that is not white")


def set_text_mode(picture: Picture, part: str) -> None:
    """The mode of texts."""
    mode = picture.read.number("h", part)
    if mode not in WORDS_OF_MODES:
        picture.lack(f"the mode {mode} of a text, for which srcOr stands,")
    picture.text_mode = mode if mode in WORDS_OF_MODES else 1


def set_font(picture: Picture, part: str) -> None:
    """The font or the size of texts, which is the desk's one."""
    if picture.read.number("H", part):
        picture.lack("a font of its own, for which the desk's stands,")


def set_oval(picture: Picture, part: str) -> None:
    """The sides of the ovals in the corners of round rectangles."""
    high, wide = picture.read.numbers("hh", part)
    picture.oval = (max(wide, 0), max(high, 0))


def set_fill(picture: Picture, part: str) -> None:
    """The pattern that fills shapes."""
    picture.fill = set_pattern(picture, part)


def set_pen_pattern(picture: Picture, part: str) -> None:
    """The pattern of the pen."""
    picture.pen = picture.pen._replace(pattern=set_pattern(picture, part))


SETTINGS: dict[int, Callable[[Picture, str], None]] = {
    0x01: set_clip, 0x02: set_background, 0x03: set_font, 0x05: set_text_mode, 0x07: set_pen_size, 0x08: set_pen_mode,
    0x09: set_pen_pattern, 0x0A: set_fill, 0x0B: set_oval, 0x0D: set_font,
}  # fmt: skip


def take_line(picture: Picture, opcode: int, part: str) -> None:
    """A line: from a point or from where the last one ended, to a point or so far."""
    begin = picture.at if opcode & 1 else picture.point(part)
    if opcode & 2:
        right, down = picture.read.numbers("bb", part)
        end = (begin[0] + right, begin[1] + down)
    else:
        end = picture.point(part)
    picture.at = end
    picture.add(pict_shapes.line(begin, end, picture.pen))


def take_text(picture: Picture, opcode: int, part: str) -> None:
    """A text: at a point, or so far from where the last one began."""
    if opcode == 0x28:
        picture.text_at = picture.point(part)
    else:
        right = picture.read.number("B", part) if opcode & 1 else 0
        down = picture.read.number("B", part) if opcode & 2 else 0
        picture.text_at = (picture.text_at[0] + right, picture.text_at[1] + down)
    text = picture.read.pascal(part)
    if not is_plain(text):
        picture.lack("a byte of a text that no text of a script has")
    picture.add([Drawn(f"text {spaced(*picture.text_at)} {WORDS_OF_MODES[picture.text_mode]} {text_word(text)}")])


def take_shape(picture: Picture, opcode: int, part: str) -> None:
    """A shape. With 8 more in its opcode it is at the place of the last one of its sort."""
    sort, verb, again = opcode >> 4, opcode & 7, bool(opcode & 8)
    if sort >= 7:
        take_outline(picture, sort, verb, again, part)
        return
    if not again:
        picture.rects[sort] = picture.rect(part)
    rect = picture.rects.get(sort, Rect(0, 0, 0, 0))
    if sort == 3:
        picture.add(pict_shapes.rectangle(verb, rect, picture.pen, picture.fill))
        return
    more = picture.oval if sort == 4 else picture.read.numbers("hh", part) if sort == 6 else ()
    form = " ".join([SHAPES[sort], spaced(*rect.sides(), *more)])
    picture.add(pict_shapes.shape(verb, form, picture.pen, picture.fill))


def take_outline(picture: Picture, sort: int, verb: int, again: bool, part: str) -> None:
    """A polygon or a region."""
    if not again:
        picture.last[sort] = polygon_in(picture, part) if sort == 7 else region_at(picture)
    found = picture.last.get(sort, b"")
    if not found:
        return
    if sort == 7:
        form = f"poly {digits(found)}"
        picture.add(pict_shapes.shape(verb, form, picture.pen, picture.fill))
    else:
        picture.add(pict_shapes.region(verb, digits(found), picture.pen, picture.fill))


def region_at(picture: Picture) -> bytes:
    """The region that is next, from the frame's corner, or nothing where no script has it."""
    found = moved(region_in(picture.read), -picture.frame.left, -picture.frame.top)
    if found is None:
        picture.lack("a region that leaves the coordinates, or is none,")
    return found or b""


def polygon_in(picture: Picture, part: str) -> bytes:
    """The points of the polygon that is next, from the frame's corner: behind its size and its box, four bytes each."""
    size = picture.read.number("H", part)
    if size < 10 or size % 4 != 2:
        raise Fault(f"{picture.read.what} has a polygon of {size} bytes at byte {picture.read.at - 2}, which none has")
    picture.rect(part)
    points = [picture.point(part) for _ in range((size - 10) // 4)]
    if not in_range(*(it for point in points for it in point)):
        picture.lack("a polygon that leaves the coordinates")
        return b""
    return b"".join(v.to_bytes(2, "big", signed=True) + h.to_bytes(2, "big", signed=True) for h, v in points)


def take_bits(picture: Picture, opcode: int, part: str) -> bool:
    """An image, and tells whether it is of one bit for each pixel. One of another size than where it goes is told."""
    bits = bits_of(picture.read, opcode, part)
    if bits is None:
        return False
    target = bits.target.moved(-picture.frame.left, -picture.frame.top)
    if (target.width, target.height) != (bits.source.width, bits.source.height):
        picture.lack("an image of another size than where it goes")
    elif bits.mask:
        picture.lack("an image that a region cuts")
    elif not 0 <= bits.mode < len(SOURCE_MODES):
        picture.lack(f"the mode {bits.mode} of an image")
    else:
        parts = parts_of(bits)
        if parts is None:
            picture.lack("an image that is larger than a window's picture holds, or than its own bounds,")
        for it in parts or ():
            place = spaced(target.left + it.left, target.top + it.top, it.width, it.height)
            picture.add([Drawn(f"bits {place} {SOURCE_MODES[bits.mode]} {digits(it.rows)}")])
    return True
