"""Images of scripts, and files of them. An image is its rows, from the top, each a text of 0 for white and 1 for black."""

import struct
import zlib

from desk_kit.answers import IMAGE, PIXELS_OF_A_LINE, SIDES, Fault, is_image, lines_of_a_row, shown, split

SIGNATURE = b"\x89PNG\r\n\x1a\n"
# What the pixels of a PNG say: how light they are, or which color of its palette they have.
GRAY, BY_PALETTE = 0, 3
# Each byte with the other color in each of its bits.
INVERTED = bytes(range(255, -1, -1))


def images(text):
    """The images among the answers that a text is made of."""
    answers, rest = split(text)
    if is_image(rest):
        raise Fault("the image is not whole")
    return [image_of(answer) for answer in answers if is_image(answer)]


def answers_from(file):
    """The answers that a stream is made of, each once it is whole there, and none held behind it."""
    while line := file.readline():
        if not line.endswith(b"\n"):
            raise Fault(f"no whole answer begins with {shown(line)}")
        yield line + rest_of_image(file) if line == IMAGE else line


def rest_of_image(file):
    """What follows the first line of an image in a stream."""
    line = file.readline()
    sides = SIDES.fullmatch(line)
    if not sides:
        raise Fault("the image has no width and height")
    width, height = map(int, sides.groups())
    length = height * (width + lines_of_a_row(width))
    pixels = file.read(length)
    if len(pixels) < length:
        raise Fault("the image is not whole")
    return line + pixels


def image_of(answer):
    """The image that an answer is."""
    _, sides, *lines, _ = answer.split(b"\n")
    width, height = map(int, sides.split())
    count = lines_of_a_row(width)
    lengths = [PIXELS_OF_A_LINE] * (count - 1) + [width - PIXELS_OF_A_LINE * (count - 1)]
    digits = b"".join(lines)
    if [len(line) for line in lines] != lengths * height or digits.translate(None, b"01"):
        raise Fault("the lines of the image are not its rows")
    bits = digits.decode("ascii")
    return [bits[v * width : (v + 1) * width] for v in range(height)]


def packed(row):
    """The bytes of a row, eight pixels in each, the leftmost one in the high bit. What is left over is 0."""
    count = (len(row) + 7) // 8
    return int(row.ljust(8 * count, "0"), 2).to_bytes(count, "big")


def p4_of(rows):
    """The image in the raw PBM format."""
    return b"P4\n%d %d\n" % (len(rows[0]), len(rows)) + b"".join(map(packed, rows))


def part(kind, data):
    """A chunk of a PNG file."""
    return struct.pack(">I", len(data)) + kind + data + struct.pack(">I", zlib.crc32(kind + data))


def png_of(rows, scale):
    """The PNG of an image. Each pixel becomes a square of scale by scale pixels."""
    wide = (row.replace("0", "0" * scale).replace("1", "1" * scale) for row in rows)
    # A PNG has 1 for white.
    data = b"".join((b"\0" + packed(row).translate(INVERTED)) * scale for row in wide)
    return png_made(len(rows[0]) * scale, len(rows) * scale, (1, GRAY), b"", data)


def png_of_colors(rows, colors):
    """The PNG of rows whose digits stand for these colors, each of three bytes."""
    data = b"".join(b"\0" + bytes(map(int, row)) for row in rows)
    return png_made(len(rows[0]), len(rows), (8, BY_PALETTE), part(b"PLTE", b"".join(colors)), data)


def png_made(width, height, form, palette, data):
    """The PNG of these rows, of which each begins with its filter. Its form is how many bits a pixel has, and what it says."""
    head = part(b"IHDR", struct.pack(">IIBBBBB", width, height, *form, 0, 0, 0))
    return SIGNATURE + head + palette + part(b"IDAT", zlib.compress(data, 9)) + part(b"IEND", b"")


def pixels_of(png):
    """The rows of a PNG that png_of made."""
    if not png.startswith(SIGNATURE):
        raise Fault("it is no PNG")
    at, data, sides = len(SIGNATURE), b"", (0, 0)
    while at < len(png):
        (length,) = struct.unpack_from(">I", png, at)
        kind, body = png[at + 4 : at + 8], png[at + 8 : at + 8 + length]
        if kind == b"IHDR":
            sides = struct.unpack_from(">II", body)
        elif kind == b"IDAT":
            data += body
        at += 12 + length
    width, height = sides
    data = zlib.decompress(data)
    stride = 1 + (width + 7) // 8
    rows = [data[1 + v * stride : (v + 1) * stride] for v in range(height)]
    return ["".join(f"{255 - byte:08b}" for byte in row)[:width] for row in rows]
