"""Scripts that hand the program bytes as a region's, each line with the answer that region_bytes.py works out: the bytes of
two regions, those cut short or with something behind them, and those with any one byte changed."""

from region_bytes import bytes_of, cut, judged, picture, read

RECTANGLE = bytes.fromhex("000A 0001 0002 0004 0005")
# Two rectangles, one below the other.
BLOCKS = bytes.fromhex("0024 0000 0000 0004 0004  0000 0000 0002 7FFF  0002 0002 0004 7FFF  0004 0000 0004 7FFF  7FFF")
# The side of a window whose update regions are asked for, and of one whose pixels are.
LARGE = 1024
SMALL = 24
# A window whose content is the screen, and white.
BEGIN = b'desk %d %d 0\nwindow plain 0 0 %d %d 1 0 ""\nupdate 1'
BEGUN = [b"ok\n", b"ok 1\n", b"ok\n"]
OK = b"ok\n"


def digits(data):
    return data.hex().upper().encode()


def of_other_length(data):
    """These bytes cut short at each place but the first, since no bytes at all are no word, or with others behind them."""
    return [*(data[:length] for length in range(1, len(data))), *(data + more for more in (b"\0", b"\0\0", b"\x7F\xFF"))]


def with_one_changed(data):
    """These bytes with each other byte at each place."""
    for place in range(len(data)):
        for byte in set(range(256)) - {data[place]}:
            yield data[:place] + bytes([byte]) + data[place + 1 :]


def begun(side):
    """Lines that open a window with sides of this length, with their answers."""
    return zip((BEGIN % (side, side, side, side)).split(b"\n"), BEGUN)


def held(region):
    """The answer that gives a region."""
    return b"ok %s\n" % digits(bytes_of(region))


def updates(cases):
    """Lines that add the bytes to an update region, which has to be that region as far as the content shows it, and take
    them out."""
    yield from begun(LARGE)
    for data in cases:
        refusal = judged(data)
        yield b"invalrgn 1 " + digits(data), refusal or OK
        if not refusal:
            yield b"updatergn 1", held(cut(read(data), 0, 0, LARGE, LARGE))
        yield b"validrgn 1 " + digits(data), refusal or OK
        if not refusal:
            yield b"updatergn 1", held([])


def image(region):
    """The screen where the pixels of a region are black."""
    rows = picture(region, SMALL, SMALL)
    return b"".join(line + b"\n" for line in [b"P1", b"%d %d" % (SMALL, SMALL), *rows])


def drawings(cases):
    """Lines that draw the region with these bytes, or in it, with the screen after each that is done."""
    yield from begun(SMALL)
    within = b"draw 1 clip %%s fill 0 0 %d %d patCopy black" % (SMALL, SMALL)
    for data in cases:
        refusal = judged(data)
        for line in (b"draw 1 rgn %s patCopy black", within):
            yield line % digits(data), refusal or OK
            if not refusal:
                yield from ((b"image", image(read(data))), (b"clear 1", OK), (b"update 1", OK))


def scripts():
    """Each script with its name: lines with their answers."""
    for name, data in (("a rectangle", RECTANGLE), ("two blocks", BLOCKS)):
        for kind, cases in (("cut short or too long", of_other_length(data)), ("changed", [*with_one_changed(data)])):
            for way, lines in (("for an update region", updates), ("to draw", drawings)):
                yield f"the bytes of {name}, {kind}, {way}", list(lines(cases))
