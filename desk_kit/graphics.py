"""Images for a terminal that shows pictures: by the graphics protocol of kitty, or as sixels. What a terminal shows is taken
from the environment. It is not asked: an answer that comes late would be read as typed."""

import base64
import fcntl
import functools
import itertools
import struct
import sys
import termios

from desk_kit.pictures import png_of

# Names by which DESK_IMAGES chooses; the last one is for no pictures.
KITTY, SIXEL, CHARACTERS = "kitty", "sixel", "characters"
# The terminals that always show pictures, by TERM and by TERM_PROGRAM.
BY_TERM = {
    "xterm-kitty": KITTY,
    "xterm-ghostty": KITTY,
    "contour": SIXEL,
    "foot": SIXEL,
    "foot-extra": SIXEL,
    "mlterm": SIXEL,
    "yaft-256color": SIXEL,
}
BY_PROGRAM = {"ghostty": KITTY, "iTerm.app": SIXEL, "mintty": SIXEL, "WezTerm": SIXEL}
# What stands between a program and its terminal, and shows no pictures; and what is no screen.
BETWEEN, NO_SCREEN = ("screen", "tmux"), ("", "dumb")
# How many characters of data a message of kitty's has at most.
MOST_DATA = 4096
# A sixel is a column of so many pixels, as a character from this one on; more than so many of one kind are counted.
SIXEL_ROWS, FIRST_SIXEL, LONGEST_WRITTEN = 6, 63, 3
LARGEST_SCALE = 4


def protocol_of(environ):
    """How the terminal of this environment takes pictures, or nothing where it takes characters alone."""
    term, named = environ.get("TERM", ""), environ.get("DESK_IMAGES")
    if named in (KITTY, SIXEL, CHARACTERS):
        return named.replace(CHARACTERS, "")
    if term in NO_SCREEN or term.startswith(BETWEEN) or environ.get("TMUX"):
        return ""
    if environ.get("KITTY_WINDOW_ID"):
        return KITTY
    return BY_TERM.get(term) or BY_PROGRAM.get(environ.get("TERM_PROGRAM"), "")


def painter_of(environ):
    """What makes a text of an image that the terminal of this environment shows as a picture, or None where it shows none."""
    painters = {KITTY: kitty, SIXEL: sixel}
    protocol = protocol_of(environ)
    return functools.partial(painted, painters[protocol], pixels_across()) if protocol else None


def pixels_across():
    """How many pixels the terminal at standard output is wide, 0 where that is not known."""
    try:
        return struct.unpack("HHHH", fcntl.ioctl(sys.stdout, termios.TIOCGWINSZ, bytes(8)))[2]
    except OSError:
        return 0


def painted(painter, pixels, rows):
    """The text of an image, whose pixels are the largest squares that the terminal has room for."""
    return painter(rows, max(1, min(LARGEST_SCALE, pixels // len(rows[0]))))


def kitty(rows, scale):
    """The text that has kitty show an image, whose PNG goes in several messages. None of them is answered."""
    data = base64.b64encode(png_of(rows, scale)).decode("ascii")
    parts = [data[at : at + MOST_DATA] for at in range(0, len(data), MOST_DATA)]
    heads = ["a=T,f=100,q=2", *["q=2"] * (len(parts) - 1)]
    more = [1] * (len(parts) - 1) + [0]
    return "".join(f"\033_G{head},m={it};{part}\033\\" for head, it, part in zip(heads, more, parts))


def sixel(rows, scale):
    """The text that shows an image as sixels: the color 0 is white, and 1 is black."""
    wide = [row.replace("0", "0" * scale).replace("1", "1" * scale) for row in rows for _ in range(scale)]
    bands = [wide[top : top + SIXEL_ROWS] for top in range(0, len(wide), SIXEL_ROWS)]
    head = f'\033Pq"1;1;{len(wide[0])};{len(wide)}#0;2;100;100;100#1;2;0;0;0'
    return head + "-".join(f"#0{sixels(band, '0')}$#1{sixels(band, '1')}" for band in bands) + "\033\\"


def sixels(band, color):
    """The sixels of this color in a band of rows."""
    columns = ("".join(column) for column in zip(*band))
    signs = (chr(FIRST_SIXEL + sum(1 << v for v, bit in enumerate(column) if bit == color)) for column in columns)
    runs = ((sign, len([*its])) for sign, its in itertools.groupby(signs))
    return "".join(f"!{count}{sign}" if count > LONGEST_WRITTEN else sign * count for sign, count in runs)
