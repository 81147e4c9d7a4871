"""Tests of desk-png and of the pictures at a terminal, for terminal."""

import base64
import os
import random
import re
import subprocess

from desk_kit.braille import braille, shrunk, side_for
from desk_kit.graphics import kitty, painted, protocol_of, sixel
from desk_kit.half_blocks import half_blocks
from desk_kit.pictures import pixels_of
from desk_kit.talk import Look
from place import TOP, same
from terminal_kit import SECONDS, SQUARE, SQUARE_BLOCKS, SQUARE_IMAGE, WINDOW_IMAGE, Terminal

# The square's script with lines that are refused: a word that is no command, a window that is not there, an operation that is
# none, and a line of 1025 bytes. Comments and empty lines have no answer, but count.
LONG = "#" * 1025
FAULTY = f"{SQUARE}\n# none\nmov 1\nclose 9\ndraw 1 fil 2 2 4 4 patCopy black\n{LONG}\n"
REFUSED = [
    "line 8, 'mov 1': refused 15 BadSyntax: there is no command 'mov', and the nearest is 'move'. "
    "The form is: move WINDOW LEFT TOP SELECT",
    "line 9, 'close 9': refused 2 NoSuchWindow",
    "line 10, 'draw 1 fil 2 2 4 4 patCopy black': refused 15 BadSyntax: there is no operation 'fil', and the nearest is 'fill'. "
    "The form is: draw WINDOW fill LEFT TOP RIGHT BOTTOM MODE PATTERN",
    f"line 11, '{'#' * 60}'...: refused 10 TooLong: the line has 1025 bytes, and 1024 is the most",
]
SEVERAL = "desk-png: square.desk has several images, and standard output takes one: name --image N or --last.\n"
# A program of its own: an image, and once the first file of it is there a second one, and a fault.
BROKEN = """#!/bin/sh
printf 'P1\\n2 1\\n10\\n'
tries=0
while [ ! -s seen-1.png ] && [ $tries -lt 600 ]; do sleep 0.1; tries=$((tries + 1)); done
[ -s seen-1.png ] && printf 'P1\\n1 2\\n0\\n1\\n'
echo 'no more' >&2
exit 7
"""


def png_on_output(place, *words):
    """The status of desk-png, the picture that it writes on standard output, None for nothing, and what it says."""
    called = [os.path.join(TOP, "desk-png"), "--program", place.program, *words]
    ran = subprocess.run(called, cwd=place.folder, stdin=subprocess.DEVNULL, capture_output=True, timeout=SECONDS)
    return ran.returncode, pixels_of(ran.stdout) if ran.stdout else None, ran.stderr.decode()


def one_image_is_chosen(place):
    place.write("square.desk", SQUARE)
    same("by its number", place.call("desk-png", "--image", "1", "square.desk", "one"), (0, "one-1.png\n", ""))
    same("the last one", place.call("desk-png", "--last", "square.desk", "last"), (0, "last-2.png\n", ""))
    same("the files", place.files(), ["last-2.png", "one-1.png", "square.desk"])
    same("the images", [place.picture("one-1.png"), place.picture("last-2.png")], [WINDOW_IMAGE, SQUARE_IMAGE])
    lacks = "desk-png: square.desk has no image 3: its last one is image 2.\n"
    same("one that is not there", place.call("desk-png", "--image", "3", "square.desk", "x"), (1, "", lacks))
    for words in (["--image", "0"], ["--image", "two"], ["--image", "1", "--last"]):
        same(f"{words}", place.call("desk-png", *words, "square.desk", "x")[:2], (2, ""))
    same("the files at last", len(place.files()), 3)


def one_image_goes_to_standard_output(place):
    place.write("square.desk", SQUARE)
    place.write("one.desk", SQUARE.replace("image\n", "", 1))
    place.write("none.desk", "desk 8 8 0\n")
    for words, picture in [
        (["one.desk"], SQUARE_IMAGE),
        (["--image", "1", "square.desk"], WINDOW_IMAGE),
        (["--last", "square.desk"], SQUARE_IMAGE),
    ]:
        same(f"{words}", png_on_output(place, *words, "-"), (0, picture, ""))
    same("several", png_on_output(place, "square.desk", "-"), (1, None, SEVERAL))
    same("none", png_on_output(place, "none.desk", "-"), (1, None, "desk-png: none.desk has no image.\n"))
    same("the files", place.files(), ["none.desk", "one.desk", "square.desk"])


def files_from_before_a_fault_stay(place):
    """The second image comes once the first one is in its file: no image waits for the script's end."""
    place.write("broken", BROKEN, 0o755)
    place.write("two.desk", "image\nimage\n")
    said = "desk-png: two.desk was not run to its end: no more\n"
    called = ["--program", place.path("broken"), "two.desk"]
    same("all", place.call("desk-png", *called, "seen", over=False), (1, "seen-1.png\nseen-2.png\n", said))
    same("the images", [place.picture(f"seen-{it}.png") for it in (1, 2)], [["10"], ["0", "1"]])
    same("the last", place.call("desk-png", "--last", *called, "last", over=False), (1, "", said))
    same("the first", place.call("desk-png", "--image", "1", *called, "first", over=False), (1, "first-1.png\n", said))
    same("the files", place.files(), ["broken", "first-1.png", "seen-1.png", "seen-2.png", "two.desk"])


def refused_lines_are_told(place):
    place.write("faulty.desk", FAULTY)
    told = "".join(f"desk-png: {it}\n" for it in REFUSED)
    for words, status in ([], 0), (["--strict"], 1):
        found = place.call("desk-png", *words, "faulty.desk", "seen")
        same(f"with {words}", found, (status, "seen-1.png\nseen-2.png\n", told))
    same("the second image", place.picture("seen-2.png"), SQUARE_IMAGE)
    place.write("square.desk", SQUARE)
    same("no refusal", place.call("desk-png", "--strict", "square.desk", "x"), (0, "x-1.png\nx-2.png\n", ""))


def a_script_is_read_once(place):
    """From standard input, and from a FIFO, whose writer has no second reader."""
    same("standard input", place.call("desk-png", "-", "in", given=FAULTY)[:2], (0, "in-1.png\nin-2.png\n"))
    same("its image", place.picture("in-2.png"), SQUARE_IMAGE)
    same("an empty one", place.call("desk-png", "-", "in"), (1, "", "desk-png: - has no image.\n"))
    place.write("square.desk", SQUARE)
    fifo = place.path("fifo")
    os.mkfifo(fifo)
    with subprocess.Popen(["sh", "-c", 'cat square.desk > fifo'], cwd=place.folder) as writer:
        same("a FIFO", place.call("desk-png", "fifo", "out"), (0, "out-1.png\nout-2.png\n", ""))
        same("its writer", writer.wait(SECONDS), 0)
    same("its image", place.picture("out-2.png"), SQUARE_IMAGE)


def answers_that_are_no_scripts_are_told(place):
    place.write("square.desk", SQUARE)
    for name, text in [
        ("no whole answer begins with 'ok'", "ok\\nok"),
        ("the image has no width and height", "ok\\nP1\\n8\\n"),
        ("the image is not whole", "ok\\nP1\\n2 2\\n10\\n"),
        ("the lines of the image are not its rows", "ok\\nP1\\n2 2\\n10\\n1x\\n"),
        ("it has more answers than commands", "ok\\n" * 6),
    ]:
        place.write("told", f"#!/bin/sh\nprintf '{text}'\n", 0o755)
        found = place.call("desk-png", "--program", place.path("told"), "square.desk", "x", over=False)
        same(name, found, (1, "", f"desk-png: what square.desk is answered is no script's: {name}.\n"))


def pixels_become_half_blocks(_):
    same("a square", half_blocks(SQUARE_IMAGE), SQUARE_BLOCKS)
    same("a row alone", half_blocks(["0110"]), [" ▀▀ "])
    same("three rows", half_blocks(["0011", "0101", "1100"]), [" ▄▀█", "▀▀  "])


def pixels_become_dots_of_braille(_):
    places = [(h, v) for h in range(2) for v in range(4)]
    single = [["".join("01"[(h, v) == place] for h in range(2)) for v in range(4)] for place in places]
    same("each dot", [braille(it) for it in single], [[it] for it in "⠁⠂⠄⡀⠈⠐⠠⢀"])
    same("a square", braille(SQUARE_IMAGE), ["⡏⢉⡉⢹", "⣇⣈⣁⣸"])
    same("sides that are no whole cells", braille(["111"] * 5), ["⣿⡇", "⠉⠁"])


def tiled(pattern, width, height):
    """So much of a pattern, whose rows are repeated to the right and downwards."""
    return [(pattern[v % len(pattern)] * width)[:width] for v in range(height)]


def gray_stays_as_gray_as_it_was(_):
    """Of two by two dots, half are black in gray, one in light gray, and three in dark gray."""
    for name, pattern, dots in [
        ("gray", ["10", "01"], ["10", "01"]),
        ("light gray", ["1000", "0010"], ["10", "00"]),
        ("dark gray", ["0111", "1101"], ["11", "01"]),
        ("white", ["0"], ["0"]),
        ("black", ["1"], ["1"]),
    ]:
        same(f"{name} by 4", shrunk(tiled(pattern, 24, 16), 4), tiled(dots, 6, 4))
        same(f"{name} by 2", shrunk(tiled(pattern, 24, 16), 2), tiled(dots, 12, 8))
    same("gray by 3", shrunk(tiled(["01", "10"], 12, 12), 3), tiled(["10", "01"], 4, 4))
    same("gray by 7", shrunk(tiled(["01", "10"], 28, 28), 7), tiled(["10", "01"], 4, 4))


def lines_of_one_pixel_are_not_lost(_):
    white = ["0" * 12] * 12
    for side in (2, 3, 4, 6):
        for at in range(12):
            across = ["1" * 12 if v == at else row for v, row in enumerate(white)]
            down = ["".join("01"[h == at] for h in range(12)) for _ in white]
            count = 12 // side
            rows = ["01"[v == at // side] * count for v in range(count)]
            columns = ["".join("01"[h == at // side] for h in range(count))] * count
            same(f"by {side}, row {at}", shrunk(across, side), rows)
            same(f"by {side}, column {at}", shrunk(down, side), columns)
    # The left side of a window on the gray desktop: its frame is the column 3.
    window = [row[:3] + "1" + "0" * 8 for row in tiled(["10", "01"], 12, 12)]
    same("a frame on gray", shrunk(window, 3), ["1100", "0100", "1100", "0100"])


def squares_are_no_larger_than_they_have_to_be(_):
    sides = [(80, 80, 1), (81, 80, 2), (160, 80, 2), (512, 256, 2), (512, 200, 3), (1, 80, 1)]
    same("sides", [side_for(width, dots) for width, dots, _ in sides], [side for _, _, side in sides])
    same("squares that are cut", shrunk(["11011"] * 3, 2), ["111", "111"])


def an_image_takes_the_best_characters_that_fit(_):
    black = ["1" * 8] * 16
    said = "(each dot stands for 2 by 2 of the 8 by 16 pixels; 'save FILE.png' keeps them all)"
    higher = "(the image has {} lines, and the terminal {}: scroll back to its top)"
    half, cells = ["█" * 8] * 8, ["⣿⣿⣿⣿"] * 4
    for name, look, wanted in [
        ("no terminal", Look(), half),
        ("as wide", Look(8), half),
        ("narrower", Look(7), cells),
        ("half as wide", Look(4), cells),
        ("less", Look(3), ["⣿⣿", "⣿⣿", said]),
        ("no Braille", Look(7, has_braille=False), [*["████"] * 4, said]),
        ("no Braille, and as wide", Look(8, has_braille=False), half),
        ("as high", Look(8, lines=9), half),
        ("higher", Look(8, lines=8), [*half, higher.format(8, 8)]),
        ("higher with what is said", Look(3, lines=3), ["⣿⣿", "⣿⣿", said, higher.format(2, 3)]),
        ("colors", Look(4, has_colors=True), [f"\033[30;107m{it}\033[0m" for it in cells]),
        ("a picture", Look(3, True, 1, painter=lambda rows: f"{len(rows)} rows"), ["16 rows"]),
    ]:
        same(name, look.image(black), wanted)


def a_terminal_is_known_by_its_environment(_):
    for environ, wanted in [
        ({"TERM": "xterm-256color"}, ""),
        ({}, ""),
        ({"TERM": "xterm-kitty"}, "kitty"),
        ({"TERM": "xterm-256color", "KITTY_WINDOW_ID": "1"}, "kitty"),
        ({"TERM": "dumb", "KITTY_WINDOW_ID": "1"}, ""),
        ({"TERM": "tmux-256color", "KITTY_WINDOW_ID": "1"}, ""),
        ({"TERM": "xterm-kitty", "TMUX": "default,1,0"}, ""),
        ({"TERM": "screen", "TERM_PROGRAM": "WezTerm"}, ""),
        ({"TERM": "foot"}, "sixel"),
        ({"TERM": "xterm-256color", "TERM_PROGRAM": "WezTerm"}, "sixel"),
        ({"TERM": "xterm-256color", "TERM_PROGRAM": "vscode"}, ""),
        ({"TERM": "xterm", "DESK_IMAGES": "sixel"}, "sixel"),
        ({"TERM": "xterm-kitty", "DESK_IMAGES": "characters"}, ""),
        ({"TERM": "xterm-kitty", "DESK_IMAGES": "frob"}, "kitty"),
    ]:
        same(f"{environ}", protocol_of(environ), wanted)


def pictures_are_sent_in_the_form_of_their_terminal(_):
    sign = '\033Pq"1;1;{};{}#0;2;100;100;100#1;2;0;0;0{}\033\\'
    same("sixels", sixel(["10", "01"], 1), sign.format(2, 2, "#0A@$#1@A"))
    # A black pixel becomes 5 by 7: six rows in the first band, which are counted, and one in the second.
    same("bands", sixel(["1"], 7), sign.format(7, 7, "#0!7?$#1!7~-#0!7?$#1!7@"))
    same("columns that are not counted", sixel(["100"], 1), sign.format(3, 1, "#0?@@$#1@??"))
    rows = ["".join(random.Random(v).choices("01", k=400)) for v in range(300)]
    parts = re.findall("\033_G([^;]*);([^\033]*)\033\\\\", kitty(rows, 1))
    same("the messages", [head for head, _ in parts], ["a=T,f=100,q=2,m=1", *["q=2,m=1"] * (len(parts) - 2), "q=2,m=0"])
    same("none is too long", max(len(data) for _, data in parts), 4096)
    same("the picture", pixels_of(base64.b64decode("".join(data for _, data in parts))), rows)
    same("the message of a small one", kitty(["1"], 1).count("m=0"), 1)
    scales = [(0, 1), (99, 1), (200, 2), (399, 3), (900, 4)]
    same("scales", [painted(lambda _, scale: scale, pixels, ["0" * 100]) for pixels, _ in scales], [it for _, it in scales])


def images_fit_a_terminal(place):
    """The half of a window is black, 32 columns wide: sixteen characters of Braille."""
    for more, before, after in [({}, "\033[30;107m", "\033[0m"), ({"NO_COLOR": "1"}, "", ""), ({"TERM": "dumb"}, "", "")]:
        with Terminal([os.path.join(TOP, "desk-talk"), "--program", place.program], columns=20, **more) as terminal:
            terminal.until("desk> ")
            for line in ("desk 32 8 0", 'window plain 1 1 30 6 1 0 ""', "draw 1 fill 0 0 15 6 patCopy black"):
                terminal.type(line + "\r")
                terminal.until("desk> ")
            terminal.type("image\r")
            lines = [f"{before}{'⣿' * 8}{side}{after}\n" for side in ("⠉" * 7 + "⢹", "⣀" * 7 + "⣸")]
            same(f"the image with {more}", terminal.until("desk> ").rpartition("image\n")[2], f"{''.join(lines)}desk> ")
            terminal.type("quit\r")
            same("its status", terminal.status(), 0)


def a_terminal_of_pictures_gets_one(place):
    with Terminal([os.path.join(TOP, "desk-talk"), "--program", place.program], DESK_IMAGES="sixel") as terminal:
        terminal.until("desk> ")
        terminal.type("desk 8 8 0\r")
        terminal.until("desk> ")
        terminal.type("image\r")
        # The desktop is gray: a pixel is black where column + row is even.
        bands = "#0iTiTiTiT$#1TiTiTiTi-#0A@A@A@A@$#1@A@A@A@A"
        picture = f'\033Pq"1;1;8;8#0;2;100;100;100#1;2;0;0;0{bands}\033\\\n'
        same("the picture", terminal.until("desk> "), f"image\n{picture}desk> ")


TESTS = [
    pixels_become_half_blocks,
    pixels_become_dots_of_braille,
    gray_stays_as_gray_as_it_was,
    lines_of_one_pixel_are_not_lost,
    squares_are_no_larger_than_they_have_to_be,
    an_image_takes_the_best_characters_that_fit,
    a_terminal_is_known_by_its_environment,
    pictures_are_sent_in_the_form_of_their_terminal,
    images_fit_a_terminal,
    a_terminal_of_pictures_gets_one,
    one_image_is_chosen,
    one_image_goes_to_standard_output,
    files_from_before_a_fault_stay,
    refused_lines_are_told,
    a_script_is_read_once,
    answers_that_are_no_scripts_are_told,
]
