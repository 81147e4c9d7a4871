"""A report on outcomes of desk_kit.screen_tests for people: a page of HTML in one file. It takes nothing from elsewhere, and
has no program in it: found and due are exchanged by a check box."""

import base64
import html
import re
from itertools import zip_longest

from desk_kit.pictures import pixels_of, png_of, png_of_colors
from desk_kit.reports import count, legible

# The captions of the pictures, by their words.
CAPTIONS = {"found": "found", "due": "due", "differ": "where they differ, black"}
# How many pixels of a browser three pictures beside each other may take, and the largest square that stands for a pixel.
WIDEST, LARGEST_SQUARE = 1440, 8
# A picture of more columns may be shown smaller than it is, and is smoothed then, so that none of its lines is lost.
WIDEST_SHARP = 200
# What differs is shown with squares of this side, with so many pixels around it, and in so many columns and rows at most.
NEAR_SQUARE, MARGIN, NEAR_COLUMNS, NEAR_ROWS = 4, 16, 160, 120
# The colors of an overlay: white and black in both, and black in what was found or in what is due alone.
OVERLAY = (b"\xff\xff\xff", b"\x00\x00\x00", b"\xd5\x5e\x00", b"\x00\x72\xb2")
BOTH_WHITE, BOTH_BLACK, FOUND_ALONE, DUE_ALONE = "0123"
OVERLAID = {("0", "0"): BOTH_WHITE, ("1", "1"): BOTH_BLACK, ("1", "0"): FOUND_ALONE, ("0", "1"): DUE_ALONE}
# A sentence on a command of a script begins with its line, of which so many lines before and behind are shown.
AT_LINE = re.compile(r"line ([0-9]+), ")
LINES_AROUND = 2

PAGE = """<!DOCTYPE html>
<html lang="en">
<head>
<meta charset="utf-8">
<meta name="viewport" content="width=device-width">
<title>{title}</title>
<style>
body {{ font-family: sans-serif; margin: 2em; color: black; background: white }}
section {{ border-top: 1px solid gray; padding-bottom: 1em }}
h2 {{ font-size: 1.1em; overflow-wrap: anywhere }}
p {{ overflow-wrap: anywhere }}
pre {{ overflow-x: auto; background: #eee; padding: 0.5em }}
mark {{ background: #fd8 }}
div {{ display: flex; gap: 1em; margin-bottom: 1em }}
div.near {{ flex-wrap: wrap }}
figure {{ margin: 0; flex: 0 1 auto; min-width: 0 }}
img {{ outline: 1px solid gray; max-width: 100%; height: auto; image-rendering: pixelated }}
img.wide {{ image-rendering: auto }}
label {{ display: block; cursor: pointer }}
label img {{ display: block }}
input:not(:checked) ~ .due, input:checked ~ .found {{ display: none }}
.found-alone {{ color: #d55e00 }}
.due-alone {{ color: #0072b2 }}
</style>
</head>
<body>
<h1>{title}</h1>
{body}</body>
</html>
"""
SWAP = """<figure><label><input type="checkbox"> <span class="found">found; a click or the space bar shows what is due</span>\
<span class="due">due; a click or the space bar shows what was found</span>{images}</label></figure>
"""
OVERLAY_SAID = """<figcaption>both: <span class="found-alone">black in what was found alone</span>, \
<span class="due-alone">black in what is due alone</span></figcaption>"""


def page_of(outcomes, notes):
    """The page: these notes, what is wrong with each outcome that failed, with its pictures, and the names of those that
    passed."""
    said = [f"<p>{escaped(it)}</p>\n" for it in notes]
    failed = [section_of(it) for it in outcomes if it.fails()]
    passed = [it.path for it in outcomes if not it.fails()]
    return PAGE.format(title=count(outcomes), body="".join([*said, *failed, passed_of(passed)])).encode("utf-8")


def escaped(text):
    """A text as HTML."""
    return html.escape(legible(text))


def passed_of(paths):
    """The scripts that passed, folded away; nothing where there are none."""
    items = "".join(f"<li>{escaped(it)}</li>\n" for it in paths)
    return f"<details>\n<summary>{len(paths)} passed</summary>\n<ul>\n{items}</ul>\n</details>\n" if paths else ""


def section_of(outcome):
    """What is wrong with an outcome, each sentence with the lines of the script that it is about."""
    pictures = {it.word: it for it in outcome.found.pictures}
    said = "".join(f"<p>{escaped(it)}</p>\n{lines_of(outcome.path, it)}" for it in outcome.found.faults)
    figures = "".join(map(figure_of, pictures.values()))
    beside = f"<div>\n{figures}</div>\n" if figures else ""
    near = near_of(*(pixels_of(pictures[it].png) for it in CAPTIONS)) if "differ" in pictures else ""
    return f"<section>\n<h2>{escaped(outcome.path)}</h2>\n{said}{beside}{near}</section>\n"


def lines_of(path, sentence):
    """The line of a script that a sentence names, marked, and those around it; nothing where it names none."""
    found = AT_LINE.match(sentence)
    if not found:
        return ""
    try:
        with open(path, encoding="utf-8", errors="backslashreplace", newline="\n") as file:
            lines = file.read().removesuffix("\n").split("\n")
    except OSError:
        return ""
    number = int(found[1])
    first = max(1, number - LINES_AROUND)
    numbered = enumerate(lines[first - 1 : number + LINES_AROUND], first)
    return "<pre>\n" + "\n".join(line_of(at, line, at == number) for at, line in numbered) + "</pre>\n"


def line_of(number, line, is_marked):
    """A line of a script with its number."""
    said = f"{number:6} {escaped(line)}"
    return f"<mark>{said}</mark>" if is_marked else said


def image_of(word, width, png, scale, *kinds):
    """An element of these kinds that shows a PNG so wide, each pixel as a square of this side."""
    kinds += ("wide",) * (scale == 1 and width > WIDEST_SHARP)
    named = f' class="{" ".join(kinds)}"' if kinds else ""
    source = f"data:image/png;base64,{base64.b64encode(png).decode('ascii')}"
    return f'<img{named} alt="{word}" width="{width * scale}" src="{source}">'


def figure_of(picture):
    """A picture, in which a pixel is a square of as many pixels of the browser as there is room for beside two others."""
    scale = max(1, min(LARGEST_SQUARE, WIDEST // (3 * picture.width)))
    image = image_of(picture.word, picture.width, picture.png, scale)
    return f"<figure>{image}<figcaption>{CAPTIONS[picture.word]}</figcaption></figure>\n"


def near_of(found, due, differ):
    """Two images near where they differ, in one place and over each other; and the whole of them likewise, folded away."""
    left, top, right, bottom = near(differ)
    part = [[row[left:right] for row in rows[top:bottom]] for rows in (found, due)]
    whole = f"<details>\n<summary>All of it</summary>\n{compared(found, due, 1)}</details>\n"
    return compared(*part, NEAR_SQUARE) + whole


def near(differ):
    """The rectangle around what differs: its left, top, right and bottom."""
    black = [v for v, row in enumerate(differ) if "1" in row]
    left = min(differ[v].index("1") for v in black)
    right = max(differ[v].rindex("1") for v in black) + 1
    first, end = around(left, right, len(differ[0]), NEAR_COLUMNS)
    top, bottom = around(black[0], black[-1] + 1, len(differ), NEAR_ROWS)
    return first, top, end, bottom


def around(first, end, count, most):
    """The part from the first to the end, with a margin, of so many at most."""
    begin = max(0, first - MARGIN)
    return begin, min(count, end + MARGIN, begin + most)


def compared(found, due, scale):
    """Two images in one place, of which one is shown, and beside them both over each other."""
    rows = [overlaid(*it) for it in zip_longest(found, due, fillvalue="")]
    width, height = max(map(len, rows)), len(rows)
    both = png_of_colors([row.ljust(width, BOTH_WHITE) for row in rows], OVERLAY)
    one, other = (png_of(filled(it, width, height), 1) for it in (found, due))
    images = image_of("found", width, one, scale, "found") + image_of("due", width, other, scale, "due")
    overlay = f"<figure>{image_of('both', width, both, scale)}{OVERLAY_SAID}</figure>\n"
    return f'<div class="near">\n{SWAP.format(images=images)}{overlay}</div>\n'


def filled(rows, width, height):
    """An image in so many columns and rows, white where it had none."""
    return [row.ljust(width, "0") for row in [*rows, *[""] * (height - len(rows))]]


def overlaid(found, due):
    """Two rows over each other. Where one of them has no pixel the other one stands alone."""
    return "".join(OVERLAID.get(it) or (DUE_ALONE if it[0] is None else FOUND_ALONE) for it in zip_longest(found, due))
