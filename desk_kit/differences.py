"""Where a script is answered otherwise than is due."""

import os
from itertools import zip_longest
from typing import NamedTuple

from desk_kit.answers import LONGEST_SHOWN, Command, Fault, commands_of, is_image, shown, split
from desk_kit.pictures import image_of

COLORS = {"0": "white", "1": "black", None: "no pixel"}
# How many bytes of a long line are shown before the place where it differs.
SHOWN_BEFORE = 20


class Difference(NamedTuple):
    """A command, the answer that was found and the one that is due, which differ."""

    # None behind the last command.
    command: Command
    # None where there is no answer. It may be no whole one where the text ends with it.
    found: bytes
    due: bytes

    def said(self):
        """The difference in a sentence."""
        line = f"line {self.command.line}, {shown(self.command.text)}" if self.command else "after the last command"
        return f"{line}: {said_of_answers(self.found, self.due)}"

    def pictures(self):
        """What of the difference is an image, each with words for it that are fit for a file's name: the line of the
        command, and found, due or, where both are, differ."""
        line = f"line-{self.command.line}" if self.command else "end"
        found, due = image_in(self.found), image_in(self.due)
        named = {"found": found, "due": due, "differ": found and due and differing(found, due)}
        return {f"{line}.{name}": rows for name, rows in named.items() if rows}


class DifferenceOfBytes(NamedTuple):
    """Two texts that differ, with a name for them."""

    name: str
    found: bytes
    due: bytes

    def said(self):
        """The difference in a sentence."""
        common = len(os.path.commonprefix([self.found, self.due]))
        line = self.found.count(b"\n", 0, common) + 1
        return f"{self.name} differs at byte {common + 1}, in line {line}: {said_of_texts(self.found, self.due)}"

    def pictures(self):
        """None: such a text has no answers."""
        return {}


def first_difference(script, found, due):
    """The first command of a script that a text answers otherwise than the text that is due, or None where they are the
    same."""
    answers = zip_longest(commands_of(script), pieces(found), pieces(due))
    return next((Difference(*it) for it in answers if it[1] != it[2]), None)


def pieces(text):
    """The answers that a text begins with, and at last what is no whole one, if there is that."""
    answers, rest = split(text)
    return [*answers, rest] if rest else answers


def image_in(answer):
    """The image that an answer is, or None where it is none or not whole."""
    answers, _ = split(answer or b"")
    try:
        return image_of(answer) if answers == [answer] and is_image(answer) else None
    except Fault:
        return None


def differing(found, due):
    """Where two images differ, as an image that has both: 1 in each pixel that they have otherwise, or just one of them
    has."""
    width = max(len(found[0]), len(due[0]))
    return [differing_row(*rows, width) for rows in zip_longest(found, due, fillvalue="")]


def differing_row(found, due, width):
    """The same of two rows, in a row of so many columns."""
    if len(found) == len(due) == width:
        return f"{int(found, 2) ^ int(due, 2):0{width}b}"
    return "".join("01"[a != b] for a, b in zip_longest(found, due)).ljust(width, "0")


def pixel(rows, h, v):
    """The pixel of an image in this column and row, or None where it has none."""
    return rows[v][h] if v < len(rows) and h < len(rows[v]) else None


def said_of_answers(found, due):
    """How two answers differ."""
    images, said = (image_in(found), image_in(due)), (said_of(found), said_of(due))
    if all(images):
        return said_of_images(*images)
    if said[0] == said[1] or all(it is not None and not is_image(it) for it in (found, due)):
        return said_of_texts(found, due)
    return f"{said[0]} in place of {said[1]}"


def said_of(answer):
    """An answer in words."""
    image = image_in(answer)
    if image:
        return f"an image of {size_of(image)}"
    if answer is None:
        return "nothing"
    return "a broken image" if is_image(answer) else shown(answer)


def size_of(rows):
    """The size of an image in words."""
    return f"{len(rows[0])} by {len(rows)}"


def said_of_images(found, due):
    """How two images differ: in how many pixels, and which is the first, row by row."""
    differ = differing(found, due)
    v = next(v for v, row in enumerate(differ) if "1" in row)
    h = differ[v].index("1")
    count = sum(row.count("1") for row in differ)
    pixels = f"{count} pixels, the first" if count > 1 else "1 pixel,"
    colors = f"{COLORS[pixel(found, h, v)]} in place of {COLORS[pixel(due, h, v)]}"
    what = "an image that differs"
    if size_of(found) != size_of(due):
        what = f"an image of {size_of(found)} in place of one of {size_of(due)}; they differ"
    return f"{what} in {pixels} at {h} {v}, {colors}"


def said_of_texts(found, due):
    """How two texts differ: their lines where they first do."""
    common = len(os.path.commonprefix([found, due]))
    begin = found.rfind(b"\n", 0, common) + 1
    lines = [text[begin:].split(b"\n")[0] for text in (found, due)]
    if lines[0] == lines[1]:
        return f"{shown(lines[0])} {'with' if len(found) > len(due) else 'without'} the end of the line"
    skipped = max(common - begin - SHOWN_BEFORE, 0) if max(map(len, lines)) > LONGEST_SHOWN else 0
    one, other = (("..." if skipped else "") + shown(line[skipped:]) for line in lines)
    return f"{one} in place of {other}"
