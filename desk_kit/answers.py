"""The commands of a script, and the answers that a text is made of, as docs/SCRIPT.md has them. Scripts, commands and
answers are bytes.

An answer is a line, or an image: a line P1, a line with its width and height, and each row in lines of 70 pixels and a
last one of the 1 to 70 that are left.
"""

import re
from typing import NamedTuple

# A line of more bytes than this, without its ending, is a command, whatever it is.
LONGEST_LINE = 1024
# How many pixels of a row stand in a line.
PIXELS_OF_A_LINE = 70
IMAGE = b"P1\n"
SIDES = re.compile(rb"([1-9][0-9]*) ([1-9][0-9]*)\n")
# How many bytes of a text are shown where something is wrong with it.
LONGEST_SHOWN = 60


class Fault(ValueError):
    """What is wrong, in a sentence."""


class Command(NamedTuple):
    """A line of a script that is answered."""

    # Its number among all lines of the script, from 1.
    line: int
    # Its bytes, without its ending.
    text: bytes


def commands_of(script):
    """The commands of a script: all lines but the empty ones and the comments, if these are not too long. A return before
    a newline is part of the line's ending. The last line may lack its newline."""
    *ended, last = script.split(b"\n")
    lines = [*(line.removesuffix(b"\r") for line in ended), last]
    return [Command(number, line) for number, line in enumerate(lines, 1) if is_command(line)]


def is_command(line):
    """Whether a line is answered."""
    return len(line) > LONGEST_LINE or (line != b"" and not line.startswith(b"#"))


def is_image(answer):
    """Whether an answer is an image, or the beginning of one."""
    return answer.startswith(IMAGE)


def lines_of_a_row(width):
    """How many lines a row of so many pixels takes."""
    return (width + PIXELS_OF_A_LINE - 1) // PIXELS_OF_A_LINE


def end_of_answer(text, start):
    """The place behind the answer that begins at this place. It is a ValueError where no whole one does."""
    end = text.index(b"\n", start) + 1
    if text[start:end] != IMAGE:
        return end
    sides = SIDES.match(text, end)
    if not sides:
        raise Fault("the image has no width and height")
    width, height = map(int, sides.groups())
    end = sides.end() + height * (width + lines_of_a_row(width))
    if end > len(text):
        raise Fault("the image is not whole")
    return end


def split(text):
    """The answers that a text begins with, and what is left of it behind them: nothing, or what is no whole answer."""
    answers, place = [], 0
    while place < len(text):
        try:
            end = end_of_answer(text, place)
        except ValueError:
            break
        answers.append(text[place:end])
        place = end
    return answers, text[place:]


def answers_of(text):
    """The answers that a text is made of."""
    answers, rest = split(text)
    if rest:
        raise Fault(f"no whole answer begins with {shown(rest)}")
    return answers


def answers_to(commands, text):
    """The answers that a text is made of, one for each of these commands."""
    answers = answers_of(text)
    if len(answers) != len(commands):
        raise Fault(f"commands: {len(commands)}, answers: {len(answers)}")
    return answers


def shown(text):
    """The beginning of a text's first line, between quotes."""
    line = text.split(b"\n")[0]
    more = "..." if len(line) > LONGEST_SHOWN else ""
    return repr(line[:LONGEST_SHOWN])[1:] + more
