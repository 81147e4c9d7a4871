"""Tests of screens: rows that are run once each, and what is wrong with what came of them.

A test is an object with a method find, from a row and an empty folder to what is found. It stands alone, so that several
processes may use it at once.
"""

import os
import re
import tempfile
import time
from contextlib import suppress
from typing import NamedTuple

from desk_kit.answers import Fault, answers_to, commands_of
from desk_kit.forms import Forms
from desk_kit.lint import byte_order_mark, refusals
from desk_kit.pictures import png_of
from desk_kit.rows import SCRIPT, said_of_status, writes_answers

DIFFERENCES = "differences"
SCALE = 3
# A picture of a difference, by the name that is written: of which row, and of what.
PICTURE = re.compile(r"(.+)\.(?:line-[0-9]+|end)\.(found|due|differ)\.png")
# How often files are written into a folder that another desk-test removes at that moment, because it was empty.
TRIES = 20


class Picture(NamedTuple):
    """An image of a difference, as a PNG with a square of one pixel for each pixel."""

    # Found, due or differ.
    word: str
    width: int
    height: int
    png: bytes


class Found(NamedTuple):
    """What a test finds."""

    # Sentences on what is wrong; none where the row passes.
    faults: tuple = ()
    # Lines that are printed besides.
    lines: tuple = ()
    # The images of the first difference, where somebody wants them.
    pictures: tuple = ()


class Outcome(NamedTuple):
    """What came of a row, or of a file that belongs to none."""

    path: str
    found: Found
    seconds: float = 0.0

    def fails(self):
        return bool(self.found.faults)

    def sentence(self):
        """All that is wrong."""
        return "; ".join(self.found.faults)


def outcome(test, row):
    """Tests a row, in a folder of its own."""
    begun = time.monotonic()
    try:
        with tempfile.TemporaryDirectory(prefix="desk-test-") as room:
            found = test.find(row, room)
    except (Fault, OSError) as fault:
        found = Found((str(fault),))
    return Outcome(row.path + SCRIPT, found, time.monotonic() - begun)


def empty_folder(room):
    """An empty folder in the folder of a test."""
    path = os.path.join(room, "empty")
    os.mkdir(path)
    return path


def ran_in(room, row, program):
    """The row's own call of the program, and what came of it."""
    call = row.call(room)
    return call, row.run(program, call.words, empty_folder(room))


class Comparison(NamedTuple):
    """Compares the answers with those that are stored, and draws the images that differ."""

    program: str
    # The folder for pictures, or None for one beside each script.
    differences: str
    # Whether what is found has the images too.
    has_pictures: bool

    def find(self, row, room):
        return self.compared(row, room)._replace(lines=marked(row))

    def compared(self, row, room):
        """What is found, without a warning."""
        call, ran = ran_in(room, row, self.program)
        if call.out is None:
            return Found((f"there is no stored output {row.name}.out; --accept makes one", *row.faults(ran)))
        difference = row.difference(call, ran)
        if difference is None:
            return Found(tuple(row.faults(ran)))
        images = difference.pictures()
        said = said_with_pictures(row, difference.said(), images, folder_of(row, self.differences))
        pictures = (picture(name, rows) for name, rows in images.items() if self.has_pictures)
        return Found((said, *row.faults(ran)), (), tuple(pictures))


class Acceptance(NamedTuple):
    """Stores the answers as those that are due, and warns of lines that are refused for their form."""

    program: str
    # The forms of refused lines, or None where there is no manual.
    forms: Forms

    def find(self, row, room):
        call, ran = ran_in(room, row, self.program)
        faults = row.faults(ran) or unanswered(row, ran)
        if faults:
            return Found((*faults, "nothing is stored"))
        return Found((), (stored(row, call, ran), *self.warnings(row, call, ran)))

    def warnings(self, row, call, ran):
        """A line for each line of the script that is refused for its form, its names or its length."""
        if not writes_answers(call.words):
            return marked(row)
        found = [it.sentence for it in refusals(row.script(), ran.out, self.forms) if it.is_of_form]
        return [warning(row, it) for it in found] or marked(row)


def stored(row, call, ran):
    """Stores what came of a row's call, and says whether that is new, changed or the same."""
    path = row.store(ran.out)
    if call.out is None:
        return f"new: {path}"
    difference = row.difference(call, ran)
    return f"changed: {path}: {difference.said()}" if difference else f"the same: {path}"


def warning(row, sentence):
    """A line that warns of something in a row's script, whether the row passes or not."""
    return f"warning: {row.path}{SCRIPT}: {sentence}"


def marked(row):
    """The warning of a script that begins with a byte order mark, or nothing."""
    return tuple(warning(row, it) for it in [byte_order_mark(row.script())] if it)


class Lint(NamedTuple):
    """Tells the lines that are refused for their form, their names or their length. It compares nothing."""

    program: str
    forms: Forms

    def find(self, row, room):
        ran, script = row.run(self.program, (), empty_folder(room)), row.script()
        if ran.status:
            return Found((f"{said_of_status(ran.status)} in place of 0",))
        answers_to(commands_of(script), ran.out)
        return Found(tuple(it.sentence for it in refusals(script, ran.out, self.forms) if it.is_of_form))


def picture(name, rows):
    """An image of a difference, by its name among those of the difference."""
    return Picture(name.rpartition(".")[2], len(rows[0]), len(rows), png_of(rows, 1))


def unanswered(row, ran):
    """What is wrong where a run that came to its end did not answer command by command. It is not known of a row with words
    of its own."""
    try:
        if row.part(".args") is None and ran.status == 0:
            answers_to(commands_of(row.script()), ran.out)
    except Fault as fault:
        return [str(fault)]
    return []


def said_with_pictures(row, said, images, folder):
    """The sentence on a difference with the names of its pictures, which are written."""
    files = [(f"{row.name}.{name}.png", png_of(rows, SCALE)) for name, rows in images.items()]
    if not files:
        return said
    try:
        write(folder, files)
    except OSError as fault:
        return f"{said}. Pictures of it cannot be written: {fault}"
    return f"{said}. See {' and '.join(name for name, _ in files)} in {folder}"


def folder_of(row, differences):
    """Where the pictures of a row go."""
    beside = os.path.dirname(row.path)
    if differences is None:
        return os.path.join(beside, DIFFERENCES)
    parts = os.path.relpath(beside or os.curdir).split(os.sep)
    return os.path.join(differences, *(it for it in parts if it not in (os.curdir, os.pardir)))


def write(folder, files):
    """Writes files, each a name with its bytes, into a folder, which is made where it is not there."""
    for left in reversed(range(TRIES)):
        try:
            os.makedirs(folder, exist_ok=True)
            for name, text in files:
                with open(os.path.join(folder, name), "wb") as file:
                    file.write(text)
            return
        except FileNotFoundError:
            if not left:
                raise


def remove_pictures(rows, differences):
    """Removes what earlier runs have written of these rows. A folder that is empty then is removed too where it has its
    place beside the scripts."""
    names = {}
    for row in rows:
        names.setdefault(folder_of(row, differences), set()).add(row.name)
    for folder, its in names.items():
        for name in os.listdir(folder) if os.path.isdir(folder) else ():
            found = PICTURE.fullmatch(name)
            if found and found[1] in its:
                with suppress(FileNotFoundError):
                    os.remove(os.path.join(folder, name))
        if differences is None:
            with suppress(OSError):
                os.rmdir(folder)
