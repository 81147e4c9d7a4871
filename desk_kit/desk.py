"""A desk for programs in Python: a line goes in, and its answer comes back as a text; the screen comes as rows or as a PNG.
docs/PYTHON.md shows how it is used."""

import os
import re
import shutil

from desk_kit.answers import Fault
from desk_kit.driven import SECONDS, Driven
from desk_kit.forms import OF_FORM, forms_if_any
from desk_kit.pictures import image_of, png_of
from desk_kit.which import program_of

# The script that names the program of a tree, where this file lies in one.
DESK = os.path.join(os.path.dirname(os.path.dirname(os.path.realpath(__file__))), "desk")
REFUSED = re.compile(r"refused ([0-9]+) ([A-Za-z]+)")


class Refused(Exception):
    """A line was refused, for the reason of this number and name. The desk is as it was before."""

    def __init__(self, line, number, name):
        super().__init__(line, number, name)
        self.line, self.number, self.name = line, number, name

    @property
    def form(self):
        """The form that the manual has for a line that is refused for its form, its names or its length, or the nearest one;
        None for other refusals, where none is near, and where there is no manual."""
        its = forms_if_any() if self.name in OF_FORM else None
        return its.reading(self.line).form if its else None

    def __str__(self):
        form = self.form
        return f"{self.line!r} is refused: {self.number} {self.name}{f'. The form is: {form}' if form else ''}"


def program_to_drive(name, script=DESK):
    """The path of the program of this name, and None; or, where none is named, of the one that the tree's ./desk runs, and
    whether that is proved. Where there is no tree it is the desk on the PATH."""
    if name is None and os.path.isfile(script) and os.access(script, os.X_OK):
        found = program_of(script)
        if found is None:
            raise Fault(f"{script} has no program to run, and standard error has the reason")
        return found
    path = shutil.which("desk" if name is None else name)
    if path is None:
        raise Fault("there is no program desk on the PATH" if name is None else f"there is no program {name} that can be run")
    return path, None


class Desk:
    """A desk, for as long as a block goes on.

    program   the path of the program; without it, program_to_drive says which one
    font      the path of a FONT record, the font of all texts; without it, the built-in one
    seconds   how long an answer may take
    raises    whether each refusal is an exception
    """

    def __init__(self, program=None, font=None, seconds=SECONDS, raises=False):
        self.program, self.is_proved = program_to_drive(program)
        words = [] if font is None else [f"--font={os.fspath(font)}"]
        self.driven = Driven([os.fspath(self.program), *words], seconds)
        self.raises, self.is_whole = raises, True

    def __enter__(self):
        return self

    def __exit__(self, *_):
        self.close()

    def close(self):
        """Ends the desk. Nothing can be asked of it any more."""
        self.is_whole = False
        self.driven.close()

    def ask(self, line, raises=None):
        """The answer to a line, without the newline at its end: 'ok', 'ok 3 1', 'refused 2 NoSuchWindow' or an image. A
        refusal is the exception Refused where raises says so, here or, where nothing is said here, of the desk. An empty
        line and a comment have no answer, and give ''."""
        if "\n" in line:
            raise ValueError(f"more than one line: {line!r}")
        if not self.is_whole:
            raise Fault("the desk is closed, or did not answer an earlier line to its end")
        # An interrupt in the midst of it would leave the rest of an answer behind, for another line.
        self.is_whole = False
        answer = self.driven.ask(line.encode()).decode("latin-1")
        self.is_whole = True
        if answer.startswith("refused ") and (self.raises if raises is None else raises):
            refused = REFUSED.fullmatch(answer)
            if refused is None:
                raise Fault(f"there is the answer {answer[:40]!r}, which is none of a desk")
            raise Refused(line, int(refused[1]), refused[2])
        return answer

    def image(self):
        """The screen, as its rows from the top: texts of 0 for white and 1 for black."""
        answer = self.ask("image", raises=True)
        if not answer.startswith("P1\n"):
            raise Fault(f"in place of an image there is the answer {answer[:40]!r}")
        return image_of(answer.encode("latin-1") + b"\n")

    def png(self, scale=1):
        """The screen, as the bytes of a PNG file. Each pixel becomes a square of scale by scale pixels."""
        return png_of(self.image(), scale)
