"""A desk that is driven and shown: it is asked line by line, and its screen is given where it has changed."""

import time

from desk_kit.driven import rows_of, sides_of

# The commands that change nothing at all, and those that leave the screen as it is.
QUESTIONS = (
    "find frontwin info updatergn visrgn region cget findc ctest lget lgetsel lnext lsearch image avail"
    " tget tinfo tline tpoint toffset scrap textwidth fontinfo"
).split()
LEAVE_THE_SCREEN = [*QUESTIONS, "post", "next", "flush", "setmask", "tcopy", "setscrap"]


def command_of(line):
    """The first word of a line."""
    return line.split(b" ", 1)[0].decode("latin-1")


def lines_of(script):
    """The lines of a script, without their newlines."""
    return script.removesuffix(b"\n").split(b"\n")


class ShownDesk:
    """What a window or a page shows: a screen, and a sentence on what happened last. The clock gives the seconds that have
    passed. Who shows it tells of the mouse, the keys and the time; here nothing is done with them."""

    def __init__(self, desk, clock=time.monotonic):
        self.desk, self.clock = desk, clock
        self.status, self.shown, self.screen_is_shown = "", b"", False

    def answer_to(self, line):
        """The answer to a line, both as bytes."""
        answer = self.desk.ask(line)
        self.screen_is_shown = self.screen_is_shown and command_of(line) in LEAVE_THE_SCREEN
        return answer

    def image(self):
        """The rows of the screen, where it is another than the one that was given last, and else None."""
        if self.screen_is_shown:
            return None
        answer, before = self.desk.ask(b"image"), self.shown
        self.shown, self.screen_is_shown = answer, True
        return None if answer == before else rows_of(answer)

    def sides(self):
        """The columns and rows of the screen."""
        return sides_of((self.shown or self.desk.ask(b"image")).split(b"\n", 2)[1])

    def mouse_down(self, h, v, modifiers=0):
        """The button went down at a point of the screen."""

    def mouse_moved(self, h, v):
        """The mouse is at a point."""

    def mouse_up(self, h, v, modifiers=0):
        """The button went up."""

    def key_down(self, code, h, v, modifiers=0):
        """A key went down, while the mouse was there. The code is that of its character on a Macintosh."""

    def key_up(self, code, h, v, modifiers=0):
        """A key went up."""

    def time_passed(self):
        """Some time went by, a part of a second."""

    def blinks(self):
        """Whether the screen changes as time goes by, with no button down."""
        return False

    def record_image(self):
        """An image is wanted where something is recorded."""
