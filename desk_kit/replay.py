"""A script that is shown line by line: by itself, with a pause, or by steps."""

import time

from desk_kit.driven import is_answered
from desk_kit.shown_desk import ShownDesk, lines_of

# The seconds from a line to the next one.
PACE = 0.25

# The codes of the keys that pause and go on, and of those that run one line: Return, and the arrows right and down.
PAUSES, STEPS = (32,), (13, 29, 31)

# How much of a line is shown.
LONGEST = 60

# How a line begins that says the version of its script: it makes no desk.
VERSION = "version "


def shortened(text):
    return text if len(text) <= LONGEST else text[: LONGEST - 3] + "..."


class Replay(ShownDesk):
    """The lines of a script, of which those that are answered are run one by one. The sentence says which one was the last."""

    def __init__(self, desk, script, clock=time.monotonic):
        super().__init__(desk, clock)
        self.lines, self.done, self.is_paused = lines_of(script), 0, False
        self.last = "no command", ""
        self.tell_place()
        self.begin()
        self.due = clock() + PACE

    def begin(self):
        """Runs the lines up to the first one that is done, a version aside. Until then there may be no desk, and a look at
        the screen would make one."""
        while not self.has_ended():
            is_done = self.step().startswith(b"ok")
            if is_done and not self.last[0].startswith(VERSION):
                return

    def has_ended(self):
        """Whether no line is left that is answered."""
        return not any(map(is_answered, self.lines[self.done :]))

    def step(self):
        """Runs the lines up to the next one that is answered, and gives its answer; b"" where none is left."""
        answer = b""
        while not self.has_ended() and not answer:
            line = self.lines[self.done]
            answer = self.answer_to(line)
            self.done += 1
            self.last = line.decode("latin-1").removesuffix("\r"), answer.decode("latin-1").split("\n")[0]
        self.tell_place()
        return answer

    def tell_place(self):
        state = " (the end)" if self.has_ended() else " (paused)" if self.is_paused else ""
        line, answer = self.last
        said = "an image" if answer == "P1" else shortened(answer)
        self.status = f"Line {self.done} of {len(self.lines)}{state}: {shortened(line)}{': ' if said else ''}{said}"

    def time_passed(self):
        """Runs the next line, where it is due and nothing is paused."""
        if not self.is_paused and not self.has_ended() and self.clock() >= self.due:
            self.due = self.clock() + PACE
            self.step()

    def key_down(self, code, h, v, modifiers=0):
        """The space bar pauses and goes on; Return and the arrows right and down pause, and run one line."""
        if code in PAUSES:
            self.is_paused = not self.is_paused
            self.tell_place()
        elif code in STEPS:
            self.is_paused = True
            self.step()
