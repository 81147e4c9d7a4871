"""A loop of events that is tried: the mouse is told to it, and the desk is asked what came of it. All of it is recorded, and
what is recorded has to run again to the same screen."""

import os
import subprocess
import tempfile

from desk_kit.driven import Driven, Fault
from desk_kit.event_loop import EventLoop
from desk_kit.recording import Recording
from place import Differs

NOTHING_DUE = "ok 000A0000000000000000"
NO_EVENT = "ok 0 0 0 0 0 0"


class Kept(Driven):
    """A driven program, with the lines that it was asked since somebody took them."""

    def __init__(self, words):
        super().__init__(words)
        self.asked = []

    def ask(self, line):
        self.asked.append(line.decode("latin-1"))
        return super().ask(line)


class Tried:
    """A loop of events over a driven program that has run a script, with its first image. Its clock stands still until it is
    set."""

    def __init__(self, desk, script, recording=None):
        self.desk, self.seconds = desk, 0.0
        self.loop = EventLoop(desk, lambda: self.seconds, recording)
        self.refused = self.loop.run_script(script.encode("latin-1"))
        self.first = self.loop.image()
        desk.asked.clear()

    def drag(self, *points, modifiers=0):
        """The button goes down at the first of these points, and up at the last one."""
        self.loop.mouse_down(*points[0], modifiers)
        for point in points[1:]:
            self.loop.mouse_moved(*point)
        self.loop.mouse_up(*points[-1], modifiers)

    def click(self, h, v, modifiers=0):
        self.drag((h, v), modifiers=modifiers)

    def asked(self, *wanted):
        """Wants these lines to be all that the desk was asked since this was wanted last."""
        found, self.desk.asked = self.desk.asked, []
        if found != list(wanted):
            raise Differs(f"the desk was asked {found} in place of {list(wanted)}")

    def wants(self, line, answer):
        found = self.loop.answer_to(line.encode("latin-1")).decode("latin-1")
        self.loop.record(line.encode("latin-1"))
        if found != answer:
            raise Differs(f"{line} is answered by {found!r} in place of {answer!r}")

    def says(self, status):
        if self.loop.status != status:
            raise Differs(f"it says {self.loop.status!r} in place of {status!r}")

    def shows(self, wanted, what):
        """Wants the screen to be as the first image, or not, or to have stayed since it was asked for last."""
        rows = self.loop.image()
        found = {"the same": rows is None, "the first": rows == self.first, "another": rows not in (None, self.first)}
        if not found[wanted]:
            raise Differs(f"the screen is not {wanted}: {what}")

    def runs_again(self, program, recorded):
        """Wants what is recorded to end with the screen that is here."""
        self.loop.record_image()
        ran = subprocess.run([program, "--check", recorded], capture_output=True, timeout=60)
        *_, image = ran.stdout.split(b"P1\n")
        if image != self.desk.ask(b"image").removeprefix(b"P1\n") + b"\ncheck 0\n":
            raise Differs("what is recorded runs to another screen")


def faults(program, tests):
    """What is wrong, test by test, and nothing for one that passes. Each test has its script."""
    for test, script in tests.items():
        try:
            with tempfile.TemporaryDirectory(prefix="desk-tried-") as folder, Kept([program]) as desk:
                recorded = os.path.join(folder, "recorded.desk")
                tried = Tried(desk, script, Recording(recorded))
                test(tried)
                tried.runs_again(program, recorded)
            yield None
        except (Differs, Fault) as fault:
            yield f"{test.__name__.replace('_', ' ')}: {fault}"
