"""What the tests of terminal stand on: a folder in which the tools are called, and a terminal at which one is."""

import fcntl
import os
import pty
import re
import select
import shutil
import signal
import struct
import subprocess
import termios
import time

from desk_kit.answers import Fault
from place import TOP, Place, Skipped

SECONDS = 60
# A desk of 8 by 8 without a menu bar, a window in it, and in that a black square of 2 by 2: two images.
SQUARE = 'desk 8 8 0\nwindow plain 1 1 6 6 1 0 ""\nimage\ndraw 1 fill 2 2 4 4 patCopy black\nimage\n'
WINDOW_IMAGE = ["11111111", *["10000001"] * 6, "11111111"]
SQUARE_IMAGE = ["11111111", "10000001", "10000001", "10011001", "10011001", "10000001", "10000001", "11111111"]
# Its second image, two pixels above each other in a character.
SQUARE_BLOCKS = ["█▀▀▀▀▀▀█", "█  ▄▄  █", "█  ▀▀  █", "█▄▄▄▄▄▄█"]


def need(program, package=None):
    """Leaves the test out where this machine has no such program, which has the name of its package where no other is named."""
    if shutil.which(program) is None:
        raise Skipped(f"here is no {program}", package or program)


class ToolPlace(Place):
    """A folder in which the tools are called, over this program."""

    def call(self, tool, *words, given="", over=True):
        """The status of a tool that is called with these words, and over the program, with what it writes."""
        program = ["--program", self.program] if over else []
        called = [os.path.join(TOP, tool), *program, *words]
        ran = subprocess.run(called, cwd=self.folder, input=given.encode(), capture_output=True, timeout=SECONDS)
        return ran.returncode, ran.stdout.decode(), ran.stderr.decode()


# What a terminal's environment may say of it, beside what a test says.
TOLD_BY_TERMINALS = ("COLUMNS", "LINES", "INPUTRC", "DESK_IMAGES", "KITTY_WINDOW_ID", "NO_COLOR", "TERM_PROGRAM", "TMUX")


class Terminal:
    """A program at a terminal of this many columns, with more in its environment, for as long as a block goes on."""

    def __init__(self, words, columns=80, **more):
        self.process, self.here = pty.fork()
        if self.process == 0:
            fcntl.ioctl(0, termios.TIOCSWINSZ, struct.pack("HHHH", 24, columns, 0, 0))
            kept = {name: value for name, value in os.environ.items() if name not in TOLD_BY_TERMINALS}
            os.execvpe(words[0], words, {**kept, "TERM": "xterm", "LC_ALL": "C.UTF-8", "INPUTRC": "/dev/null", **more})
        self.ended = None
        self.found = b""

    def __enter__(self):
        return self

    def __exit__(self, *_):
        if self.ended is None:
            os.kill(self.process, signal.SIGKILL)
            os.waitpid(self.process, 0)
        os.close(self.here)

    def type(self, text):
        os.write(self.here, text.encode())

    def until(self, wanted):
        """What is shown up to this text, since what was wanted last."""
        end = time.monotonic() + SECONDS
        while wanted not in (text := shown(self.found)):
            left = end - time.monotonic()
            if left <= 0 or not select.select([self.here], [], [], left)[0]:
                raise Fault(f"at the terminal there is {text!r} and not {wanted!r}")
            try:
                self.found += os.read(self.here, 4096)
            except OSError:
                raise Fault(f"at the terminal there is at last {text!r} and not {wanted!r}") from None
        before, _, after = text.partition(wanted)
        self.found = after.encode()
        return before + wanted

    def status(self):
        """The status with which the program ends, once it does."""
        end = time.monotonic() + SECONDS
        while self.ended is None:
            process, status = os.waitpid(self.process, os.WNOHANG)
            if process:
                self.ended = os.waitstatus_to_exitcode(status)
            elif time.monotonic() > end:
                raise Fault("the program at the terminal does not end")
            else:
                time.sleep(0.02)
        return self.ended


def shown(found):
    """What a terminal shows of these bytes, but for colors, which stay, and cursor moves, which go."""
    text = found.decode("utf-8", "replace").replace("\r", "")
    return re.sub(r"\033\[(?:\?[0-9]+[hl]|[0-9]*[KCDJ])|\a", "", text)
