"""An X server of its own that shows nothing, and desk-view in it, with a mouse and keys that xdotool moves. The lines that the
viewer writes to the program are kept on their way, so that a program of the test's own can be given the same, and is asked how
the desk stands then; and the pixels that the server shows are compared with its image. Every wait has an end.
"""

import os
import shlex
import shutil
import struct
import subprocess
import sys
import time

from desk_kit.driven import rows_of
from desk_kit.with_tk import has_tk, other_python_with_tk
from place import TOP, Differs, Skipped

VIEWER = os.path.join(TOP, "desk-view")

# What these tests want, and the packages that have it.
PACKAGES = {"tkinter": "python3-tk", "Xvfb": "xvfb", "xdotool": "xdotool"}

# How long anything may take; how long the lines have to stay as they are to be the last ones; and between two looks.
SECONDS = 30.0
SETTLED = 0.3
PAUSE = 0.05

# The sides of each desk, of whose pixels each is a square of SCALE by SCALE.
SCALE, WIDTH, HEIGHT = 2, 240, 160


def missing():
    """Why these tests are left out, where something is not here that they want, or None."""
    found = [] if has_tk() or other_python_with_tk() else ["tkinter"]
    found += [command for command in PACKAGES if command != "tkinter" and shutil.which(command) is None]
    return Skipped(f"here is no {' and no '.join(found)}", *(PACKAGES[it] for it in found)) if found else None


def eventually(look, what):
    """Looks until that gives something, and gives it."""
    end = time.monotonic() + SECONDS
    while not (found := look()):
        if time.monotonic() > end:
            raise Differs(f"after {SECONDS:g} seconds there is not {what}")
        time.sleep(PAUSE)
    return found


def read(path):
    with open(path, "rb") as file:
        return file.read()


class Started:
    """A process that is told to end where its block ends, and stopped where it does not."""

    def __enter__(self):
        return self

    def __exit__(self, *_):
        self.end()

    def end(self):
        self.ran.terminate()
        try:
            self.ran.wait(SECONDS)
        except subprocess.TimeoutExpired:
            self.ran.kill()
            self.ran.wait()


class Server(Started):
    """An X server that shows its screen in a file alone. It chooses a display that is free."""

    def __init__(self, folder):
        self.path = os.path.join(folder, "Xvfb_screen0")
        reader, writer = os.pipe()
        screen = ["-screen", "0", "800x600x24", "-nolisten", "tcp", "-nocursor", "-fbdir", folder]
        words = ["Xvfb", "-displayfd", str(writer), *screen]
        self.ran = subprocess.Popen(words, pass_fds=[writer], stderr=subprocess.DEVNULL)
        os.close(writer)
        os.set_blocking(reader, False)
        self.said = b""
        try:
            eventually(lambda: self.number(reader), "a display")
        except Differs:
            self.end()
            raise
        finally:
            os.close(reader)
        self.environment = dict(os.environ, DISPLAY=f":{int(self.said)}")

    def number(self, reader):
        """Whether the server has said its whole number by now."""
        try:
            self.said += os.read(reader, 64)
        except BlockingIOError:
            pass
        return self.said.endswith(b"\n")

    def tool(self, *words):
        """What xdotool says."""
        called = ["xdotool", *map(str, words)]
        return subprocess.run(called, env=self.environment, capture_output=True, timeout=SECONDS).stdout.decode()

    def rows(self, left, top, width, height):
        """The pixels of a part of the screen, row by row. The file is of the format XWD, with four bytes for each pixel."""
        with open(self.path, "rb") as file:
            data = file.read()
        head = struct.unpack(">25I", data[:100])
        start, line = head[0] + 12 * head[19] + 4 * left, head[12]
        return [data[start + v * line :][: 4 * width] for v in range(top, top + height)]


def bits(row):
    """The bytes 0 and 1 of a row's white and black pixels; ? for a row that has others."""
    red, green, blue = row[0::4], row[1::4], row[2::4]
    is_plain = red == green == blue and not red.strip(b"\x00\xff")
    return red.translate(bytes.maketrans(b"\x00\xff", b"10")) if is_plain else b"?"


class Viewer(Started):
    """desk-view in a server, over a program that is reached through a file: what is written to it is kept there. The script
    of this name is used and recorded, or replayed."""

    def __init__(self, server, program, folder, name, text, title, is_replayed=False):
        self.server, self.program, self.title = server, program, title
        os.mkdir(os.path.join(folder, title))
        folder = os.path.join(folder, title)
        self.lines, self.number, self.errors = (os.path.join(folder, name) for name in ("lines", "number", "errors"))
        script, way, self.recorded = (os.path.join(folder, it) for it in (name, "program", "recorded.desk"))
        with open(script, "w") as file:
            file.write(text)
        with open(way, "w") as file:
            begins = f"echo $$ > {shlex.quote(self.number)}; exec {shlex.quote(program)}"
            file.write(f"#!/bin/sh\ntee -a {shlex.quote(self.lines)} | sh -c {shlex.quote(begins)}\n")
        os.chmod(way, 0o755)
        last = ["--replay", script] if is_replayed else ["--record", self.recorded, script]
        words = [sys.executable, VIEWER, "--program", way, "--scale", str(SCALE), *last]
        with open(self.errors, "wb") as file:
            self.ran = subprocess.Popen(words, env=server.environment, stderr=file)

    def find(self):
        """Waits for the window, and keeps where the screen is in it: at its top, in the middle."""
        words = "search", "--onlyvisible", "--name", self.title
        number = eventually(lambda: self.server.tool(*words), "a window of this title")
        said = self.server.tool("getwindowgeometry", "--shell", number.split()[0])
        sides = dict(line.split("=") for line in said.split())
        self.left = int(sides["X"]) + (int(sides["WIDTH"]) - SCALE * WIDTH) // 2
        self.top = int(sides["Y"])

    def written(self):
        """What was written to the program until now, in whole lines."""
        try:
            with open(self.lines, "rb") as file:
                return file.read().rpartition(b"\n")[0] + b"\n"
        except FileNotFoundError:
            return b"\n"

    def settled(self):
        """The same, once nothing more comes."""
        before, lines = None, self.written()
        while before != lines:
            time.sleep(SETTLED)
            before, lines = lines, self.written()
        return lines

    def answers(self, *asked):
        """The image of the desk after all that was written, and what it answers to these lines behind that."""
        script = self.settled() + "".join(f"{line}\n" for line in ("image", *asked)).encode("latin-1")
        ran = subprocess.run([self.program], input=script, capture_output=True, timeout=SECONDS)
        lines = ran.stdout.split(b"\n")[:-1]
        start, end = len(lines) - 1 - lines[::-1].index(b"P1"), len(lines) - len(asked)
        return rows_of(b"\n".join(lines[start:end])), [line.decode() for line in lines[end:]]

    def shows(self, rows):
        """Whether the window shows these pixels, each as a square."""
        wide = [b"".join(row[h : h + 1] * SCALE for h in range(len(row))) for row in rows]
        wanted = [row for row in wide for _ in range(SCALE)]
        found = self.server.rows(self.left, self.top, SCALE * WIDTH, SCALE * HEIGHT)
        return [bits(row) for row in found] == wanted

    def says(self):
        """The pixels of the line below the screen, but for those at its right end, where the place of the mouse stands."""
        return self.server.rows(self.left, self.top + SCALE * HEIGHT, SCALE * WIDTH - 100, 20)

    def wants(self, *pairs):
        """Waits until the desk answers so, and the window shows its image."""

        def look():
            rows, answers = self.answers(*(line for line, _ in pairs))
            found[:] = [answers, self.shows(rows)]
            return found == [wanted, True]

        wanted, found = [answer for _, answer in pairs], []
        try:
            eventually(look, "what has to be")
        except Differs as differs:
            raise Differs(f"{differs}: {found} in place of {wanted} and the pixels of the image") from None

    def mouse(self, h, v, *words):
        """Moves the mouse to a point of the desk's screen, and does what xdotool is told further."""
        half = SCALE // 2
        self.server.tool("mousemove", self.left + h * SCALE + half, self.top + v * SCALE + half, *words)
