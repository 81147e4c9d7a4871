"""A desk that is driven over two pipes: a line goes in, and its whole answer comes back.

Nothing beyond Python's own library is needed.
"""

import os
import select
import subprocess
import tempfile
import time

from desk_kit.answers import Fault, is_command, lines_of_a_row

# How long an answer may take, and how long a program that is told to end may go on.
SECONDS = 10.0
LAST_SECONDS = 2.0
# How each line begins that has no answer: an empty one, a comment, and an ending.
UNANSWERED = (b"", b"#", b"\r")

def is_answered(line):
    """Whether a line, without its newline, has an answer: an empty one and a comment have none."""
    return is_command(line.removesuffix(b"\r"))


def sides_of(line):
    """The columns and rows that the second line of an image names."""
    sides = line.split()
    if len(sides) != 2 or not all(side.isdigit() for side in sides):
        raise Fault(f"an image has no width and height, but {line[:40]!r}")
    return int(sides[0]), int(sides[1])


def rows_of(answer):
    """The rows of an answer that is an image, each the bytes 0 and 1 of its pixels."""
    head, *lines = answer.split(b"\n")
    if head != b"P1" or not lines:
        raise Fault(f"in place of an image there is the answer {answer[:40]!r}")
    width, height = sides_of(lines[0])
    pixels = b"".join(lines[1:])
    if len(pixels) != width * height or pixels.strip(b"01"):
        raise Fault("an image is not whole")
    return [pixels[start : start + width] for start in range(0, width * height, width)]


def poller_of(pipe, event):
    """What waits for this event of a pipe."""
    poller = select.poll()
    poller.register(pipe, event)
    return poller


class Driven:
    """A program, with a pipe to its standard input and one from its standard output, for as long as a block goes on. A Fault
    says that it cannot be started, has ended, is silent, or gives what is no answer."""

    def __init__(self, words, seconds=SECONDS):
        self.words, self.seconds = words, seconds
        self.found = bytearray()
        # A pipe that nobody reads might become full, and hold the program up: so its errors go to a file.
        self.errors = tempfile.TemporaryFile()
        pipe = subprocess.PIPE
        try:
            self.ran = subprocess.Popen(words, bufsize=0, stdin=pipe, stdout=pipe, stderr=self.errors)
        except OSError as error:
            self.errors.close()
            raise Fault(f"{words[0]} cannot be started: {error.strerror}") from None
        self.input, self.output = self.ran.stdin.fileno(), self.ran.stdout.fileno()
        # A write takes what fits into the pipe at once. The program's own end of it blocks as ever.
        os.set_blocking(self.input, False)
        self.writable = poller_of(self.input, select.POLLOUT)
        self.readable = poller_of(self.output, select.POLLIN)

    def __enter__(self):
        return self

    def __exit__(self, *_):
        self.close()

    def close(self):
        """Lets the program end, by the end of its script, and stops it where it does not."""
        self.ran.stdin.close()
        self.ran.stdout.close()
        try:
            self.ran.wait(LAST_SECONDS)
        except subprocess.TimeoutExpired:
            self.ran.kill()
            self.ran.wait()
        self.errors.close()

    def ask(self, line):
        """The answer to a line, bytes without a newline in it, and without that of the answer's last line. A line that
        is not answered gives none."""
        if b"\n" in line:
            raise ValueError("more than one line")
        end = time.monotonic() + self.seconds
        self.write(line + b"\n", end)
        if line[:1] in UNANSWERED and not is_answered(line):
            return b""
        answer = self.line(end)
        return self.image(answer, end) if answer == b"P1" else answer

    def image(self, head, end):
        """The whole image whose first line is this."""
        sides = self.line(end)
        width, height = sides_of(sides)
        lines = height * lines_of_a_row(width)
        return b"\n".join([head, sides, self.take(width * height + lines, end)[:-1]])

    def write(self, text, end):
        """Writes a text, in as many parts as the pipe takes."""
        while text:
            try:
                text = text[os.write(self.input, text) :]
            except BlockingIOError:
                self.wait(self.writable, end)
            except BrokenPipeError:
                raise self.ended() from None

    def line(self, end):
        """The next line of standard output, without its newline."""
        if not self.found:
            more = self.more(end)
            # Mostly it is the whole answer.
            if more.find(b"\n") == len(more) - 1:
                return more[:-1]
            self.found += more
        while (length := self.found.find(b"\n")) < 0:
            self.found += self.more(end)
        return self.take(length + 1, end)[:-1]

    def take(self, count, end):
        """The next so many bytes of standard output."""
        while len(self.found) < count:
            self.found += self.more(end)
        part = bytes(self.found[:count])
        del self.found[:count]
        return part

    def more(self, end):
        """Waits for more bytes of standard output, and gives them."""
        self.wait(self.readable, end)
        more = os.read(self.output, 65536)
        if not more:
            raise self.ended()
        return more

    def wait(self, poller, end):
        """Waits until a pipe is ready, but not past the end, however often it was."""
        left = end - time.monotonic()
        if left <= 0 or not poller.poll(1000 * left):
            raise Fault(f"{self.words[0]} does not answer within {self.seconds:g} seconds")

    def ended(self):
        """The fault of a program that has ended, with what it wrote on standard error."""
        try:
            status = self.ran.wait(LAST_SECONDS)
        except subprocess.TimeoutExpired:
            return Fault(f"{self.words[0]} has closed its standard output")
        self.errors.seek(0)
        said = self.errors.read().decode("utf-8", "replace").strip()
        return Fault(f"{self.words[0]} has ended, with status {status}{': ' if said else ''}{said}")
