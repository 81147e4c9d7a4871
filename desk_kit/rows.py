"""Rows: scripts, each with what has to come of it, in files beside it.

A row NAME is the script NAME.desk with
  NAME.out     the whole standard output
  NAME.hex     in place of it, its bytes as hexadecimal digits; spaces and ends of lines part them as one likes
  NAME.args    the words of the command line, one a line; {} stands for the path of the script, {font} for that of the font
  NAME.font    the bytes of a font's file, as hexadecimal digits like those
  NAME.name    the name by which the program is called, a line; desk where there is no such file
  NAME.status  the exit status; 0 where there is no such file
  NAME.err     the whole standard error. Where there is no such file, standard error is empty where the status
               is 0, and is not where it is another.
The script is standard input. Bytes are compared, and nothing is left out. A program runs in an empty folder.
"""

import os
import stat
import subprocess
from typing import NamedTuple

from desk_kit.answers import LONGEST_SHOWN, Fault
from desk_kit.differences import DifferenceOfBytes, first_difference
from desk_kit.pictures import images, p4_of

SCRIPT = ".desk"
PARTS = (".out", ".hex", ".args", ".font", ".name", ".status", ".err")
# How long a run may take.
SECONDS = 30
# How many bytes stand in a line of hexadecimal digits.
BYTES_OF_A_LINE = 32


class Call(NamedTuple):
    """A call of a program with a row's script."""

    # The words of the command line, bytes each.
    words: list
    # The whole standard output that is due; None where nothing says it.
    out: bytes


class Ran(NamedTuple):
    """What came of a call."""

    status: int
    out: bytes
    err: bytes


class Row:
    """A row, by the path of its files without their endings."""

    def __init__(self, path):
        self.path = path
        self.name = os.path.basename(path)

    def part(self, ending):
        """The bytes of a file of the row, or None where there is no such file. A pipe might never have an end."""
        try:
            if not stat.S_ISREG(os.stat(self.path + ending).st_mode):
                raise Fault(f"{self.name}{ending} is no regular file")
            with open(self.path + ending, "rb") as file:
                return file.read()
        except FileNotFoundError:
            return None

    def digits(self, ending):
        """The bytes that a file of hexadecimal digits says, or None where there is no such file."""
        text = self.part(ending)
        try:
            return None if text is None else bytes.fromhex(text.decode("ascii"))
        except ValueError:
            raise Fault(f"{self.name}{ending} is not made of pairs of hexadecimal digits") from None

    def script(self):
        return self.part(SCRIPT)

    def output(self):
        """The whole standard output that is due, or None where no file says it."""
        text, digits = self.part(".out"), self.digits(".hex")
        if text is not None and digits is not None:
            raise Fault(f"{self.name}.out and {self.name}.hex both say what is due: one of them has to go")
        return text if digits is None else digits

    def status(self):
        """The exit status that is due."""
        text = (self.part(".status") or b"0").strip()
        if not text.isdigit():
            raise Fault(f"{self.name}.status is no number")
        return int(text)

    def font(self, folder):
        """The path of the font's file, which is made in this folder, or None where the row has none."""
        record = self.digits(".font")
        if record is None:
            return None
        path = os.path.join(folder, self.name + ".font")
        with open(path, "wb") as file:
            file.write(record)
        return os.fsencode(path)

    def words(self, folder):
        """The words of the row's own call. Its font's file is made in this folder."""
        args, font = self.part(".args"), self.font(folder)
        if args is None:
            return [] if font is None else [b"--font", font]
        script = os.fsencode(os.path.abspath(self.path + SCRIPT))
        lines = args.removesuffix(b"\n").split(b"\n") if args else []
        return [script if line == b"{}" else line.replace(b"{font}", font or b"{font}") for line in lines]

    def call(self, folder):
        """The row's own call. Its font's file is made in this folder."""
        return Call(self.words(folder), self.output())

    def calls(self, folder):
        """The row's own call, and others that follow from it. A row without .args is called with the path of the script as
        its last word too; where its status is 0, also with --check, and then the line 'check 0' follows, and with --raw,
        and then there are the images alone, each in the format P4."""
        words, out = self.call(folder)
        if self.part(".args") is not None:
            return [Call(words, out)]
        script = os.fsencode(os.path.abspath(self.path + SCRIPT))
        calls = [Call(words, out), Call([*words, script], out)]
        if self.status():
            return calls
        raw = b"".join(map(p4_of, images(out)))
        return [*calls, Call([*words, b"--check"], out + b"check 0\n"), Call([*words, b"--raw"], raw)]

    def run(self, program, words=(), folder=None):
        """What comes of a call of the program at this path, with these words, in this folder."""
        name = (self.part(".name") or b"desk").rstrip(b"\n")
        script, files = self.script(), {"executable": program, "cwd": folder}
        try:
            ran = subprocess.run([name, *words], **files, input=script, capture_output=True, timeout=SECONDS)
        except subprocess.TimeoutExpired:
            raise Fault(f"it had not ended after {SECONDS} seconds") from None
        except ValueError as fault:
            raise Fault(f"it cannot be called so: {fault}") from None
        return Ran(ran.returncode, ran.stdout, ran.stderr)

    def faults(self, ran):
        """What is wrong with the status and standard error of a run, a sentence each."""
        status, err, found = self.status(), self.part(".err"), []
        if ran.status != status:
            found.append(f"{said_of_status(ran.status)} in place of {status}")
        if err is not None and ran.err != err:
            found.append(DifferenceOfBytes("standard error", ran.err, err).said())
        if err is None and bool(ran.err) != bool(status):
            found.append(f"standard error is {ran.err[:LONGEST_SHOWN]!r}")
        return found

    def difference(self, call, ran):
        """Where the standard output of a run differs from that of the call, or None where it does not."""
        if ran.out == call.out:
            return None
        if writes_answers(call.words):
            return first_difference(self.script(), ran.out, call.out)
        return DifferenceOfBytes("standard output", ran.out, call.out)

    def store(self, out):
        """Makes this the whole standard output that is due, and gives the path of the file that says so."""
        ending = ".out" if self.part(".hex") is None else ".hex"
        lines = [out[place : place + BYTES_OF_A_LINE] for place in range(0, len(out), BYTES_OF_A_LINE)]
        digits = "".join(line.hex(" ", -2) + "\n" for line in lines).encode("ascii")
        if out != self.output():
            with open(self.path + ending, "wb") as file:
                file.write(out if ending == ".out" else digits)
        return self.path + ending


def said_of_status(status):
    """How a program ended, by its status, which is below 0 where a signal ended it."""
    return f"the status is {status}" if status >= 0 else f"the status is that of the signal {-status}"


def writes_answers(words):
    """Whether a call with these words writes the answers to its commands."""
    return b"--raw" not in words


def rows_of(folder):
    """The rows of a folder, by their names. Folders in it are not looked into."""
    parts = [os.path.splitext(os.path.join(folder, file)) for file in sorted(os.listdir(folder))]
    return [Row(path) for path, ending in parts if ending == SCRIPT]


def folders_in(folder):
    """The paths of the folders in a folder, by their names: the rows of one subject lie together."""
    return sorted(it.path for it in os.scandir(folder) if it.is_dir())


def strays(folder):
    """The paths of the files of a folder that are part of no row."""
    paths = [os.path.join(folder, file) for file in sorted(os.listdir(folder))]
    found = {row.path for row in rows_of(folder)}
    split = map(os.path.splitext, paths)
    return [path + ending for path, ending in split if path not in found or ending not in (SCRIPT, *PARTS)]
