"""A program that growths.c is preloaded into, and the lines that have its growths of memory refused: a part of growths."""

import os
import subprocess
import tempfile

from preloaded import unlike

from desk_kit.answers import LONGEST_SHOWN, Fault

# How long a run may take, with all its copies.
SECONDS = 300
# The last growth that is refused, where all are, and where none is.
ALL = 10**9
NONE = 0
# How many copies one run makes at most, so that it ends in time.
MOST_COPIES = 500


def questions(asked):
    """The lines, of lines that stand with the answers that they want."""
    return [line for line, _ in asked]


def refusal(first, last):
    """The line that has these growths of the line after it refused: a comment to the program, as are those below."""
    return b"#refuse %d %d" % (first, last)


def refusal_on(first, last):
    """The line that has these growths of each line after it refused, up to the next such line."""
    return b"#refuse-on %d %d" % (first, last)


def each(growths, lines):
    """The lines that make a copy of the program for each growth of a range. It is refused to the first of these lines, which
    are for the copies alone, or, where there are none, to the line after them. A copy goes on to the last line of all."""
    return [b"#each %d %d %d" % (growths[0], growths[-1], growths.step), *(b"#| " + line for line in lines)]


class Program:
    """A program that growths.c is preloaded into."""

    def __init__(self, path, library):
        self.path = path
        self.library = library

    def start(self, lines, *words):
        """How the program ends that is called with these words and given these lines; and, of each line after which it or
        a copy read on, how many growths that made and how many of them were refused."""
        with tempfile.TemporaryFile() as script, tempfile.TemporaryFile() as report:
            script.write(b"".join(line + b"\n" for line in lines))
            script.seek(0)
            own = {"LD_PRELOAD": self.library, "GROWTHS_REPORT": str(report.fileno())}
            ran = subprocess.run(
                [self.path, *words],
                stdin=script,
                capture_output=True,
                env={**os.environ, **own},
                pass_fds=(report.fileno(),),
                timeout=SECONDS,
            )
            report.seek(0)
            return ran, [tuple(map(int, line.split())) for line in report]

    def run(self, lines, *words):
        """What the program writes that is called with these words and given these lines; and, of each line that it or a
        copy read, how many growths that made and how many of them were refused."""
        ran, told = self.start(lines, *words)
        if (ran.returncode, ran.stderr) != (0, b""):
            raise Fault(f"it ended with status {ran.returncode} and {ran.stderr[:LONGEST_SHOWN]!r}")
        if len(told) < len(lines):
            raise Fault(f"{len(told)} of {len(lines)} lines were seen: is it linked dynamically to the C library?")
        return ran.stdout, told

    def growths(self, lines):
        """How many growths the last of these lines makes: one at least."""
        _, told = self.run(lines)
        if not told[-1][0]:
            raise Fault(f"no growth of {lines[-1]!r} was seen: does it take its memory from the C library?")
        return told[-1][0]

    def tries(self, lines, parts, *words):
        """Runs these lines, and wants the answers of these parts, one part after the other. Gives how many growths
        were refused."""
        text, told = self.run(lines, *words)
        place = 0
        for what, asked in parts:
            wanted = b"".join(answer for _, answer in asked)
            if not text.startswith(wanted, place):
                raise Fault(f"{what}, {unlike(asked, text[place:])}")
            place += len(wanted)
        if place != len(text):
            raise Fault(f"after the last answer there is {text[place:][:LONGEST_SHOWN]!r}")
        return sum(refusals for _, refusals in told)
