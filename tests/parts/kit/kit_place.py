"""A folder in which kit-tests runs desk-test, and the scripts that it puts there."""

import os
import re
import subprocess

from place import TOP, Place, same

DESK_TEST = os.path.join(TOP, "desk-test")
DOCS = os.path.join(TOP, "docs")

# A desk of 8 by 8 without a menu bar, and in its window a black square of 2 by 2.
SQUARE = """desk 8 8 0
window plain 1 1 6 6 1 0 ""
draw 1 fill 2 2 4 4 patCopy black
image
"""
SQUARE_IMAGE = ["11111111", "10000001", "10000001", "10011001", "10011001", "10000001", "10000001", "11111111"]
# The same without the pixel 3 3 and with three others, and where they differ.
OTHER_IMAGE = ["11111111", "10000001", "10100001", "10001001", "10011101", "10000001", "10010001", "11111111"]
OTHER_DIFFERS = ["00000000", "00000000", "00100000", "00010000", "00000100", "00000000", "00010000", "00000000"]
# Lines that are answered, and lines that are not, with a window at 2 2 that is 4 wide and 3 high.
POINTS = '# A comment\r\n\r\ndesk 9 9 0\r\nwindow plain 2 2 4 3 1 0 ""\n\nfind 5 4\nfind 6 4\nfind 8 8\n'
POINTS_OUT = "ok\nok 1\nok 3 1\nok 0 1\nok 0 0\n"
MISSING = "there/is/no/such.desk\n"


def read(folder, name):
    """The text of a file."""
    with open(os.path.join(folder, name), encoding="latin-1", newline="") as file:
        return file.read()


def blocks(page):
    """The indented blocks of a page of docs/, without their indents. Empty lines may stand in a block."""
    found = re.findall(r"(?m)^    .*\n(?:\n*    .*\n)*", read(DOCS, page))
    return [re.sub(r"(?m)^    ", "", block) for block in found]


def image(rows):
    """The answer that is this image, of 70 columns at most."""
    return f"P1\n{len(rows[0])} {len(rows)}\n" + "".join(row + "\n" for row in rows)


def square_out(rows):
    return "ok\nok 1\nok\n" + image(rows)


def scaled(rows):
    """An image each pixel of which is a square of 3 by 3."""
    return ["".join(bit * 3 for bit in row) for row in rows for _ in range(3)]


class TestPlace(Place):
    """A folder in which desk-test is run."""

    encoding = "latin-1"

    def call(self, *words, program=DESK_TEST):
        """What desk-test writes that is called with these words, its status and what is on standard error."""
        ran = subprocess.run([program, *words], cwd=self.folder, capture_output=True, timeout=60)
        return ran.stdout.decode("latin-1"), ran.returncode, ran.stderr.decode("latin-1")

    def says(self, wanted, *words, program=None):
        """Calls desk-test with this program and these words, and wants these lines. The last one says the status."""
        out, status, error = self.call("--program", program or self.program, *words)
        failed = wanted.split()[-2] != "0"
        same("what is said", (out, status, error), (wanted, int(failed), ""))
