"""A script that is recorded: the lines that a desk was asked, in a file, as they come."""

import os

from desk_kit.driven import Fault


class Recording:
    """A file of lines. One that is there already is replaced."""

    def __init__(self, path):
        self.path, self.images = path, 0
        try:
            self.file = open(path, "wb", buffering=0)
        except OSError as error:
            raise Fault(f"{path} cannot be written: {error.strerror}") from None

    def keep(self, line):
        """Writes a line, so that all lines are in the file however this program ends."""
        try:
            self.file.write(line + b"\n")
        except OSError as error:
            raise Fault(f"{self.path} cannot be written: {error.strerror}") from None
        self.images += line.removesuffix(b"\r") == b"image"


def is_same_file(path, other):
    """Whether both are names of one file that is there."""
    return os.path.exists(path) and os.path.exists(other) and os.path.samefile(path, other)
