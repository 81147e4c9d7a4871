"""What the programs of tests/ and their parts share: where the tree lies, a folder for a test, and how a test says that
something differs, or that it is left out."""

import os
import shutil

from desk_kit.answers import Fault
from desk_kit.pictures import pixels_of

TESTS = os.path.dirname(os.path.dirname(os.path.realpath(__file__)))
TOP = os.path.dirname(TESTS)
# What is no text of the tree, where a folder of it is copied.
BUILT = shutil.ignore_patterns("__pycache__", "target", "Cargo.lock")


class Differs(Fault):
    """What is not as it has to be."""


class Skipped(Exception):
    """Why a test is left out here, and the packages of Debian that have what it wants, where these are known."""

    def __init__(self, why, *packages):
        super().__init__(why)
        self.packages = packages


def same(what, found, wanted):
    if found != wanted:
        raise Differs(f"{what}: {found!r} in place of {wanted!r}")


def tell_left_out(name, skipped):
    """Says that this is left out, in the form that ./check repeats in its last lines."""
    packages = f"; Debian has it in {' '.join(skipped.packages)}" if skipped.packages else ""
    print(f"left out: {name}: {skipped}{packages}", flush=True)


class Place:
    """A folder for a test, and the program that the test is over. A text is written and read in this encoding."""

    encoding = "utf-8"

    def __init__(self, program, folder):
        self.program = program
        self.folder = os.path.realpath(folder)

    def path(self, name):
        return os.path.join(self.folder, name)

    def write(self, name, text, mode=0o644):
        """Writes a file, and gives its path."""
        os.makedirs(os.path.dirname(self.path(name)), exist_ok=True)
        with open(self.path(name), "w", encoding=self.encoding, newline="") as file:
            file.write(text)
        os.chmod(self.path(name), mode)
        return self.path(name)

    def shell(self, name, text):
        """The path of a program, in place of the desk's, that is a shell which runs this."""
        return self.write(name, f"#!/bin/sh\n{text}\n", 0o755)

    def read(self, name):
        with open(self.path(name), encoding=self.encoding, newline="") as file:
            return file.read()

    def picture(self, name):
        """The rows of a PNG."""
        with open(self.path(name), "rb") as file:
            return pixels_of(file.read())

    def files(self, name=""):
        return sorted(os.listdir(self.path(name)))

    def copy(self, *names):
        """Copies these files and folders of the tree into a folder 'tree', and gives its path."""
        for name in names:
            source, target = os.path.join(TOP, name), self.path(f"tree/{name}")
            os.makedirs(os.path.dirname(target), exist_ok=True)
            if os.path.isdir(source):
                shutil.copytree(source, target, ignore=BUILT)
            else:
                shutil.copy(source, target)
        return self.path("tree")
