"""Runs of programs that a library of C is preloaded into: the parts that growths and ends share."""

import os
import subprocess

from desk_kit.answers import LONGEST_SHOWN
from place import TESTS

ROWS = os.path.join(TESTS, "rows")


def read(path):
    """The bytes of a file, or None where there is no such file."""
    try:
        with open(path, "rb") as file:
            return file.read()
    except FileNotFoundError:
        return None


def unlike(asked, text):
    """Says where a text begins otherwise than with the answers to these lines."""
    place = 0
    for number, (line, answer) in enumerate(asked, 1):
        if not text.startswith(answer, place):
            found = text[place : place + len(answer) + LONGEST_SHOWN]
            begin = os.path.commonprefix([found, answer]).rfind(b"\n") + 1
            shown, due = (it[begin:].split(b"\n")[0][:LONGEST_SHOWN] for it in (found, answer))
            return f"line {number}, {line[:LONGEST_SHOWN]!r}, is answered {shown!r} in place of {due!r}"
        place += len(answer)
    return "nothing is"


def compiled(source, folder):
    """The path of a source of C among the parts as a library to preload, which is made in this folder."""
    library = os.path.join(folder, os.path.basename(source).replace(".c", ".so"))
    # It defines functions that the compiler would else take for the C library's, and make of each other.
    command = ["cc", "-fno-builtin", "-fPIC", "-shared", "-o", library, os.path.join(TESTS, "parts", source)]
    subprocess.run(command, check=True)
    return library


def counted(program, found):
    """Prints what went wrong in each test of a program, where something did, and the count of tests that passed and that
    failed. The status that says so."""
    failed = [fault for fault in found if fault]
    for fault in failed:
        print(f"FAILED: {os.path.basename(program)}: {fault}")
    print(f"{len(found) - len(failed)} passed, {len(failed)} failed")
    return len(failed) > 0
