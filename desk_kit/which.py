"""Which program ./desk runs."""

import os
import subprocess

PROVED = {b"proved": True, b"unproved": False}


def program_of(desk):
    """The path of the program that this script ./desk runs, and whether it is proved; or nothing where there is none. It is
    built first where that is due: what is said of that, and why there is none, is on standard error."""
    ran = subprocess.run([desk, "--which"], stdin=subprocess.DEVNULL, stdout=subprocess.PIPE)
    word, _, path = ran.stdout.removesuffix(b"\n").partition(b" ")
    if ran.returncode or word not in PROVED:
        return None
    return os.fsdecode(path), PROVED[word]
