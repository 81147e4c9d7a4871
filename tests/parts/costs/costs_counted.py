"""What commands cost, by valgrind: the instructions of a script that ends with them, less those of the script without them, so
that they are the same on every machine. The reading of the lines and the answers are a part of them."""

import os
import re
import subprocess
import sys

COUNTED = ["valgrind", "--tool=callgrind", "--callgrind-out-file=/dev/null"]


def written(lines, folder):
    """A script of these lines, as the path of its file."""
    path = os.path.join(folder, "script")
    with open(path, "w", encoding="ascii") as file:
        file.write("".join(line + "\n" for line in lines))
    return path


def ran(words, lines, folder):
    """What a run over these lines says, whose every answer has to be ok."""
    with open(written(lines, folder), "rb") as script:
        outcome = subprocess.run(words, stdin=script, capture_output=True, check=True, cwd=folder)
    refused = [line for line in outcome.stdout.split(b"\n") if line.startswith(b"refused")]
    if refused:
        sys.exit(f"an answer is {refused[0].decode()}")
    return outcome


def collected(said):
    """The instructions that valgrind tells."""
    return int(re.search(rb"Collected : (\d+)", said)[1])


def instructions(program, lines, folder):
    """How many instructions a script of these lines takes."""
    return collected(ran([*COUNTED, program], lines, folder).stderr)


def cost(program, lines, command, folder):
    """The instructions of a command after these."""
    both = [instructions(program, it, folder) for it in (lines, [*lines, command])]
    return both[1] - both[0]


def in_thousands(count):
    return f"{count / 1000:,.1f}"
