"""Tests of commands itself: small pages, with and without each of its faults."""

import os
import tempfile

# Small pages, each with what is wrong with it: the line where it is said, and how that begins.
TRIED = [
    ("`./say one` prints\n\n    one\n", []),
    ("`./say one` prints\n\n    two\n", ["page:3: there is 'one' in place of 'two'"]),
    ("`./say one` prints\n\n    on\n", ["page:3: there is 'one' in place of 'on'"]),
    ("What `./say one two` prints begins with\n\n    one\n", []),
    ("What `./say one two` prints begins with\n\n    two\n", ["page:3: there is 'one' in place of 'two'"]),
    ("a\n\n    ./say one\n    ./none two\n", ["page:3: './none two' ends with status 127"]),
    ("a `./none two` b\n", ["page:1: './none two' ends with status 127"]),
    ("Say that `it` is\n\n    one\n    \n    two\n\nand `cat it; ./say` prints\n\n    three\n", []),
    ("Say that `it` is\n\n    one\n    \n    two\n\nand `./say $(cat it)` prints\n\n    one two\n", []),
    ("`./say $(cat Makefile)` prints, by this Makefile:\n\n    one\n\nIt says\n\n    one\n", []),
    ("`./fail it` says\n\n    FAILED: it\n    0 passed, 1 failed\n", []),
    ("`./fail it` says\n\n    FAILED: it\n", []),
    ("`./fail it` is run.\n", ["page:1: './fail it' ends with status 1: FAILED: it"]),
    ("`./say SCRIPT`, `./say [--it]`, `./say` and `tests/none` are no commands.\n", []),
    ("As\n\n    one: two\n", ["page:3: the block that begins with 'one: two' is no command, no file and no output"]),
    ("`./desk --prove` takes an hour.\n", []),
    ("    from desk_kit_of_none import it\n", ["page:1: the code ends with status 1"]),
    ("prints\n\n    from desk_kit import it\n    print(it)\n\nprints\n\n    5\n", []),
    ("prints\n\n    from desk_kit import it\n    print(it)\n\nprints\n\n    6\n", ["page:8: there is '5' in place of '6'"]),
]
COUNT = len(TRIED)
TOOLS = {"say": '#!/bin/sh\necho "$*"\n', "fail": '#!/bin/sh\necho "FAILED: $*"\necho "0 passed, 1 failed"\nexit 1\n'}


def faults(page):
    """What is wrong with how pages are tried, by this class."""
    found = []
    for text, wanted in TRIED:
        with tempfile.TemporaryDirectory(prefix="commands-") as room:
            for name, script in TOOLS.items():
                with open(os.path.join(room, name), "w", encoding="utf-8") as file:
                    file.write(script)
                os.chmod(os.path.join(room, name), 0o755)
            with open(os.path.join(room, "desk_kit.py"), "w", encoding="utf-8") as file:
                file.write("it = 5\n")
            said = page("page", room).faults(text)[1]
        if len(said) != len(wanted) or not all(it.startswith(due) for it, due in zip(said, wanted)):
            found.append(f"{text!r}: {said} in place of {wanted}")
    return found
