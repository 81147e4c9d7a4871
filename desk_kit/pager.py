"""The pager of a terminal, for a text that is longer than its screen."""

import os
import shutil
import signal
import subprocess

# The pagers of a terminal for which PAGER names none, the best one first.
USUAL = ("less -R", "more")
# The status with which a shell says that a command cannot be run.
NOT_RUN = (126, 127)


def pager():
    """The command of the pager: that of PAGER, or of the first usual one that is there; nothing where there is none."""
    named = os.environ.get("PAGER")
    if named is not None:
        return named.strip()
    return next((it for it in USUAL if shutil.which(it.split(" ")[0])), "")


def print_by_pages(lines):
    """Prints lines at a terminal, by its pager where they are more than its screen shows above the next prompt."""
    columns, rows = shutil.get_terminal_size()
    shown = sum(max(1, -(-len(line) // columns)) for line in lines)
    if shown < rows or not was_paged(lines):
        print(*lines, sep="\n")


def was_paged(lines):
    """Whether a pager has shown these lines. It heeds an interrupt of the keyboard, also where this process does not."""
    command = pager()
    text = "".join(line + "\n" for line in lines).encode("utf-8", "replace")
    heeds = {"preexec_fn": lambda: signal.signal(signal.SIGINT, signal.SIG_DFL)}
    return bool(command) and subprocess.run(command, shell=True, input=text, **heeds).returncode not in NOT_RUN
