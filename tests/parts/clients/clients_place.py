"""What the tests of clients stand on: a folder in which commands are called, and faults that are wanted."""

import os
import subprocess
import sys

from desk_kit import Fault
from place import Place, Skipped, same

SECONDS = 300
# The Pythons that may have what a test wants.
PYTHONS = (sys.executable, "/usr/bin/python3")


def faults(what, wanted, call, *words, **named):
    """Wants a Fault of this call, which says this."""
    try:
        found = call(*words, **named)
    except Fault as fault:
        same(what, str(fault), wanted)
        return
    raise Fault(f"{what}: {found!r} in place of a fault")


def python_with(*modules):
    """A Python here that has these modules."""
    for python in PYTHONS:
        words = [python, "-c", f"import {', '.join(modules)}"]
        if os.access(python, os.X_OK) and not subprocess.run(words, capture_output=True, check=False).returncode:
            return python
    raise Skipped(f"no Python here has {', '.join(modules)}", *(f"python3-{it}" for it in modules))


class ClientPlace(Place):
    """A folder in which clients runs a test, over its program."""

    def call(self, *words, **environment):
        """The status of a command in this folder, and what it writes."""
        named = {**os.environ, "PYTHONDONTWRITEBYTECODE": "1", **environment}
        ran = subprocess.run(words, cwd=self.folder, env=named, capture_output=True, timeout=SECONDS, check=False)
        return ran.returncode, ran.stdout.decode("utf-8", "replace"), ran.stderr.decode("utf-8", "replace")

    def succeeds(self, *words, **environment):
        """What a command writes that has to end with status 0."""
        status, out, err = self.call(*words, **environment)
        if status:
            raise Fault(f"{' '.join(words[:3])} ends with status {status}: {out[-2000:]}{err[-2000:]}")
        return out
