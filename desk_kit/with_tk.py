"""Which Python has Tk: the one that runs this, or the system's own."""

import importlib
import os
import subprocess
import sys

SYSTEM = "/usr/bin/python3"
SECONDS = 20


def has_tk():
    """Whether the Python that runs this has tkinter."""
    try:
        importlib.import_module("tkinter")
    except ImportError:
        return False
    return True


def other_python_with_tk():
    """The path of the system's Python, where that is another one than this and has tkinter, and else None."""
    if not os.path.exists(SYSTEM) or os.path.samefile(SYSTEM, sys.executable):
        return None
    try:
        tried = subprocess.run([SYSTEM, "-c", "import tkinter"], capture_output=True, timeout=SECONDS)
    except subprocess.TimeoutExpired:
        return None
    return SYSTEM if tried.returncode == 0 else None
