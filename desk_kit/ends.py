"""How the tools end. What goes wrong outside of a tool is one sentence on standard error and a status, and no traceback.

  1              a file or the program is at fault, or standard output cannot be written
  2              words of the command line are wrong
  3              there is no program
  129, 130, 143  the terminal has gone, the keyboard interrupted the tool, or the tool was told to end: SIGHUP, SIGINT, SIGTERM
"""

import os
import signal
import sys
from contextlib import contextmanager, suppress

from desk_kit.answers import Fault

AT_FAULT, WRONG_WORDS, NO_PROGRAM = 1, 2, 3
# What is said of each signal that ends a tool. The status is 128 more than its number.
SIGNALS = {
    signal.SIGHUP: "the terminal has gone.",
    signal.SIGINT: "the keyboard interrupted it.",
    signal.SIGTERM: "it was told to end.",
}
STREAMS = ("stdin", "stdout", "stderr")


class Told(SystemExit):
    """A tool was told to end, by the signal with this number less 128."""


def say(tool, what):
    """Says a sentence on standard error. Where that cannot be written the status has to say all."""
    try:
        print(f"{tool}: {what}", file=sys.stderr, flush=True)
    except OSError:
        turn_away(sys.stderr.fileno(), os.O_WRONLY)


def give_up(tool, status, why):
    """Ends with this sentence."""
    say(tool, why)
    sys.exit(status)


@contextmanager
def naming(path):
    """For a block that reads or writes a file: a fault of the system has the name of that file, as only one at opening has
    by itself."""
    try:
        yield
    except OSError as fault:
        raise OSError(fault.errno, fault.strerror, path) from None


def write_file(path, data):
    """Writes these bytes to a file."""
    with naming(path), open(path, "wb") as file:
        file.write(data)


def turn_away(number, mode):
    """Puts the null device at the number of a standard stream, so that no other file gets this number, and what is left to
    write at the end goes nowhere."""
    null = os.open(os.devnull, mode)
    if null != number:
        os.dup2(null, number)
        os.close(null)


def open_closed_streams():
    """Opens the standard streams that were closed when the tool began. There is nothing on standard input then, standard
    output cannot be written, and standard error goes nowhere."""
    for number, (name, mode) in enumerate(zip(STREAMS, (os.O_RDONLY, os.O_RDONLY, os.O_WRONLY))):
        if getattr(sys, name) is None:
            turn_away(number, mode)
            setattr(sys, name, open(number, "w" if number else "r", closefd=False))


def tell_end(number, _):
    """Ends the tool as its blocks are left. The same signal once more ends it at once."""
    signal.signal(number, signal.SIG_DFL)
    raise Told(128 + number)


def take_signals():
    """Has each signal that ends a tool do so by way of tell_end, but for one that is ignored, as by nohup."""
    for number in SIGNALS:
        if signal.getsignal(number) != signal.SIG_IGN:
            signal.signal(number, tell_end)


def end_of(fault):
    """The status and the sentence for what has gone wrong."""
    if isinstance(fault, Told):
        return fault.code, SIGNALS[fault.code - 128]
    if isinstance(fault, BrokenPipeError):
        return AT_FAULT, "whoever read standard output has gone."
    if isinstance(fault, Fault):
        return AT_FAULT, str(fault)
    if fault.filename is None:
        return AT_FAULT, f"standard output cannot be written: {fault.strerror}."
    return AT_FAULT, f"{os.fsdecode(fault.filename)}: {fault.strerror}."


def run(tool, main):
    """Calls main, and ends the tool."""
    open_closed_streams()
    take_signals()
    try:
        try:
            # (also where PYTHONUNBUFFERED is set a line goes out in one write, and is not mixed with lines of others)
            sys.stdout.reconfigure(errors="backslashreplace", write_through=False)
            main()
        finally:
            sys.stdout.flush()
    except (Told, Fault, OSError) as fault:
        status, why = end_of(fault)
        with suppress(OSError):
            turn_away(sys.stdout.fileno(), os.O_WRONLY)
        give_up(tool, status, why)
