"""A desk that somebody uses: the loop of events over what a script has made, for desk-view and desk-web."""

import os

from desk_kit.ends import say
from desk_kit.event_loop import EventLoop
from desk_kit.recording import Recording

HINT = "Control is Command here, and Alt is Option"
# The script that is run where none is named.
OWN_SCRIPT = os.path.join(os.path.dirname(os.path.realpath(__file__)), "view.desk")
# How many characters of a line are told.
LONGEST_TOLD = 60


def used(tool, desk, record, script):
    """The loop of events over the desk that the script has made, which is recorded where a file is named for that. The lines
    that are refused are told."""
    loop = EventLoop(desk, recording=Recording(record) if record else None)
    for number, line, answer in loop.run_script(script):
        say(tool, f"line {number} is {answer}: {line[:LONGEST_TOLD]}")
    loop.status = loop.status or HINT
    return loop
