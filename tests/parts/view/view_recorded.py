"""The tests of scripts that are recorded and replayed, without a display. What is recorded, each sentence and each pixel was
worked out by hand."""

import os
import subprocess
import sys
import tempfile

from desk_kit.driven import Driven, Fault
from desk_kit.event_loop import COMMAND, EventLoop
from desk_kit.recording import Recording
from desk_kit.replay import Replay
from place import TOP, Differs, same
from view_tried import Kept

SECONDS = 60

# The windows of view_loop.py: the second one is in front. A question of the script's own stays.
SCRIPT = b"""\
# Two windows\r
desk 200 150 20

window document 10 44 90 60 1 1 "One"
window zoom 60 70 100 60 1 1 "Two"
frontwin
fly
"""
# Two activations wait where a window takes the place of another one, and one where there was none.
BEGINS = b"""\
flush 65535 0
next 65535
next 65535
update 2
next 65535
update 1
"""
CLICKED = b"""\
post 1 0 150 20 60 0
next 65535
select 1
next 65535
next 65535
next 65535
update 1
post 2 0 150 20 60 128
next 65535
image
"""
# The window was where its corner is 10 44. It lies behind the other one as before, so that nothing is to be updated; and what
# is asked for meanwhile is not recorded. With the Command key the drag itself ends nowhere, since its end would select the window.
DRAGGED = b"""\
post 1 0 150 40 34 256
next 65535
drag 1 40 34
dragstep 41 35
dragstep 70 54
post 2 0 150 70 54 384
next 4
dragstep 70 54
dragend -16384 -16384
move 1 40 64 0
image
"""

# A text in which a caret blinks; what is recorded of a time without anything else, up to a key and up to an image.
BLINKING = b"""\
version 3
desk 100 40 0
window plain 10 10 80 20 1 0 ""
text 1 4 4 72 4 4 72 12 0 1
tactive 1 1 1
"""
BLINKED = b"""\
flush 65535 0
next 65535
next 65535
update 1
tidle 1 1 120
post 3 97 150 5 5 128
next 65535
tkey 1 1 97
tview 1 1
tidle 1 1 60
image
"""

SHOWN = b"""\
# A desk
desk 8 8 0

window plain 1 1 6 6 1 0 ""
fly
image
# the end
"""
EMPTY = [b"10101010", b"01010101"] * 4
WINDOW = [b"1" * 8, *[b"10000001"] * 6, b"1" * 8]
MADE = 'Line 4 of 7{}: window plain 1 1 6 6 1 0 "": ok 1'


def read(path):
    with open(path, "rb") as file:
        return file.read()


def what_changes_something_is_recorded(program, folder):
    path, seconds = os.path.join(folder, "it.desk"), [0.0]
    with Driven([program]) as desk:
        loop = EventLoop(desk, lambda: seconds[0], Recording(path))
        loop.run_script(SCRIPT)
        same("the script", read(path), SCRIPT + BEGINS)
        seconds[0] = 2.5
        loop.mouse_down(20, 60)
        loop.mouse_up(20, 60)
        loop.record_image()
        same("what is said", loop.status, "Image 1 is recorded")
        same("a click", read(path), SCRIPT + BEGINS + CLICKED)
        image = desk.ask(b"image")
    ran = subprocess.run([program, "--check", path], capture_output=True, timeout=SECONDS)
    same("the end of its run", ran.stdout[-len(image) - 9 :], image + b"\ncheck 0\n")


def a_drag_is_recorded_with_each_step_of_its_outline(program, folder):
    path = os.path.join(folder, "it.desk")
    with Driven([program]) as desk:
        loop = EventLoop(desk, lambda: 0.0, Recording(path))
        loop.run_script(SCRIPT + b"image\n")
        loop.clock = lambda: 2.5
        loop.mouse_down(40, 34, COMMAND)
        for point in ((41, 35), (70, 54)):
            loop.mouse_moved(*point)
        loop.mouse_up(70, 54, COMMAND)
        loop.record_image()
    same("what is said", loop.status, "Image 2 is recorded")
    same("a drag", read(path), SCRIPT + b"image\n" + BEGINS + DRAGGED)


def of_a_caret_that_blinks_the_last_line_is_recorded(program, folder):
    path, seconds = os.path.join(folder, "it.desk"), [0.0]
    with Kept([program]) as desk:
        loop = EventLoop(desk, lambda: seconds[0], Recording(path))
        loop.run_script(BLINKING)
        for seconds[0] in (0.6, 0.7, 1.2, 2, 2.1):
            loop.time_passed()
        seconds[0] = 2.5
        loop.key_down(97, 5, 5)
        for seconds[0] in (2.6, 3.5):
            loop.time_passed()
        loop.record_image()
        same("what is told", [line for line in desk.asked if line.startswith("tidle")], [
            "tidle 1 1 36", "tidle 1 1 72", "tidle 1 1 120", "tidle 1 1 60",
        ])  # fmt: skip
    same("the script", read(path), BLINKING + BLINKED)


def what_is_refused_is_not_recorded(program, folder):
    path = os.path.join(folder, "it.desk")
    with Driven([program]) as desk:
        loop = EventLoop(desk, lambda: 0.0, Recording(path))
        loop.run_script(SCRIPT + b'control 1 button 16000 0 300 10 1 0 1 0 ""\n')
        loop.mouse_down(40, 34)
        loop.mouse_up(140, 34)
    same("what is said", loop.status, "dragend 140 34 is refused 8 OutOfRange")
    ends = b"post 1 0 0 40 34 0", b"next 65535", b"drag 1 40 34", b"post 2 0 0 140 34 128", b"next 4", b"dragend -16384 -16384"
    same("the end", read(path).splitlines()[-6:], [*ends])


def without_a_recording_there_is_none(program, _):
    with Driven([program]) as desk:
        loop = EventLoop(desk, lambda: 0.0)
        loop.run_script(SCRIPT)
        loop.record_image()
    same("what is said", loop.status, "Nothing is recorded")


def a_recording_that_cannot_be_written_is_a_fault(program, folder):
    for path, opens in (("/dev/full", True), (os.path.join(folder, "none", "it.desk"), False)):
        try:
            recording = Recording(path)
            same("it opens", True, opens)
            recording.keep(b"image")
            raise Differs(f"{path} was written")
        except Fault as fault:
            same("its begin", str(fault).startswith(f"{path} cannot be written: "), True)


def a_script_is_replayed_line_by_line(program, _):
    seconds = [0.0]
    with Kept([program]) as desk:
        replay = Replay(desk, SHOWN, lambda: seconds[0])
        steps = [(replay.status, replay.image())]
        for now in (0.2, 0.25, 0.45, 0.5, 1.0):
            seconds[0] = now
            replay.time_passed()
            steps.append((replay.status, replay.image()))
        begun = ("Line 2 of 7: desk 8 8 0: ok", None)
        made = (MADE.format(""), None)
        wanted = [begun[:1] + (EMPTY,), begun, made[:1] + (WINDOW,), made]
        wanted += [("Line 5 of 7: fly: refused 15 BadSyntax", None), ("Line 6 of 7 (the end): image: an image", None)]
        same("the steps", steps, wanted)


def keys_pause_and_step(program, _):
    seconds = [0.0]
    space, enter, right, other = 32, 13, 29, 120
    said = []
    with Kept([program]) as desk:
        replay = Replay(desk, SHOWN, lambda: seconds[0])
        for key in (space, other, enter, space, right, enter, space):
            replay.key_down(key, 0, 0)
            replay.key_up(key, 0, 0)
            seconds[0] += 0.1
            replay.time_passed()
            said.append(replay.status.partition(": ")[0])
    two, four, five, six = "Line 2 of 7", "Line 4 of 7", "Line 5 of 7", "Line 6 of 7 (the end)"
    paused = " (paused)"
    same("the places", said, [two + paused, two + paused, four + paused, five, six, six, six])


def the_mouse_does_nothing_in_a_replay(program, _):
    with Kept([program]) as desk:
        replay = Replay(desk, SHOWN, lambda: 0.0)
        desk.asked.clear()
        replay.mouse_down(4, 4)
        replay.mouse_moved(5, 5)
        replay.mouse_up(5, 5)
        replay.record_image()
        same("the lines", desk.asked, [])


def a_replay_begins_at_the_first_line_that_is_done(program, _):
    for script, status, sides in (
        (b"fly\ndesk 8 7 0\ndesk 8 9 0\nfrontwin\n", "Line 3 of 4: desk 8 9 0: ok", (8, 9)),
        (b"version 2\ndesk 8 9 0\nfrontwin\n", "Line 2 of 3: desk 8 9 0: ok", (8, 9)),
        (b"version 4\nversion 2\ndesk 8 9 0", "Line 3 of 3 (the end): desk 8 9 0: ok", (8, 9)),
        (b"# nothing\n", "Line 0 of 1 (the end): no command", (512, 342)),
        (b"fly", "Line 1 of 1 (the end): fly: refused 15 BadSyntax", (512, 342)),
        (b"post 1 " + b"0" * 100 + b" 1\ndesk 8 8 0", "Line 2 of 2 (the end): desk 8 8 0: ok", (8, 8)),
    ):
        with Driven([program]) as desk:
            replay = Replay(desk, script, lambda: 0.0)
            same("the begin", (replay.status, replay.sides()), (status, sides))


def long_lines_are_shown_shortened(program, _):
    with Driven([program]) as desk:
        replay = Replay(desk, b"fly " + b"1" * 60 + b"\n", lambda: 0.0)
    same("it says", replay.status, f"Line 1 of 1 (the end): fly {'1' * 53}...: refused 15 BadSyntax")


def words_that_exclude_each_other_are_told(program, folder):
    script = os.path.join(folder, "it.desk")
    with open(script, "wb") as file:
        file.write(SHOWN)
    for words, said in (
        (["--replay", script, script], "--replay goes with no --record and no SCRIPT"),
        (["--replay", script, "--record", f"{script}.new"], "--replay goes with no --record and no SCRIPT"),
        (["--record", f"{folder}/./it.desk", script], "--record would replace SCRIPT"),
    ):
        called = [sys.executable, os.path.join(TOP, "desk-view"), "--program", program, *words]
        ran = subprocess.run(called, capture_output=True, timeout=SECONDS)
        same("the status", ran.returncode, 2)
        usage = "desk-view [--program PROGRAM] [--scale N] [--record FILE] [SCRIPT], or desk-view --replay FILE"
        same("it says", ran.stderr.decode(), f"desk-view: {said}. Call it so: {usage}\n")
    same("the script", read(script), SHOWN)


TESTS = [
    what_changes_something_is_recorded,
    a_drag_is_recorded_with_each_step_of_its_outline,
    of_a_caret_that_blinks_the_last_line_is_recorded,
    what_is_refused_is_not_recorded,
    without_a_recording_there_is_none,
    a_recording_that_cannot_be_written_is_a_fault,
    a_script_is_replayed_line_by_line,
    keys_pause_and_step,
    the_mouse_does_nothing_in_a_replay,
    a_replay_begins_at_the_first_line_that_is_done,
    long_lines_are_shown_shortened,
    words_that_exclude_each_other_are_told,
]


def faults(program):
    """What is wrong, test by test, and nothing for one that passes."""
    for test in TESTS:
        try:
            with tempfile.TemporaryDirectory(prefix="desk-recorded-") as folder:
                test(program, folder)
            yield None
        except (Differs, Fault, subprocess.TimeoutExpired) as fault:
            yield f"{test.__name__.replace('_', ' ')}: {fault}"
