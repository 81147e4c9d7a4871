"""The tests of the window itself, in an X server of its own (view_server.py): windows, controls and menus, and a script that is
replayed; those of view_typed.py are about texts.
"""

import os
import re
import signal
import subprocess
import tempfile
import time

import view_typed
from desk_kit.driven import Fault, rows_of
from place import Differs
from view_server import HEIGHT, SECONDS, SETTLED, WIDTH, Server, Viewer, eventually, read

TITLE = "tried.desk - desk-view"
REPLAY_TITLE = "replayed.desk - desk-view: Space pauses, and Return runs one line"

SCRIPT = f"""\
desk {WIDTH} {HEIGHT} 20
menu 1 "File"
mappend 1 "New/N;Close/W;-;Quit/Q"
menu 2 "Edit"
mappend 2 "(Undo/Z;-;Cut/X;Copy/C"
minsert 1 0
minsert 2 0
window document 10 44 90 60 1 1 "One"
draw 1 fill 8 8 60 40 patCopy ltGray
window nogrow 60 70 140 70 1 1 "Two"
control 2 check 8 6 60 14 1 0 1 0 "Grid"
control 2 button 8 40 60 18 1 0 1 0 "OK"
control 2 scroll 76 6 16 60 1 0 3 0 ""
"""
# A script that is replayed takes 15 seconds at least, in which there is time to pause it.
REPLAYED = SCRIPT + "frontwin\n" * 60


def the_window_shows_the_screen(viewer):
    viewer.find()
    viewer.wants(("frontwin", "ok 2"), ("updatergn 1", "ok 000A0000000000000000"))


def a_click_in_a_rear_window_brings_it_to_front(viewer):
    viewer.mouse(20, 60, "click", 1)
    viewer.wants(("frontwin", "ok 1"), ("info 1", "ok 10 44 90 60 1 1"))


def a_window_is_dragged_by_its_title(viewer):
    """As long as the outline follows the mouse, the window stays where it is, behind the active one."""
    viewer.mouse(150, 60, "mousedown", 1)
    viewer.mouse(140, 50)
    viewer.wants(("frontwin", "ok 1"), ("info 2", "ok 60 70 140 70 1 0"))
    viewer.mouse(160, 66, "mouseup", 1)
    viewer.wants(("frontwin", "ok 2"), ("info 2", "ok 70 76 140 70 1 1"))


def a_button_is_tracked(viewer):
    viewer.mouse(100, 124, "mousedown", 1)
    viewer.wants(("cget 2 2", "ok 0 0 1 10 1"))
    viewer.mouse(160, 130)
    viewer.wants(("cget 2 2", "ok 0 0 1 0 1"))
    viewer.mouse(102, 126)
    viewer.wants(("cget 2 2", "ok 0 0 1 10 1"))
    viewer.mouse(102, 126, "mouseup", 1)
    viewer.wants(("cget 2 2", "ok 0 0 1 0 1"))


def a_check_box_is_clicked(viewer):
    viewer.mouse(85, 88, "click", 1)
    viewer.wants(("cget 2 1", "ok 1 0 1 0 1"))


def a_box_that_is_held_goes_on_to_the_end(viewer):
    viewer.mouse(154, 134, "mousedown", 1)
    viewer.wants(("cget 2 3", "ok 3 0 3 21 1"))
    viewer.mouse(154, 134, "mouseup", 1)
    viewer.wants(("cget 2 3", "ok 3 0 3 0 1"))


def a_menu_is_pulled_down_and_an_item_chosen(viewer):
    said = viewer.says()
    viewer.mouse(20, 8, "mousedown", 1)
    viewer.wants(("find 20 29", "ok 1 0"))
    # Before the mouse goes on, the desk has to know that it came to the title.
    viewer.mouse(60, 10)
    viewer.wants(("mmove 60 60", "ok 3"))
    viewer.mouse(60, 60)
    viewer.wants(("mup 60 60", "ok 2 3"))
    viewer.mouse(60, 60, "mouseup", 1)
    viewer.wants(("find 60 60", "ok 3 1"), ("avail 65535", "ok 0 0 0 0 0 0"))
    if viewer.says() == said:
        raise Differs("the line below the screen stays as it was")


def keys_are_posted_and_stand_for_items(viewer):
    viewer.server.tool("key", "ctrl+q", "shift+x", "Left")
    posted = [rb"\npost 3 %d \d+ 60 60 %d\n" % key for key in ((113, 384), (88, 640), (28, 128))]
    eventually(lambda: all(re.search(line, viewer.written()) for line in posted), "each of the keys")
    eventually(lambda: b'\nmkey "q"\nmhilite 0\n' in viewer.settled(), "the key in a menu")


def a_window_is_closed_by_its_box(viewer):
    viewer.mouse(83, 66, "mousedown", 1)
    viewer.wants(("find 83 66", "ok 6 2"))
    viewer.mouse(84, 67, "mouseup", 1)
    viewer.wants(("info 2", "refused 2 NoSuchWindow"), ("frontwin", "ok 1"))


def a_key_records_an_image_of_what_is_shown(viewer):
    viewer.server.tool("key", "F5")
    eventually(lambda: read(viewer.recorded).endswith(b"\nimage\n"), "an image in what is recorded")
    ran = subprocess.run([viewer.program, "--check", viewer.recorded], capture_output=True, timeout=SECONDS)
    _, image = ran.stdout.split(b"P1\n")
    rows, _ = viewer.answers()
    if not image.endswith(b"\ncheck 0\n") or rows_of(b"P1\n" + image.removesuffix(b"\ncheck 0\n")) != rows:
        raise Differs("what is recorded runs to another image")


def a_program_that_ends_is_told_and_nothing_more_is_done(viewer):
    with open(viewer.number) as file:
        os.kill(int(file.read()), signal.SIGKILL)
    said = viewer.says()
    viewer.mouse(120, 150, "click", 1)
    eventually(lambda: viewer.says() != said, "another line below the screen")
    said, lines = viewer.says(), viewer.settled()
    viewer.mouse(30, 60, "click", 1)
    viewer.server.tool("key", "ctrl+q")
    if (viewer.settled(), viewer.says(), viewer.ran.poll()) != (lines, said, None):
        raise Differs("something is done, or the viewer has ended")
    with open(viewer.errors) as file:
        errors = file.read()
    if not errors.startswith("desk-view: ") or errors.count("\n") != 1:
        raise Differs(f"standard error is {errors!r}")


def commands_run(viewer):
    """How many lines of the script that is replayed were written until now; the looks at the screen are none of them."""
    return len([line for line in viewer.settled().split(b"\n") if line not in (b"", b"image")])


def a_script_is_replayed_with_pauses_and_steps(viewer):
    """The desk is made before there is a window, so that the window has its size."""
    viewer.find()
    eventually(lambda: viewer.written().count(b"frontwin") > 1, "the screen that the script makes")
    viewer.mouse(100, 100)
    viewer.server.tool("key", "space")
    done, said = commands_run(viewer), viewer.says()
    time.sleep(4 * SETTLED)
    if commands_run(viewer) != done or viewer.says() != said:
        raise Differs("the script goes on in a pause")
    viewer.mouse(20, 60, "click", 1)
    viewer.server.tool("key", "Return")
    eventually(lambda: viewer.says() != said, "another line below the screen")
    if commands_run(viewer) != done + 1:
        raise Differs(f"a step runs {commands_run(viewer) - done} lines")
    viewer.wants(("frontwin", "ok 2"))


def a_signal_ends_the_viewer(viewer):
    """The window is shown and waits, and so does its program, which ends with it."""
    viewer.ran.terminate()
    with open(viewer.errors) as file:
        found = viewer.ran.wait(SECONDS), file.read()
    if found != (143, "desk-view: it was told to end.\n"):
        raise Differs(f"the status and what is said are {found}")
    with open(viewer.number) as file:
        program = int(file.read())
    eventually(lambda: not os.path.exists(f"/proc/{program}"), "the end of the program")


TESTS = [
    the_window_shows_the_screen,
    a_click_in_a_rear_window_brings_it_to_front,
    a_window_is_dragged_by_its_title,
    a_button_is_tracked,
    a_check_box_is_clicked,
    a_box_that_is_held_goes_on_to_the_end,
    a_menu_is_pulled_down_and_an_item_chosen,
    keys_are_posted_and_stand_for_items,
    a_window_is_closed_by_its_box,
    a_key_records_an_image_of_what_is_shown,
    a_program_that_ends_is_told_and_nothing_more_is_done,
]
REPLAY_TESTS = [a_script_is_replayed_with_pauses_and_steps, a_signal_ends_the_viewer]


def tried(viewer, tests):
    """What is wrong, test by test, and nothing for one that passes. Each goes on where the one before it ended, so that after
    one that fails no other is tried."""
    for test in tests:
        try:
            test(viewer)
            yield None
        except (Differs, Fault, subprocess.TimeoutExpired) as fault:
            with open(viewer.errors) as file:
                said = file.read()
            yield f"the window: {test.__name__.replace('_', ' ')}: {fault}; standard error: {said!r}"
            return


def faults(program):
    """What is wrong, and nothing for each test that passes."""
    with tempfile.TemporaryDirectory(prefix="desk-view-") as folder:
        try:
            with Server(folder) as server:
                with Viewer(server, program, folder, "tried.desk", SCRIPT, TITLE) as viewer:
                    yield from tried(viewer, TESTS)
                with Viewer(server, program, folder, "texts.desk", view_typed.SCRIPT, view_typed.TITLE) as viewer:
                    yield from tried(viewer, view_typed.TESTS)
                with Viewer(server, program, folder, "replayed.desk", REPLAYED, REPLAY_TITLE, True) as viewer:
                    yield from tried(viewer, REPLAY_TESTS)
        except Differs as differs:
            yield f"the window: the server does not begin: {differs}"
