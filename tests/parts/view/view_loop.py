"""The tests of the loop of events without a display: windows, and the events themselves. Each answer was worked out by hand,
from the sizes and places of the script. A point is a column and a row of the screen."""

from desk_kit.event_loop import COMMAND, SHIFT
from place import Differs
from view_tried import NOTHING_DUE, NO_EVENT

# The first window has the columns 9 to 100 and the rows 25 to 104 of the screen with its frame, and the second one, in front
# of it, the columns 59 to 160 and the rows 51 to 130.
TWO_WINDOWS = """\
desk 200 150 20
window document 10 44 90 60 1 1 "One"
window zoom 60 70 100 60 1 1 "Two"
"""
# A third one floats in front of the first.
A_FLOATING_WINDOW = f"version 2\n{TWO_WINDOWS}float plain 30 60 20 20 1 0 \"\"\n"


def a_click_in_a_rear_window_brings_it_to_front(tried):
    tried.wants("frontwin", "ok 2")
    tried.click(20, 60)
    tried.wants("frontwin", "ok 1")
    tried.wants("info 1", "ok 10 44 90 60 1 1")
    tried.wants("info 2", "ok 60 70 100 60 1 0")
    tried.wants("updatergn 1", NOTHING_DUE)
    tried.wants("avail 65535", NO_EVENT)
    tried.says('Window 1 "One" is selected')
    tried.shows("another", "the window in front")
    tried.click(20, 60)
    tried.shows("the same", "another click in the front window")


def a_floating_window_is_used_where_it_lies(tried):
    tried.wants("frontwin", "ok 2")
    tried.click(35, 65)
    tried.says("Window 3, at 5 5 in it")
    tried.wants("frontwin", "ok 2")
    tried.shows("the same", "a click in a window that floats")
    tried.click(20, 60)
    tried.says('Window 1 "One" is selected')
    tried.wants("find 35 65", "ok 3 3")
    tried.wants("close 3", "ok")
    tried.click(35, 65)
    tried.says('Window 1 "One", at 25 21 in it')


def the_script_s_own_events_are_served_and_flushed(tried):
    tried.wants("frontwin", "ok 2")
    tried.wants("updatergn 1", NOTHING_DUE)
    tried.wants("updatergn 2", NOTHING_DUE)
    tried.wants("avail 65535", NO_EVENT)
    if tried.refused != [(5, "close 9", "refused 2 NoSuchWindow")]:
        raise Differs(f"what was refused is {tried.refused}")


def a_window_is_dragged_by_its_title_and_selected(tried):
    tried.drag((40, 34), (60, 40), (70, 54))
    tried.wants("info 1", "ok 40 64 90 60 1 1")
    tried.wants("frontwin", "ok 1")
    tried.wants("updatergn 2", NOTHING_DUE)
    tried.says('Window 1 "One" was moved to 40 64')


def with_the_command_key_a_dragged_window_stays_behind(tried):
    tried.drag((40, 34), (70, 54), modifiers=COMMAND)
    tried.wants("info 1", "ok 40 64 90 60 1 0")
    tried.wants("frontwin", "ok 2")


def an_outline_follows_a_window_that_is_dragged(tried):
    tried.loop.mouse_down(40, 34)
    tried.shows("another", "the outline is where the window is")
    tried.loop.mouse_moved(40, 10)
    tried.shows("the first", "the mouse is in the menu bar")
    tried.says('Window 1 "One" stays where it is')
    tried.loop.mouse_moved(60, 40)
    tried.shows("another", "the mouse is over the desktop again")
    tried.says('Window 1 "One" goes to 30 50')
    tried.wants("info 1", "ok 10 44 90 60 1 0")
    tried.loop.mouse_up(60, 40)
    tried.wants("info 1", "ok 30 50 90 60 1 1")


def a_drag_is_told_where_the_mouse_is(tried):
    tried.drag((40, 34), (60, 40), (70, 54))
    tried.asked(
        *("post 1 0 0 40 34 0", "next 65535", "find 40 34", "info 1", "drag 1 40 34"),
        *("dragstep 60 40", "dragstep 70 54"),
        *("post 2 0 0 70 54 128", "next 4", "dragend 70 54"),
        # The windows change their highlighting, and the first one shows what the second one covered.
        *("next 65535", "next 65535", "next 65535", "update 1", "next 65535"),
    )


def a_drag_that_ends_in_the_menu_bar_or_off_the_screen_moves_nothing(tried):
    for end in ((40, 10), (40, 150), (-1, 40), (200, 40)):
        tried.drag((40, 34), end)
        tried.wants("info 1", "ok 10 44 90 60 1 0")
    tried.shows("the same", "after drags that were not meant")


def a_click_in_a_title_bar_selects_and_moves_nothing(tried):
    tried.click(40, 34)
    tried.wants("info 1", "ok 10 44 90 60 1 1")
    tried.click(40, 34)
    tried.click(170, 140)
    tried.wants("info 1", "ok 10 44 90 60 1 1")
    tried.says("The desktop")


def a_size_box_gives_another_size(tried):
    tried.click(20, 60)
    tried.click(95, 100)
    tried.wants("info 1", "ok 10 44 90 60 1 1")
    tried.drag((95, 100), (100, 100), (105, 110))
    tried.wants("info 1", "ok 10 44 100 70 1 1")
    tried.drag((100, 105), (10, 44))
    tried.wants("info 1", "ok 10 44 32 32 1 1")


def an_outline_follows_a_window_that_gets_another_size(tried):
    tried.click(20, 60)
    tried.loop.image()
    tried.loop.mouse_down(95, 100)
    tried.shows("another", "the outline is where the window is")
    tried.loop.mouse_moved(105, 110)
    tried.shows("another", "the outline is larger")
    tried.says('Window 1 "One" gets the size 100 by 70')
    tried.wants("info 1", "ok 10 44 90 60 1 1")
    tried.loop.mouse_moved(0, 0)
    tried.shows("another", "the outline is smaller")
    tried.says('Window 1 "One" gets the size 32 by 32')
    tried.loop.mouse_up(95, 100)
    tried.shows("another", "the outline is gone")
    tried.wants("info 1", "ok 10 44 90 60 1 1")


def a_go_away_box_closes_its_window(tried):
    tried.loop.mouse_down(70, 60)
    tried.shows("another", "the box is black inside")
    tried.loop.mouse_moved(10, 10)
    tried.shows("the first", "the mouse is outside of the box")
    tried.loop.mouse_moved(71, 61)
    tried.loop.mouse_up(71, 61)
    tried.wants("info 2", "refused 2 NoSuchWindow")
    tried.wants("info 1", "ok 10 44 90 60 1 1")
    tried.wants("updatergn 1", NOTHING_DUE)
    tried.says('Window 2 "Two" was closed')
    if list(tried.loop.known.windows) != [1]:
        raise Differs("a window that was closed is known")


def a_go_away_box_that_is_left_closes_nothing(tried):
    tried.drag((70, 60), (71, 61), (90, 60))
    tried.wants("info 2", "ok 60 70 100 60 1 1")
    tried.says('Window 2 "Two" stays open')
    tried.shows("the same", "the box is white again")


def a_zoom_box_zooms_out_and_in(tried):
    tried.drag((145, 60), (130, 60))
    tried.wants("info 2", "ok 60 70 100 60 1 1")
    tried.drag((145, 60), (146, 61))
    tried.wants("info 2", "ok 1 39 198 110 1 1")
    # A click in the title bar is no move, and one in the size box gives no size: else there would be nothing to zoom in to.
    tried.click(100, 30)
    tried.click(190, 140)
    tried.click(185, 28)
    tried.wants("info 2", "ok 60 70 100 60 1 1")


def what_happens_is_posted_with_its_time_place_and_keys(tried):
    tried.seconds = 2.5
    tried.loop.mouse_moved(30, 30)
    tried.asked()
    tried.click(199, 140, SHIFT)
    find, null = "find 199 140", "next 65535"
    tried.asked("post 1 0 150 199 140 512", null, find, null, "post 2 0 150 199 140 640", null, null)
    tried.seconds = 3.01
    tried.loop.key_down(113, 199, 140, COMMAND)
    tried.loop.key_up(113, 199, 140, COMMAND)
    tried.asked("post 3 113 180 199 140 384", null, 'mkey "q"', null, "post 4 113 180 199 140 384", null)


def while_something_follows_the_mouse_no_event_is_asked_for(tried):
    tried.loop.mouse_down(70, 60)
    tried.asked("post 1 0 0 70 60 0", "next 65535", "find 70 60", "goaway 2 70 60")
    for h in (71, 71, 90):
        tried.loop.mouse_moved(h, 60)
    tried.loop.key_down(120, 90, 60)
    tried.loop.mouse_down(90, 60)
    tried.loop.mouse_moved(20000, -20000)
    tried.asked("gastep 71 60", "gastep 90 60", "post 3 120 0 90 60 0", "gastep 16383 -16384")
    tried.loop.mouse_up(90, 60)
    tried.asked("post 2 0 0 90 60 128", "next 4", "gaend 90 60", "next 65535", "next 65535")
    tried.says("Key x")


def what_is_refused_is_said(tried):
    # A control 16000 columns to the right lets the window go no farther than to column 83.
    tried.drag((40, 34), (140, 34))
    tried.says("dragend 140 34 is refused 8 OutOfRange")
    tried.shows("the same", "the outline is gone")
    tried.wants("info 1", "ok 10 44 90 60 1 0")
    tried.click(20, 60)
    tried.wants("frontwin", "ok 1")


def an_update_that_the_script_left_open_is_ended(tried):
    tried.click(20, 60)
    tried.wants("updatergn 1", NOTHING_DUE)
    tried.wants("begin 1", "ok")


def an_outline_that_the_script_left_is_taken_away(tried):
    tried.click(170, 140)
    tried.shows("another", "the outline is gone")
    tried.wants("info 2", "ok 60 70 100 60 1 1")
    tried.wants("dragend 0 0", "refused 12 NotBusy")


def what_the_event_mask_leaves_out_does_nothing(tried):
    tried.click(20, 60)
    tried.wants("frontwin", "ok 2")
    tried.shows("the same", "no event was queued")


TESTS = {
    a_click_in_a_rear_window_brings_it_to_front: TWO_WINDOWS,
    a_floating_window_is_used_where_it_lies: A_FLOATING_WINDOW,
    the_script_s_own_events_are_served_and_flushed: TWO_WINDOWS + "\nclose 9\r\npost 1 0 0 20 60 0\n",
    a_window_is_dragged_by_its_title_and_selected: TWO_WINDOWS,
    with_the_command_key_a_dragged_window_stays_behind: TWO_WINDOWS,
    an_outline_follows_a_window_that_is_dragged: TWO_WINDOWS,
    a_drag_is_told_where_the_mouse_is: TWO_WINDOWS,
    a_drag_that_ends_in_the_menu_bar_or_off_the_screen_moves_nothing: TWO_WINDOWS,
    a_click_in_a_title_bar_selects_and_moves_nothing: TWO_WINDOWS,
    a_size_box_gives_another_size: TWO_WINDOWS,
    an_outline_follows_a_window_that_gets_another_size: TWO_WINDOWS,
    a_go_away_box_closes_its_window: TWO_WINDOWS,
    a_go_away_box_that_is_left_closes_nothing: TWO_WINDOWS,
    a_zoom_box_zooms_out_and_in: TWO_WINDOWS,
    what_happens_is_posted_with_its_time_place_and_keys: TWO_WINDOWS,
    while_something_follows_the_mouse_no_event_is_asked_for: TWO_WINDOWS,
    what_is_refused_is_said: TWO_WINDOWS + 'control 1 button 16000 0 300 10 1 0 1 0 ""\n',
    an_update_that_the_script_left_open_is_ended: TWO_WINDOWS + "begin 1\n",
    an_outline_that_the_script_left_is_taken_away: TWO_WINDOWS + "drag 2 100 60\ndragstep 90 70\n",
    what_the_event_mask_leaves_out_does_nothing: TWO_WINDOWS + "setmask 0\n",
}
