"""The tests of the loop of events without a display: controls, menus and lists. Each answer was worked out by hand, from the
sizes and places of the script. A point is a column and a row of the screen."""

from desk_kit.event_loop import COMMAND, SHIFT
from view_tried import NOTHING_DUE, NO_EVENT

# The first window has the columns 9 to 100 and the rows 25 to 104 of the screen with its frame, and the second one, in front
# of it, the columns 59 to 160 and the rows 51 to 130.
TWO_WINDOWS = """\
desk 200 150 20
window document 10 44 90 60 1 1 "One"
window zoom 60 70 100 60 1 1 "Two"
"""

# The content begins at 20 44.
SETTINGS = """\
desk 200 146 20
window nogrow 20 44 160 92 1 1 "Settings"
control 1 check 8 6 70 14 1 0 1 1 "Ruler"
control 1 check 8 22 70 14 1 0 1 0 "Grid"
control 1 radio 84 6 70 14 1 0 1 1 "Small"
control 1 radio 84 22 70 14 1 0 1 0 "Large"
control 1 scroll 42 42 110 16 1 0 8 2 ""
control 1 button 8 68 66 18 1 0 1 0 "Revert"
control 1 button 86 68 66 18 1 0 1 0 "OK"
chilite 1 6 255
"""

# The content begins at 10 44, and the bar above it has the rows 26 to 42.
ROUNDED = """\
version 3
desk 140 110 20
window round 10 44 90 40 1 1 "Round"
control 1 rbutton 8 8 60 18 1 0 1 0 "OK"
"""

RADIO_GROUPS = """\
desk 120 120 20
window plain 10 30 100 84 1 0 ""
control 1 radio 0 0 60 14 1 0 1 1 "A"
control 1 radio 0 16 60 14 1 0 1 0 "B"
control 1 check 0 32 60 14 1 0 1 0 "C"
control 1 radio 0 48 60 14 1 0 1 1 "D"
control 1 radio 0 64 60 14 1 0 1 0 "E"
"""

# The first window has the columns 9 to 100 and the rows 25 to 104 of the screen with its frame, and the second one, in front
# of it, the columns 59 to 160 and the rows 51 to 130.
TWO_WINDOWS = """\
desk 200 150 20
window document 10 44 90 60 1 1 "One"
window zoom 60 70 100 60 1 1 "Two"
"""

# The content begins at 20 44.
SETTINGS = """\
desk 200 146 20
window nogrow 20 44 160 92 1 1 "Settings"
control 1 check 8 6 70 14 1 0 1 1 "Ruler"
control 1 check 8 22 70 14 1 0 1 0 "Grid"
control 1 radio 84 6 70 14 1 0 1 1 "Small"
control 1 radio 84 22 70 14 1 0 1 0 "Large"
control 1 scroll 42 42 110 16 1 0 8 2 ""
control 1 button 8 68 66 18 1 0 1 0 "Revert"
control 1 button 86 68 66 18 1 0 1 0 "OK"
chilite 1 6 255
"""

# An item n of a menu that is pulled down has the rows 16 n + 5 to 16 n + 20.
MENUS = """\
desk 136 96 20
menu 1 "File"
mappend 1 "New/N;Close/W;-;Quit/Q"
menu 2 "Edit"
mappend 2 "(Undo/Z;-;Cut/X;Copy/C"
menu 3 "View"
mappend 3 "Gray!*;White"
minsert 1 0
minsert 2 0
minsert 3 0
window plain 28 44 80 40 1 0 ""
"""

# The first window has the columns 9 to 100 and the rows 25 to 104 of the screen with its frame, and the second one, in front
# of it, the columns 59 to 160 and the rows 51 to 130.
TWO_WINDOWS = """\
desk 200 150 20
window document 10 44 90 60 1 1 "One"
window zoom 60 70 100 60 1 1 "Two"
"""

# The content begins at 20 44.
SETTINGS = """\
desk 200 146 20
window nogrow 20 44 160 92 1 1 "Settings"
control 1 check 8 6 70 14 1 0 1 1 "Ruler"
control 1 check 8 22 70 14 1 0 1 0 "Grid"
control 1 radio 84 6 70 14 1 0 1 1 "Small"
control 1 radio 84 22 70 14 1 0 1 0 "Large"
control 1 scroll 42 42 110 16 1 0 8 2 ""
control 1 button 8 68 66 18 1 0 1 0 "Revert"
control 1 button 86 68 66 18 1 0 1 0 "OK"
chilite 1 6 255
"""

# An item n of a menu that is pulled down has the rows 16 n + 5 to 16 n + 20.
MENUS = """\
desk 136 96 20
menu 1 "File"
mappend 1 "New/N;Close/W;-;Quit/Q"
menu 2 "Edit"
mappend 2 "(Undo/Z;-;Cut/X;Copy/C"
menu 3 "View"
mappend 3 "Gray!*;White"
minsert 1 0
minsert 2 0
minsert 3 0
window plain 28 44 80 40 1 0 ""
"""

# The content begins at 16 44; the view shows two columns and four rows whole.
LIST = """\
desk 200 152 20
window nogrow 16 44 168 98 1 1 "Fonts"
list 1 text 8 6 128 72 64 16 9 3 1 1 0
lset 1 1 0 1 "Cairo"
"""

COVERED_LISTS = """\
desk 120 100 20
window plain 10 30 100 60 1 0 ""
list 1 text 0 0 80 48 40 12 4 2 0 0 0
list 1 text 0 24 80 48 40 12 4 2 0 0 0
control 1 button 0 0 40 20 1 0 1 0 "In front"
control 1 button 0 24 40 20 0 0 1 0 "Hidden"
control 1 scroll 40 0 16 20 1 0 0 0 ""
chilite 1 1 255
"""

# The content begins at 10 40. The scroll bars of the two lists are the controls 1 and 2, and 5 and 6.
CHANGED = """\
desk 136 124 20
menu 1 "File"
mappend 1 "Gone"
minsert 1 0
mdispose 1
menu 1 "Now"
mappend 1 "New/N;;Q(uit/Q!"
menable 1 2
mitem 1 1 "Open"
minsert 1 0
window plain 10 40 110 70 1 0 "First"
title 1 "Changed"
list 1 text 0 0 40 40 20 10 4 2 1 1 0
ldispose 1 1
control 1 button 34 2 8 8 1 0 1 0 "Off"
cdispose 1 3
control 1 button 4 4 8 8 1 0 1 0 "Old"
ctitle 1 4 "New"
cmove 1 4 80 10
csize 1 4 28 18
list 1 text 0 0 60 48 30 12 9 3 1 1 0
control 1 check 0 0 10 10 1 0 1 0 "In front"
cmove 1 7 10 12
csize 1 7 20 12
chilite 1 7 255
"""


def a_check_box_changes_its_value(tried):
    tried.click(34, 56)
    tried.wants("cget 1 1", "ok 0 0 1 0 1")
    tried.click(34, 56)
    tried.wants("cget 1 1", "ok 1 0 1 0 1")
    tried.says('Check box 1 "Ruler" has the value 1')
    tried.drag((34, 56), (150, 60))
    tried.wants("cget 1 1", "ok 1 0 1 0 1")
    tried.says('Check box 1 "Ruler": nothing was meant')
    tried.shows("the same", "a check box that was set and set back")


def a_radio_button_takes_the_place_of_another(tried):
    tried.click(110, 72)
    tried.wants("cget 1 3", "ok 0 0 1 0 1")
    tried.wants("cget 1 4", "ok 1 0 1 0 1")
    tried.wants("cget 1 1", "ok 1 0 1 0 1")


def radio_buttons_apart_from_each_other_are_groups(tried):
    tried.click(30, 102)
    for control, value in ((1, 1), (2, 0), (4, 0), (5, 1)):
        tried.wants(f"cget 1 {control}", f"ok {value} 0 1 0 1")


def a_scroll_bar_goes_by_one_by_a_quarter_and_by_its_thumb(tried):
    # The thumb is 16 columns wide and begins at 93 where the value is 2, and at 109 where it is 4.
    for point, value in (((70, 94), 1), ((160, 94), 2), ((140, 94), 4), ((85, 94), 2)):
        tried.click(*point)
        tried.wants("cget 1 5", f"ok {value} 0 8 0 1")
    # From 31 in the scroll bar it is dragged to 61, and 8 * 45 div 62 is 5.
    tried.drag((100, 94), (120, 80), (130, 94))
    tried.wants("cget 1 5", "ok 5 0 8 0 1")
    tried.says("Scroll bar 5 has the value 5")
    # 28 rows below the scroll bar the button goes up too far away.
    tried.drag((124, 94), (100, 130))
    tried.wants("cget 1 5", "ok 5 0 8 0 1")


def a_button_is_tracked(tried):
    tried.loop.mouse_down(140, 120)
    tried.wants("cget 1 7", "ok 0 0 1 10 1")
    tried.shows("another", "the button is pressed")
    tried.loop.mouse_moved(100, 120)
    tried.wants("cget 1 7", "ok 0 0 1 0 1")
    tried.shows("the first", "the mouse is outside of the button")
    tried.loop.mouse_moved(141, 121)
    tried.wants("cget 1 7", "ok 0 0 1 10 1")
    tried.loop.mouse_up(141, 121)
    tried.wants("cget 1 7", "ok 0 0 1 0 1")
    tried.says('Button 7 "OK" was pressed')
    tried.wants("avail 65535", NO_EVENT)


def rounded_windows_and_buttons_are_used_as_others(tried):
    tried.click(18, 52)
    tried.says('Button 1 "OK" was pressed')
    tried.wants("cget 1 1", "ok 0 0 1 0 1")
    tried.drag((60, 34), (70, 30))
    tried.wants("info 1", "ok 20 40 90 40 1 1")
    tried.click(30, 30)
    tried.wants("find 60 60", "ok 0 0")


def an_inactive_button_is_not_tracked(tried):
    tried.click(50, 120)
    tried.says('Window 1 "Settings", at 30 76 in it')
    tried.shows("the same", "a click on an inactive button")


def an_item_of_a_menu_is_chosen(tried):
    tried.loop.mouse_down(20, 8)
    tried.shows("another", "a menu is pulled down")
    for point in ((60, 10), (60, 29), (60, 60)):
        tried.loop.mouse_moved(*point)
    tried.shows("another", "an item is highlighted")
    tried.loop.mouse_up(60, 60)
    tried.says('"Cut" was chosen from "Edit": menu 2, item 3')
    tried.shows("the first", "the menu is put away")
    tried.wants("avail 65535", NO_EVENT)
    tried.drag((110, 10), (110, 45))
    tried.says('"White" was chosen from "View": menu 3, item 2')


def a_disabled_item_is_not_chosen(tried):
    tried.drag((60, 10), (60, 29))
    tried.says("No item was chosen")
    tried.shows("the same", "the menu is put away")


def the_mouse_may_come_to_a_title_from_beside_it(tried):
    tried.loop.mouse_down(3, 8)
    tried.shows("the same", "the mouse is on no title")
    tried.loop.mouse_moved(20, 8)
    tried.wants("find 20 29", "ok 1 0")
    tried.loop.mouse_up(20, 29)
    tried.says('"New" was chosen from "File": menu 1, item 1')
    tried.click(3, 8)
    tried.says("No item was chosen")
    tried.click(40, 60)
    tried.says("Window 1, at 12 16 in it")


def a_key_stands_for_an_item(tried):
    def key(character, modifiers, status):
        tried.loop.key_down(ord(character), 5, 5, modifiers)
        tried.loop.key_up(ord(character), 5, 5, modifiers)
        tried.says(status)

    key("q", COMMAND, '"Quit" was chosen from "File": menu 1, item 4')
    key("C", COMMAND | SHIFT, '"Copy" was chosen from "Edit": menu 2, item 4')
    key("z", COMMAND, "Key z with Command: no item")
    key('"', COMMAND, 'Key " with Command: no item')
    key("q", 0, "Key q")
    key("\r", 0, "Key 13")
    tried.shows("the same", "no title is highlighted")
    tried.wants("avail 65535", NO_EVENT)


def clicks_in_a_list_select_by_the_keys(tried):
    tried.click(40, 76)
    tried.says('List 1, first selected cell: 0 1, "Cairo"')
    tried.click(44, 106, SHIFT)
    tried.wants("lgetsel 1 1 0 0 2", "ok 1")
    tried.click(50, 90, COMMAND)
    for row, selected in enumerate((0, 1, 0, 1, 0)):
        tried.wants(f"lgetsel 1 1 0 0 {row}", f"ok {selected}")


def the_bars_of_a_list_scroll_it(tried):
    # The box below; the track below the thumb, which begins at row 70 then; and from the thumb, which is at 85, to 12 above.
    tried.click(160, 114)
    tried.wants("cget 1 1", "ok 1 0 5 0 1")
    tried.click(160, 100)
    tried.wants("cget 1 1", "ok 4 0 5 0 1")
    tried.drag((160, 90), (160, 80), (160, 78))
    tried.wants("cget 1 1", "ok 1 0 5 0 1")
    tried.click(144, 130)
    tried.wants("cget 1 2", "ok 1 0 1 0 1")
    tried.click(40, 58)
    tried.wants("lgetsel 1 1 1 0 0", "ok 1 1 1")


def a_control_in_front_keeps_a_click_from_a_list(tried):
    # An inactive button, and a scroll bar that is too short to have parts.
    for h in (15, 55):
        tried.click(h, 35)
        tried.wants("lgetsel 1 1 1 0 0", "ok 0")
    tried.click(15, 63)
    tried.wants("lgetsel 1 1 1 0 0", "ok 1 0 2")
    tried.wants("lgetsel 1 2 1 0 0", "ok 0")


def what_the_script_changes_is_known(tried):
    tried.click(30, 58)
    tried.says('Window 1 "Changed", at 20 18 in it')
    tried.wants("lgetsel 1 2 1 0 0", "ok 0")
    tried.click(14, 44)
    tried.wants("lgetsel 1 2 1 0 0", "ok 1 0 0")
    tried.click(46, 44)
    tried.wants("lgetsel 1 2 1 0 0", "ok 1 1 0")
    tried.click(110, 60)
    tried.says('Button 4 "New" was pressed')
    tried.click(78, 80)
    tried.wants("cget 1 5", "ok 1 0 5 0 1")
    tried.click(60, 96)
    tried.wants("cget 1 6", "ok 1 0 1 0 1")
    tried.drag((20, 8), (20, 29))
    tried.says('"Open" was chosen from "Now": menu 1, item 1')
    tried.loop.key_down(ord("q"), 0, 0, COMMAND)
    tried.says('"Quit" was chosen from "Now": menu 1, item 2')


def what_the_script_left_open_is_ended_by_the_first_click(tried):
    tried.wants("find 20 29", "ok 1 0")
    tried.click(120, 90)
    tried.wants("find 20 29", "ok 0 0")
    tried.says("The desktop")
    tried.wants("updatergn 1", NOTHING_DUE)


TESTS = {
    a_check_box_changes_its_value: SETTINGS,
    a_radio_button_takes_the_place_of_another: SETTINGS,
    radio_buttons_apart_from_each_other_are_groups: RADIO_GROUPS,
    a_scroll_bar_goes_by_one_by_a_quarter_and_by_its_thumb: SETTINGS,
    a_button_is_tracked: SETTINGS,
    rounded_windows_and_buttons_are_used_as_others: ROUNDED,
    an_inactive_button_is_not_tracked: SETTINGS,
    an_item_of_a_menu_is_chosen: MENUS,
    a_disabled_item_is_not_chosen: MENUS,
    the_mouse_may_come_to_a_title_from_beside_it: MENUS,
    a_key_stands_for_an_item: MENUS,
    clicks_in_a_list_select_by_the_keys: LIST,
    the_bars_of_a_list_scroll_it: LIST,
    a_control_in_front_keeps_a_click_from_a_list: COVERED_LISTS,
    what_the_script_changes_is_known: CHANGED,
    what_the_script_left_open_is_ended_by_the_first_click: MENUS + "mdown 20 8\n",
}
