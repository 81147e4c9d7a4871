"""The tests of text records in the loop of events, without a display: what is typed, selected with the mouse, cut, pasted and
scrolled. Each answer was worked out by hand, from the sizes and places of the script. A point is a column and a row of the
screen."""

from desk_kit.event_loop import COMMAND, SHIFT

# The content begins at 10 30. The text stands in the lines "one two three four ", "five six seven " and "eight nine", of which
# the first begins at the offset 0, the second at 19 and the third at 34. A byte is 6 columns wide, and the first one of a line
# begins in column 15; the lines have the rows 32 to 41, 42 to 51 and 52 to 61, and the view those of the first two.
TEXT = """\
version 3
desk 160 110 20
menu 1 "Edit"
mappend 1 "Cut/X;Copy/C;Paste/V;Clear;Select All/A;Other"
minsert 1 0
window plain 10 30 140 70 1 0 ""
control 1 scroll 118 0 16 60 1 0 0 0 ""
text 1 4 2 109 4 2 112 20 0 1
tset 1 1 "one two three four five six seven eight nine"
"""
ACTIVE = f"{TEXT}tactive 1 1 1\n"

# The contents begin at 10 30 and 80 30. The second window is in front.
TWO_TEXTS = """\
version 3
desk 160 110 20
window plain 10 30 60 40 1 0 ""
text 1 4 2 50 4 2 50 20 0 1
window plain 80 30 60 40 1 0 ""
text 2 4 2 50 4 2 50 10 0 1
text 2 4 22 50 4 22 50 10 0 1
"""
A_FLOATING_TEXT = """\
version 3
desk 160 110 20
float plain 80 30 60 40 1 0 ""
text 1 4 2 50 4 2 50 20 0 1
window plain 10 30 60 40 1 0 ""
text 2 4 2 50 4 2 50 20 0 1
tactive 2 2 1
"""

# The content begins at 10 30. A list, two text records and another list lie there in one order, each with 20 columns less than
# the one behind it. A button that is hidden and an inactive one lie in front.
LAYERS = """\
version 3
desk 160 110 20
window plain 10 30 140 70 1 0 ""
list 1 text 0 0 20 20 20 20 1 1 0 0 0
text 1 0 0 40 0 0 40 20 0 1
text 1 0 0 60 0 0 60 20 0 1
list 1 text 0 0 80 20 20 20 1 4 0 0 0
control 1 button 44 0 10 10 0 0 1 0 ""
control 1 button 44 10 10 10 1 0 1 0 ""
chilite 1 2 255
"""

# As TEXT, but for what is placed anew, hidden and disposed of.
CHANGED = """\
version 3
desk 160 110 20
window plain 10 30 140 70 1 0 ""
text 1 0 0 40 0 0 40 20 0 1
text 1 0 0 40 0 0 40 20 0 1
text 1 0 0 40 0 0 40 20 0 1
text 1 90 30 40 90 30 40 20 0 1
tdispose 1 1
thide 1 2
tplace 1 3 50 30 40 50 30 40 20
"""


def at(tried, seconds):
    """The clock stands there, and the loop is told of it."""
    tried.seconds = seconds
    tried.loop.time_passed()


def types(tried, *codes, modifiers=0):
    for code in codes:
        tried.loop.key_down(code, 5, 5, modifiers)
        tried.loop.key_up(code, 5, 5, modifiers)


def chooses(tried, character):
    types(tried, ord(character), modifiers=COMMAND)


def has(tried, start, end, length=44, lines=3, top=2):
    """Wants the first text record to be like this, active and shown."""
    tried.wants("tinfo 1 1", f"ok {start} {end} 1 1 {length} {lines} 4 {top}")


def a_click_makes_a_text_record_active_and_puts_its_caret(tried):
    tried.wants("tinfo 1 1", "ok 44 44 0 1 44 3 4 2")
    tried.desk.asked.clear()
    tried.click(39, 36)
    tried.asked(
        *("post 1 0 0 39 36 0", "next 65535", "find 39 36", "frontwin", "info 1", "findc 1 29 6", "tinfo 1 1"),
        *("tactive 1 1 1", "tclick 1 1 29 6 0", "tinfo 1 1"),
        *("post 2 0 0 39 36 128", "next 4", "tend 29 6", "next 65535"),
    )
    has(tried, 4, 4)
    tried.says("Text record 1, the caret is at offset 4")
    tried.shows("another", "a caret")


def a_drag_selects(tried):
    tried.loop.mouse_down(39, 36)
    tried.loop.mouse_moved(39, 46)
    tried.says("Text record 1, selected from offset 4 to 23")
    tried.shows("another", "what is selected")
    tried.loop.mouse_moved(39, 36)
    tried.says("Text record 1, the caret is at offset 4")
    tried.loop.mouse_moved(5, 5)
    tried.says("Text record 1, selected from offset 0 to 4")
    tried.loop.mouse_up(155, 105)
    has(tried, 4, 44)
    tried.wants("avail 65535", "ok 0 0 0 0 0 0")


def a_double_click_takes_words(tried):
    tried.click(39, 36)
    tried.seconds = 0.5
    tried.loop.mouse_down(42, 38)
    has(tried, 4, 7)
    tried.loop.mouse_moved(20, 46)
    tried.says("Text record 1, selected from offset 4 to 23")
    tried.loop.mouse_up(20, 46)
    has(tried, 4, 23)


def a_click_that_is_late_or_elsewhere_is_no_double_click(tried):
    for seconds, point, offset in ((0, (39, 36), 4), (0.6, (39, 36), 4), (0.7, (45, 36), 5), (0.8, (45, 42), 24)):
        tried.seconds = seconds
        tried.click(*point)
        has(tried, offset, offset)
    # After a double click each further one that is soon takes the word too.
    for seconds in (1.0, 1.2):
        tried.seconds = seconds
        tried.click(45, 42)
        has(tried, 24, 27)


def the_shift_key_extends(tried):
    tried.click(39, 36)
    tried.seconds = 0.2
    tried.click(39, 46, SHIFT)
    has(tried, 4, 23)
    tried.click(21, 36, SHIFT)
    has(tried, 1, 23)


def keys_are_typed_into_the_active_text_record(tried):
    tried.click(39, 36)
    types(tried, *b"ab")
    tried.says("Key b, for text record 1")
    tried.wants("tget 1 1", 'ok "one abtwo three four five six seven eight nine"')
    types(tried, 8, 29, 142, 8, 28, 9, 13, 8, 8)
    tried.wants("tget 1 1", 'ok "one atwo three four five six seven eight nine"')
    has(tried, 5, 5, length=45)
    # The first line ends behind "three" now, so that the second one begins at 15.
    types(tried, 31)
    has(tried, 20, 20, length=45)
    types(tried, 30)
    tried.says("Key 30, for text record 1")
    has(tried, 5, 5, length=45)


def a_key_asks_this(tried):
    tried.loop.key_down(120, 5, 5)
    tried.asked(
        *("post 3 120 0 5 5 128", "next 65535", "frontwin", "tkey 1 1 120", "tview 1 1"),
        # The lines are four, and the third and fourth one are seen; the scroll bar had no values.
        *("tinfo 1 1", "fontinfo", "cget 1 1", "fontinfo", "cmax 1 1 1", "cvalue 1 1 1", "next 65535"),
    )


def other_keys_are_not_typed(tried):
    for code in (1, 3, 4, 5, 11, 12, 27, 127):
        types(tried, code)
        tried.says(f"Key {code}")
    has(tried, 44, 44)


def where_none_is_active_nothing_is_typed(tried):
    types(tried, *b"x")
    chooses(tried, "a")
    tried.says('"Select All" was chosen from "Edit": menu 1, item 5')
    tried.wants("tinfo 1 1", "ok 44 44 0 1 44 3 4 2")
    tried.shows("the same", "nothing was typed")


def items_of_a_menu_cut_copy_and_paste(tried):
    tried.drag((39, 36), (57, 36))
    chooses(tried, "c")
    tried.says('"Copy" was chosen from "Edit": menu 1, item 2, for text record 1')
    has(tried, 4, 7)
    tried.wants("scrap", 'ok "two"')
    chooses(tried, "x")
    tried.wants("tget 1 1", 'ok "one  three four five six seven eight nine"')
    tried.click(20, 36)
    for _ in range(2):
        chooses(tried, "v")
    tried.wants("tget 1 1", 'ok "otwotwone  three four five six seven eight nine"')
    tried.shows("another", "no title is highlighted")
    chooses(tried, "a")
    has(tried, 0, 47, length=47)
    # The items have the rows 21 to 36, 37 to 52 and so on of the screen; the fourth one is Clear, and the sixth Other.
    tried.drag((20, 8), (20, 76))
    tried.says('"Clear" was chosen from "Edit": menu 1, item 4, for text record 1')
    tried.wants("tget 1 1", 'ok ""')
    tried.drag((20, 8), (20, 108))
    tried.says('"Other" was chosen from "Edit": menu 1, item 6')


def an_item_that_is_refused_is_said(tried):
    tried.click(39, 36)
    chooses(tried, "v")
    tried.says("tpaste 1 1 is refused 10 TooLong")
    tried.wants("mhilite 0", "ok")


def the_text_record_of_the_active_window_gets_the_keys(tried):
    tried.click(90, 35)
    types(tried, *b"a")
    tried.click(90, 55)
    types(tried, *b"b")
    tried.wants("tinfo 2 2", "ok 1 1 0 1 1 1 4 2")
    tried.click(20, 60)
    tried.says("Window 1 is selected")
    tried.wants("tinfo 2 3", "ok 1 1 0 1 1 1 4 22")
    types(tried, *b"c")
    tried.says("Key c")
    tried.click(20, 35)
    types(tried, *b"d")
    tried.click(100, 60)
    tried.wants("tinfo 1 1", "ok 1 1 0 1 1 1 4 2")
    types(tried, *b"e")
    for text, found in (("2 2", "a"), ("2 3", "be"), ("1 1", "d")):
        tried.wants(f"tget {text}", f'ok "{found}"')


def a_text_record_of_a_floating_window_gets_the_keys_too(tried):
    types(tried, *b"a")
    tried.click(90, 35)
    tried.wants("tinfo 2 2", "ok 1 1 0 1 1 1 4 2")
    types(tried, *b"b")
    tried.says("Key b, for text record 1")
    tried.click(35, 35)
    types(tried, *b"c")
    for text, found in (("1 1", "b"), ("2 2", "ac")):
        tried.wants(f"tget {text}", f'ok "{found}"')


def a_caret_blinks(tried):
    at(tried, 0.5)
    tried.asked()
    at(tried, 0.55)
    tried.asked("frontwin", "tidle 1 1 33")
    tried.shows("another", "the caret is off")
    at(tried, 0.6)
    tried.asked("image")
    at(tried, 1.1)
    tried.shows("the first", "the caret is on")
    at(tried, 1.6)
    tried.shows("another", "the caret is off again")
    types(tried, 28)
    tried.shows("the first", "a key turns the caret on")
    tried.desk.asked.clear()
    at(tried, 2.1)
    tried.asked()
    at(tried, 2.2)
    tried.asked("frontwin", "tidle 1 1 36")


def a_caret_does_not_blink_while_text_is_selected_or_nowhere(tried):
    tried.loop.mouse_down(39, 36)
    tried.desk.asked.clear()
    at(tried, 1)
    tried.asked()
    tried.loop.mouse_up(39, 36)
    tried.wants("tactive 1 1 0", "ok")
    tried.desk.asked.clear()
    at(tried, 2)
    tried.asked()


def a_scroll_bar_beside_a_text_record_goes_along(tried):
    tried.click(39, 36)
    types(tried, 13)
    has(tried, 5, 5, length=45, lines=4)
    tried.wants("cget 1 1", "ok 0 0 2 0 1")
    types(tried, 13)
    has(tried, 6, 6, length=46, lines=5, top=-8)
    tried.wants("cget 1 1", "ok 1 0 3 0 1")
    types(tried, 8)
    has(tried, 5, 5, length=45, lines=4, top=-8)
    tried.wants("cget 1 1", "ok 1 0 2 0 1")
    types(tried, 8)
    has(tried, 4, 4)
    tried.wants("cget 1 1", "ok 0 0 1 0 1")


def a_scroll_bar_beside_a_text_record_scrolls_it(tried):
    # The lower box has the rows 74 to 89 of the screen, and the thumb 46 to 61 where the value is 0, and 58 to 73 where it is 1.
    for point, value in (((136, 80), 1), ((136, 80), 1), ((136, 35), 0), ((136, 68), 1), ((136, 50), 0)):
        tried.click(*point)
        tried.wants("cget 1 1", f"ok {value} 0 1 0 1")
        has(tried, 44, 44, top=2 - 10 * value)
    tried.drag((136, 50), (136, 62))
    has(tried, 44, 44, top=-8)
    tried.says("Scroll bar 1 has the value 1")
    tried.loop.mouse_down(136, 35)
    at(tried, 0.5)
    has_scrolled = "ok 44 44 1 1 44 3 4 2"
    tried.wants("tinfo 1 1", has_scrolled)
    tried.loop.mouse_up(136, 35)
    tried.wants("tinfo 1 1", has_scrolled)


def a_text_record_is_clicked_where_it_lies_in_front(tried):
    tried.click(15, 35)
    tried.wants("lgetsel 1 1 0 0 0", "ok 1")
    for h, text in ((35, 1), (66, 2)):
        tried.click(h, 35)
        tried.says(f"Text record {text}, the caret is at offset 0")
        tried.wants(f"tinfo 1 {text}", "ok 0 0 1 1 0 1 0 0")
    # An inactive button lies in front of the second one, and a hidden one does not.
    tried.click(56, 45)
    tried.says("Window 1, at 46 15 in it")
    tried.seconds = 2
    tried.click(56, 35)
    tried.says("Text record 2, the caret is at offset 0")
    tried.click(76, 35)
    tried.wants("lgetsel 1 2 0 3 0", "ok 1")


def what_the_script_changes_of_text_records_is_known(tried):
    tried.click(15, 35)
    tried.says("Window 1, at 5 5 in it")
    tried.click(65, 65)
    tried.says("Text record 3, the caret is at offset 0")
    tried.click(105, 65)
    tried.says("Text record 4, the caret is at offset 0")
    tried.wants("tshow 1 2", "ok")
    tried.click(15, 35)
    tried.says("Text record 2, the caret is at offset 0")
    tried.wants("close 1", "ok")
    types(tried, *b"x")
    tried.says("Key x")


def selecting_that_the_script_left_open_ends_where_the_mouse_was(tried):
    tried.click(155, 105)
    tried.says("The desktop")
    has(tried, 4, 23)


TESTS = {
    a_click_makes_a_text_record_active_and_puts_its_caret: TEXT,
    a_drag_selects: TEXT,
    a_double_click_takes_words: TEXT,
    a_click_that_is_late_or_elsewhere_is_no_double_click: TEXT,
    the_shift_key_extends: TEXT,
    keys_are_typed_into_the_active_text_record: TEXT,
    a_key_asks_this: ACTIVE,
    other_keys_are_not_typed: ACTIVE,
    where_none_is_active_nothing_is_typed: TEXT,
    items_of_a_menu_cut_copy_and_paste: TEXT,
    an_item_that_is_refused_is_said: TEXT + f'setscrap "{"x" * 255}"\n' + 125 * "tpaste 1 1\n",
    the_text_record_of_the_active_window_gets_the_keys: TWO_TEXTS,
    a_text_record_of_a_floating_window_gets_the_keys_too: A_FLOATING_TEXT,
    a_caret_blinks: f"{ACTIVE}cmax 1 1 1\ntselect 1 1 0 0\n",
    a_caret_does_not_blink_while_text_is_selected_or_nowhere: ACTIVE,
    a_scroll_bar_beside_a_text_record_goes_along: TEXT,
    a_scroll_bar_beside_a_text_record_scrolls_it: f"{ACTIVE}cmax 1 1 1\n",
    a_text_record_is_clicked_where_it_lies_in_front: LAYERS,
    what_the_script_changes_of_text_records_is_known: CHANGED,
    selecting_that_the_script_left_open_ends_where_the_mouse_was: f"{ACTIVE}tclick 1 1 29 6 0\ntstep 29 16\n",
}
