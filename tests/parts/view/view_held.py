"""The tests of what is held and dragged on, without a display: boxes and pages of scroll bars, and lists. Each answer was
worked out by hand, from the sizes and places of the script. A point is a column and a row of the screen."""

from desk_kit.event_loop import COMMAND, SHIFT
from place import Differs

# The content begins at 20 44, and the scroll bar's columns are 62 to 171: a box of 16, then 78 to 155, then a box. Its thumb
# is 16 columns wide and begins at 93 where the value is 2, at 109 where it is 4, and at 124 where it is 6.
BAR = """\
desk 200 146 20
window nogrow 20 44 160 92 1 1 "Settings"
control 1 scroll 42 42 110 16 1 0 8 2 ""
control 1 button 8 68 66 18 1 0 1 0 "Revert"
"""

# The content begins at 16 44 and the view at 24 50, where two columns of 64 and four rows of 16 are seen whole, and the half
# of a fifth one.
LIST = """\
desk 200 152 20
window nogrow 16 44 168 98 1 1 "Fonts"
list 1 text 8 6 128 72 64 16 9 3 1 1 0
lset 1 1 0 1 "Cairo"
"""
ONLY_ONE = LIST.replace("1 1 0\n", "1 1 -128\n")
SHORT_LIST = LIST.replace("9 3 1 1 0\n", "2 2 0 0 0\n")


def at(tried, seconds):
    """The clock stands there, and the loop is told of it."""
    tried.seconds = seconds
    tried.loop.time_passed()


def has_value(tried, value, highlight=0, bar=1, most=8):
    tried.wants(f"cget 1 {bar}", f"ok {value} 0 {most} {highlight} 1")


def selects(tried, *wanted):
    """Wants these cells to be selected, and no others."""
    cells = [(column, row) for row in range(9) for column in range(3)]
    found = [it for it in cells if tried.loop.answer_to(b"lgetsel 1 1 0 %d %d" % it) == b"ok 1"]
    if found != list(wanted):
        raise Differs(f"the cells {found} are selected in place of {list(wanted)}")


def a_box_that_is_held_goes_on(tried):
    tried.loop.mouse_down(160, 94)
    for seconds, value in ((0.25, 2), (0.5, 3), (0.55, 3), (0.75, 4)):
        at(tried, seconds)
        has_value(tried, value, 21)
    tried.loop.mouse_up(160, 94)
    at(tried, 2)
    has_value(tried, 4)
    tried.says("Scroll bar 1 has the value 4")


def it_rests_while_the_mouse_is_elsewhere(tried):
    tried.loop.mouse_down(160, 94)
    at(tried, 0.5)
    tried.loop.mouse_moved(160, 110)
    for seconds in (1, 2):
        at(tried, seconds)
        has_value(tried, 3)
    tried.loop.mouse_moved(161, 95)
    at(tried, 3)
    has_value(tried, 4, 21)
    tried.loop.mouse_moved(20, 20)
    tried.loop.mouse_up(20, 20)
    has_value(tried, 4)


def it_ends_at_the_end_of_the_bar(tried):
    tried.loop.mouse_down(64, 94)
    at(tried, 0.5)
    at(tried, 1)
    tried.desk.asked.clear()
    for seconds in (2, 3):
        at(tried, seconds)
    tried.asked("cget 1 1")
    has_value(tried, 0, 20)
    tried.loop.mouse_up(64, 94)
    has_value(tried, 0)


def a_page_that_is_held_goes_on_until_the_thumb_is_there(tried):
    tried.loop.mouse_down(115, 94)
    has_value(tried, 2, 23)
    for seconds in (0.5, 1, 2):
        at(tried, seconds)
        has_value(tried, 4)
    tried.loop.mouse_moved(150, 94)
    has_value(tried, 4, 23)
    at(tried, 3)
    has_value(tried, 6, 23)
    tried.loop.mouse_up(150, 94)
    has_value(tried, 6)


def a_step_asks_this(tried):
    tried.loop.mouse_down(160, 94)
    tried.desk.asked.clear()
    at(tried, 0.5)
    ends, sets = ("cget 1 1", "ctend 140 50"), ("cvalue 1 1 3", "cget 1 1", "cget 1 1")
    tried.asked(*ends, *sets, "ctest 1 1 140 50", "ctrack 1 1 140 50")


def a_thumb_and_a_button_that_are_held_rest(tried):
    tried.loop.mouse_down(100, 94)
    tried.desk.asked.clear()
    at(tried, 1)
    tried.asked()
    tried.loop.mouse_up(100, 94)
    has_value(tried, 2)
    tried.loop.mouse_down(50, 120)
    at(tried, 3)
    tried.wants("cget 1 2", "ok 0 0 1 10 1")
    tried.loop.mouse_up(50, 120)
    tried.says('Button 2 "Revert" was pressed')


def the_bar_of_a_list_that_is_held_scrolls_it(tried):
    tried.loop.mouse_down(160, 114)
    for seconds in (0.5, 1):
        at(tried, seconds)
    has_value(tried, 2, 21, most=5)
    tried.loop.mouse_up(160, 114)
    tried.click(40, 58)
    selects(tried, (0, 2))


def a_list_is_selected_by_dragging(tried):
    tried.loop.mouse_down(40, 76)
    selects(tried, (0, 1))
    tried.loop.mouse_moved(41, 77)
    tried.loop.mouse_moved(100, 92)
    selects(tried, (0, 1), (1, 1), (0, 2), (1, 2))
    tried.loop.mouse_moved(100, 76)
    selects(tried, (0, 1), (1, 1))
    tried.says('List 1, first selected cell: 0 1, "Cairo"')
    tried.loop.mouse_moved(100, 60)
    selects(tried, (0, 0), (1, 0), (0, 1), (1, 1))
    tried.loop.mouse_up(40, 76)
    selects(tried, (0, 1))
    tried.wants("avail 65535", "ok 0 0 0 0 0 0")


def beside_the_view_the_nearest_cell_is_meant(tried):
    tried.drag((40, 76), (10, 300))
    selects(tried, (0, 1), (0, 2), (0, 3), (0, 4))
    tried.drag((40, 76), (300, 0))
    selects(tried, (0, 0), (1, 0), (0, 1), (1, 1))


def a_drag_asks_only_where_the_mouse_comes_to_another_cell(tried):
    tried.loop.mouse_down(40, 76)
    tried.desk.asked.clear()
    for h in (41, 42, 100):
        tried.loop.mouse_moved(h, 76)
    tells = "lgetsel 1 1 1 0 0", "lget 1 1 0 1"
    tried.asked("lclick 1 1 84 32 512", *tells)
    tried.loop.mouse_moved(100, 92)
    tried.asked("lclick 1 1 24 32 0", "lclick 1 1 84 48 512", *tells)


def with_the_command_key_each_cell_is_clicked_once(tried):
    tried.click(40, 76)
    tried.drag((40, 58), (40, 76), (40, 92), (40, 76), (40, 58), modifiers=COMMAND)
    selects(tried, (0, 0), (0, 2))


def with_the_shift_key_the_selection_grows(tried):
    tried.click(40, 58)
    tried.drag((100, 58), (100, 76), (40, 58), modifiers=SHIFT)
    selects(tried, (0, 0), (1, 0), (0, 1), (1, 1))


def a_list_of_which_one_cell_is_selected_follows_the_mouse(tried):
    tried.drag((40, 58), (40, 76), (40, 92))
    selects(tried, (0, 2))


def where_no_cell_is_the_last_one_stays(tried):
    tried.drag((40, 58), (40, 70), (40, 100))
    selects(tried, (0, 0), (0, 1))
    tried.drag((40, 100), (40, 58))
    selects(tried, (0, 0), (0, 1))
    tried.says("List 1, on no cell")


TESTS = {
    a_box_that_is_held_goes_on: BAR,
    it_rests_while_the_mouse_is_elsewhere: BAR,
    it_ends_at_the_end_of_the_bar: BAR,
    a_page_that_is_held_goes_on_until_the_thumb_is_there: BAR,
    a_step_asks_this: BAR,
    a_thumb_and_a_button_that_are_held_rest: BAR,
    the_bar_of_a_list_that_is_held_scrolls_it: LIST,
    a_list_is_selected_by_dragging: LIST,
    beside_the_view_the_nearest_cell_is_meant: LIST,
    a_drag_asks_only_where_the_mouse_comes_to_another_cell: LIST,
    with_the_command_key_each_cell_is_clicked_once: LIST,
    with_the_shift_key_the_selection_grows: LIST,
    a_list_of_which_one_cell_is_selected_follows_the_mouse: ONLY_ONE,
    where_no_cell_is_the_last_one_stays: SHORT_LIST,
}
