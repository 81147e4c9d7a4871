"""The tests of texts in the window itself, in an X server of its own: they are typed, and selected with the mouse. Each answer was
worked out by hand, from the sizes and places of the script."""

from view_server import HEIGHT, WIDTH, eventually

# The content begins at 10 44, and the text at 15 48. A byte is 6 columns wide, and a line 10 rows high; the view has four lines.
SCRIPT = f"""\
version 3
desk {WIDTH} {HEIGHT} 20
menu 1 "Edit"
mappend 1 "Cut/X;Copy/C;Paste/V"
minsert 1 0
window nogrow 10 44 180 90 1 1 "Letter"
control 1 scroll 160 0 16 60 1 0 0 0 ""
text 1 4 4 150 4 4 152 40 0 1
"""
TITLE = "texts.desk - desk-view"


def text_is_typed(viewer):
    viewer.find()
    viewer.mouse(60, 60, "click", 1)
    viewer.wants(("tinfo 1 1", "ok 0 0 1 1 0 1 4 4"))
    viewer.server.tool("type", "--delay", 20, "Hello there, World")
    viewer.server.tool("key", "BackSpace", "Return", "x", "Left")
    viewer.wants(("tget 1 1", "ok 48656C6C6F2074686572652C20576F726C0D78"), ("tinfo 1 1", "ok 18 18 1 1 19 2 4 4"))


def text_is_selected_by_dragging(viewer):
    viewer.mouse(33, 50, "mousedown", 1)
    viewer.mouse(50, 52)
    viewer.mouse(63, 50, "mouseup", 1)
    viewer.wants(("tinfo 1 1", "ok 3 8 1 1 19 2 4 4"))
    viewer.mouse(111, 53, "keydown", "shift", "click", 1, "keyup", "shift")
    viewer.wants(("tinfo 1 1", "ok 3 16 1 1 19 2 4 4"))


def a_double_click_takes_a_word_which_is_cut_and_pasted(viewer):
    viewer.mouse(60, 55, "click", "--repeat", 2, "--delay", 60, 1)
    viewer.wants(("tinfo 1 1", "ok 6 12 1 1 19 2 4 4"))
    viewer.server.tool("key", "ctrl+x", "Down", "ctrl+v")
    viewer.wants(("scrap", 'ok "there,"'), ("tget 1 1", "ok 48656C6C6F2020576F726C0D7874686572652C"))


def a_text_goes_up_as_lines_are_typed(viewer):
    viewer.server.tool("key", "Return", "Return", "Return", "a")
    viewer.wants(("tinfo 1 1", "ok 23 23 1 1 23 5 4 -6"), ("cget 1 1", "ok 1 0 1 0 1"))


def a_caret_blinks(viewer):
    lines = len(viewer.written())
    eventually(lambda: viewer.written()[lines:].count(b"\ntidle 1 1 ") >= 2, "a caret that blinks")
    viewer.wants(("tinfo 1 1", "ok 23 23 1 1 23 5 4 -6"))


TESTS = [
    text_is_typed,
    text_is_selected_by_dragging,
    a_double_click_takes_a_word_which_is_cut_and_pasted,
    a_text_goes_up_as_lines_are_typed,
    a_caret_blinks,
]
