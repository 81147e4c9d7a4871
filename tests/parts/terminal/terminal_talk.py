"""Tests of desk-talk over a script, of what it saves as one, of its pager, and of how the tools name a byte order mark, for
terminal."""

import os
import subprocess
import time

from place import TOP, Skipped, same
from terminal_kit import SQUARE_BLOCKS, SQUARE_IMAGE, Terminal

FIND = "refused 15 BadSyntax: 2 words in place of 3. The form is: find H V"
NO_WINDOW = "refused 2 NoSuchWindow: no window has this number, or none has it any more"
# A script with two lines that are refused, of which the first one is mistyped; and what is said of these.
SCRIPT = '# A window\n\ndesk 8 8 0\nfind 9\nclose 7\nwindow plain 1 1 6 6 1 0 ""\n'
TOLD = f"one.desk: line 4, 'find 9': {FIND}\none.desk: line 5, 'close 7': {NO_WINDOW}\n"
MARKED = "it begins with a byte order mark, the bytes EF BB BF, which no command has: save the script without one"


def a_talk_goes_on_from_a_script(place):
    place.write("one.desk", SCRIPT)
    place.write("no-newline.desk", SCRIPT.rstrip("\n"))
    place.write("empty.desk", "")
    given = "find 4 4\nquit 1\nfind 1\nexit\nfind 1 1\n"
    quit_form = "line 2, 'quit 1': quit: ends, as the end of the input does"
    said = f"ok 3 1\n{quit_form}\nline 3, 'find 1': {FIND}\n"
    same("what is said", place.call("desk-talk", "one.desk", given=given), (0, TOLD + said, ""))
    same("without a newline", place.call("desk-talk", "no-newline.desk", given="find 4 4\n")[1].split("\n")[-2], "ok 3 1")
    same("of none", place.call("desk-talk", "empty.desk", given="frontwin\n"), (0, "ok 0\n", ""))
    missing = "desk-talk: the script gone.desk cannot be read: No such file or directory.\n"
    same("of one that is not there", place.call("desk-talk", "gone.desk", given="find 4 4\n"), (1, "", missing))
    # The words of the prompt are none of a script's.
    place.write("own.desk", "quit\nsave x.png\n")
    out = place.call("desk-talk", "own.desk", given="frontwin\n")
    no_quit = out[1].split("\n")[0]
    same("its first line", no_quit, "own.desk: line 1, 'quit': refused 15 BadSyntax: there is no command 'quit'")
    same("its last line", (out[0], out[1].split("\n")[-2], out[2]), (0, "ok 0", ""))
    same("the files", place.files(), ["empty.desk", "no-newline.desk", "one.desk", "own.desk"])


def bytes_of(place, name):
    with open(place.path(name), "rb") as file:
        return file.read()


def what_was_typed_is_saved_as_a_script(place):
    place.write("one.desk", SCRIPT)
    given = 'draw 1 fill 2 2 4 4 patCopy black\nfind 1\nwindow plian 1 1 6 6 1 0 ""\n# black\n\n'
    given += "help find\nimage\r\nselect 9\n"
    given += "save one.png\nsave two.desk\nfind 4 4\nsave three.desk\n"
    status, out, error = place.call("desk-talk", "one.desk", given=given)
    said = "saved one.png\nsaved two.desk\nok 3 1\nsaved three.desk\n"
    same("the end", (status, out[-len(said) :], error), (0, said, ""))
    kept = '# A window\n\ndesk 8 8 0\nclose 7\nwindow plain 1 1 6 6 1 0 ""\n'
    kept += "draw 1 fill 2 2 4 4 patCopy black\n# black\n\nimage\r\nselect 9\nimage\n"
    same("what is saved", bytes_of(place, "two.desk"), kept.encode())
    same("what is saved then", bytes_of(place, "three.desk"), f"{kept}find 4 4\n".encode())
    ran = subprocess.run([place.program, "three.desk"], cwd=place.folder, capture_output=True)
    image = "P1\n8 8\n" + "".join(f"{row}\n" for row in SQUARE_IMAGE)
    answers = f"ok\nrefused 2 NoSuchWindow\nok 1\nok\n{image}refused 2 NoSuchWindow\n{image}ok 3 1\n"
    same("what it is answered", (ran.returncode, ran.stdout.decode()), (0, answers))
    out = "".join(f"{row}\n" for row in SQUARE_BLOCKS)
    same("a talk over it", place.call("desk-talk", "three.desk", given="image\n")[1].endswith(f"\n{out}"), True)


def a_desk_that_a_line_made_is_made_by_what_is_saved(place):
    """A line that is mistyped makes no desk, and one whose title is too long makes it; so does an image that is saved."""
    busy = "refused 11 Busy"
    for first, answers in [
        ("find 9", ["ok"]),
        (f'window plain 1 1 6 6 1 0 "{"x" * 256}"', ["refused 10 TooLong", busy]),
        ("save one.png", ["P1", busy]),
    ]:
        said = place.call("desk-talk", given=f"{first}\ndesk 8 8 0\nsave it.desk\n")[1].split("\n")
        same(f"whether the desk is refused behind {first[:9]}", "Busy" in said[1], busy in answers)
        ran = subprocess.run([place.program, "it.desk"], cwd=place.folder, capture_output=True)
        lines = ran.stdout.decode().split("\n")[:-1]
        same(f"what is answered behind {first[:9]}", [lines[0], lines[-1]], [answers[0], answers[-1]])


def a_name_that_is_no_ascii_is_saved_so(place):
    out = place.call("desk-talk", given="desk 8 8 0\nsave ä ö.desk\nsave é.png\nsave no/é.desk\n")
    cannot = "line 4, 'save no/\\xc3\\xa9.desk': nothing is saved: no/é.desk: No such file or directory"
    same("what is said", out, (0, f"ok\nsaved ä ö.desk\nsaved é.png\n{cannot}\n", ""))
    same("the files", place.files(), ["ä ö.desk", "é.png"])


def long_help_is_shown_by_the_pager(place):
    """The terminal has 24 rows. The pager keeps what it is given, and says how many lines that is."""
    place.write("keeps", f'#!/bin/sh\ntee "{place.path("kept")}" | wc -l\nexit "$1"\n', 0o755)
    talk = [os.path.join(TOP, "desk-talk"), "--program", place.program]
    manual = place.call("desk-talk", given="help\n")[1]
    for pager, is_used, is_shown in [("'{}' 0", True, False), ("'{}' 127", True, True), ("", False, True), ("  ", False, True)]:
        os.environ["PAGER"] = pager.format(place.path("keeps"))
        try:
            with Terminal(talk) as terminal:
                terminal.until("desk> ")
                terminal.type("help\r")
                said = terminal.until("desk> ")
                same(f"{pager!r}: whether it is used", os.path.exists(place.path("kept")), is_used)
                same(f"{pager!r}: whether all is shown", "This prompt\n" in said, is_shown)
                if is_used:
                    kept = place.read("kept")
                    same("its words", kept.split(), manual.split())
                    same("how many lines it says", f"\n{kept.count(chr(10))}\n" in said, True)
                    os.remove(place.path("kept"))
                terminal.type("help frontwin\r")
                same(f"{pager!r}: what is short", "frontwin\n\n" in terminal.until("desk> "), True)
                same(f"{pager!r}: whether that is paged", os.path.exists(place.path("kept")), False)
                terminal.type("\004")
                same("its status", terminal.status(), 0)
        finally:
            del os.environ["PAGER"]


def a_pager_that_is_left_or_interrupted_leaves_the_prompt(place):
    """It reads nothing. An interrupt of the terminal ends it, and not the talk."""
    place.write("waits", "#!/bin/sh\necho here\nexec sleep 90\n", 0o755)
    place.write("leaves", "#!/bin/sh\necho gone\n", 0o755)
    for name, said in (("waits", "here\n"), ("leaves", "gone\n")):
        os.environ["PAGER"] = place.path(name)
        try:
            with Terminal([os.path.join(TOP, "desk-talk"), "--program", place.program]) as terminal:
                terminal.until("desk> ")
                terminal.type("help\r")
                terminal.until(said)
                if name == "waits":
                    time.sleep(0.2)
                    terminal.type("\003")
                terminal.until("desk> ")
                terminal.type("frontwin\r")
                same(f"behind {name}", terminal.until("desk> "), "frontwin\nok 0\ndesk> ")
                terminal.type("exit\r")
                same("its status", terminal.status(), 0)
        finally:
            del os.environ["PAGER"]


def no_pager_is_used_where_there_is_no_terminal(place):
    place.write("keeps", f'#!/bin/sh\ncat > "{place.path("kept")}"\n', 0o755)
    os.environ["PAGER"] = place.path("keeps")
    try:
        same("its last line", place.call("desk-talk", given="help\n")[1].split("\n")[-2], "  exit: ends, as quit does")
    finally:
        del os.environ["PAGER"]
    same("the files", place.files(), ["keeps"])


def the_page_shows_a_talk(place):
    """The talk of docs/TERMINAL.md, whose last line is refused, and that line where it is read from a file."""
    with open(os.path.join(TOP, "docs", "TERMINAL.md"), encoding="utf-8") as file:
        text = file.read()
    lines = text[text.index("    desk> desk 8 8 0\n") :].partition("\n\n")[0].split("\n")
    typed = [line.removeprefix("    desk> ") for line in lines if line.startswith("    desk> ")]
    same("how many are typed", (len(typed), typed[-1]), (4, "find 9"))
    given = "".join(line + "\n" for line in typed)
    *said, refused = [line.removeprefix("    ") for line in lines if not line.startswith("    desk> ")]
    numbered = f"line 4, 'find 9': {refused}\n"
    same("what is said", place.call("desk-talk", given=given), (0, "\n".join(said) + f"\n{numbered}", ""))
    same("whether the page has the line", f"\n    {numbered}" in text, True)


def the_tools_name_a_byte_order_mark(place):
    """desk-web and desk-view find no program or no display then."""
    place.write("mark.desk", "\ufeffdesk 8 8 0\nfrontwin\n")
    line = f"line 1, '\\xef\\xbb\\xbfdesk 8 8 0': refused 15 BadSyntax: {MARKED}. The form is: desk WIDTH HEIGHT BAR\n"
    same("desk-talk", place.call("desk-talk", "mark.desk"), (0, f"mark.desk: {line}", ""))
    same("what it reads", place.call("desk-talk", given=place.read("mark.desk")), (0, f"{line}ok 0\n", ""))
    status, out, error = place.call("desk-web", "--program", "no/program", "mark.desk", over=False)
    same("desk-web", (status, out, error.split("\n")[0]), (3, "", f"desk-web: mark.desk: {MARKED}"))
    kept = {name: value for name, value in os.environ.items() if name != "DISPLAY"}
    words = [os.path.join(TOP, "desk-view"), "mark.desk"]
    ran = subprocess.run(words, cwd=place.folder, env=kept, capture_output=True)
    lines = ran.stderr.decode().split("\n")
    if "tkinter" in lines[0]:
        raise Skipped("no Python here has Tk", "python3-tk")
    same("desk-view", (ran.returncode, lines[0]), (3, f"desk-view: mark.desk: {MARKED}"))


TESTS = [
    a_talk_goes_on_from_a_script,
    what_was_typed_is_saved_as_a_script,
    a_desk_that_a_line_made_is_made_by_what_is_saved,
    a_name_that_is_no_ascii_is_saved_so,
    long_help_is_shown_by_the_pager,
    a_pager_that_is_left_or_interrupted_leaves_the_prompt,
    no_pager_is_used_where_there_is_no_terminal,
    the_page_shows_a_talk,
    the_tools_name_a_byte_order_mark,
]
