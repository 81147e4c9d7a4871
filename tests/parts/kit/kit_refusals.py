"""Tests of what is said of refused lines, for kit-tests: where the answers of a script are looked through, where tests are
stored, and in the exception of the package."""

import os
import pickle
import shutil
import subprocess
import sys

from desk_kit import Desk, Refused
from desk_kit.answers import Fault
from desk_kit.forms import forms
from desk_kit.lint import byte_order_mark, refusals
from kit_place import blocks
from place import TOP, same

FIND = "The form is: find H V"
# A script with what it is answered. The third line is a comment, and the fourth is empty.
SCRIPT = b"desk 8 8 0\r\nfind 9\n# find\n\nselect 7\nwindow plian 1 1 6 6 1 0 \"\"\nimage\nfind 1 1 1"
ANSWERS = b"ok\nrefused 15 BadSyntax\nrefused 2 NoSuchWindow\nrefused 20 NoSuchName\nP1\n2 2\n10\n01\nrefused 15 BadSyntax\n"


def every_refused_line_of_a_script_is_told(_):
    window = 'window KIND LEFT TOP WIDTH HEIGHT SHOWN GOAWAY "TITLE"'
    wanted = [
        (2, f"line 2, 'find 9': refused 15 BadSyntax: 2 words in place of 3. {FIND}", True),
        (5, "line 5, 'select 7': refused 2 NoSuchWindow", False),
        (6, f"""line 6, 'window plian 1 1 6 6 1 0 ""': refused 20 NoSuchName. The form is: {window}""", True),
        (8, f"line 8, 'find 1 1 1': refused 15 BadSyntax: 4 words in place of 3. {FIND}", True),
    ]
    same("those of a script", [tuple(it) for it in refusals(SCRIPT, ANSWERS, forms())], wanted)
    cut = ANSWERS[: ANSWERS.index(b"P1")] + b"P1\n2 2\n10\n"
    same("those of a run that broke off", [tuple(it) for it in refusals(SCRIPT, cut, forms())], wanted[:3])
    same("those of no script", refusals(b"", b"", forms()), [])
    bare = [
        "line 2, 'find 9': refused 15 BadSyntax",
        "line 5, 'select 7': refused 2 NoSuchWindow",
        """line 6, 'window plian 1 1 6 6 1 0 ""': refused 20 NoSuchName""",
    ]
    same("those without a manual", [it.sentence for it in refusals(SCRIPT, cut, None)], bare)


MARK = "\xef\xbb\xbf"
MARKED = "it begins with a byte order mark, the bytes EF BB BF, which no command has: save the script without one"
DESK_FORM = "The form is: desk WIDTH HEIGHT BAR"


def refusals_that_are_stored_are_warned_of(place):
    place.write("screens/some.desk", "desk 8 8 0\nfind 9\nclose 7\nimag\nfind 1 1\n")
    find = f"line 2, 'find 9': refused 15 BadSyntax: 2 words in place of 3. {FIND}"
    image = "line 4, 'imag': refused 15 BadSyntax: there is no command 'imag', and the nearest is 'image'. The form is: image"
    warnings = f"warning: screens/some.desk: {find}\nwarning: screens/some.desk: {image}\n"
    place.says(f"new: screens/some.out\n{warnings}1 passed, 0 failed\n", "--accept", "screens")
    stored = "ok\nrefused 15 BadSyntax\nrefused 2 NoSuchWindow\nrefused 15 BadSyntax\nok 0 0\n"
    same("what is stored", place.read("screens/some.out"), stored)
    place.says(f"the same: screens/some.out\n{warnings}1 passed, 0 failed\n", "--accept", "screens")
    place.says("1 passed, 0 failed\n", "screens")
    place.write("screens/some.desk", "desk 8 8 0\nfind 9\nclose 7\nimag\n# find 1\nfind 8 8\nfind 1 1\n")
    said = "changed: screens/some.out: line 7, 'find 1 1': 'ok 0 0' in place of nothing\n"
    place.says(f"{said}{warnings}1 passed, 0 failed\n", "--accept", "screens")
    place.write("screens/some.args", "--raw\n")
    said = "changed: screens/some.out: standard output differs at byte 1, in line 1: '' in place of 'ok'\n"
    place.says(f"{said}1 passed, 0 failed\n", "--accept", "screens")


def tests_are_stored_without_a_manual(place):
    shutil.copytree(os.path.join(TOP, "desk_kit"), place.path("desk_kit"))
    shutil.copy(os.path.join(TOP, "desk-test"), place.folder)
    place.write("screens/one.desk", "find 9\n")
    out = "new: screens/one.out\nwarning: screens/one.desk: line 1, 'find 9': refused 15 BadSyntax\n1 passed, 0 failed\n"
    same("what is said", place.call("--program", place.program, "--accept", "screens", program="./desk-test"), (out, 0, ""))


def a_byte_order_mark_is_named(place):
    same("of a script", [byte_order_mark(it) for it in (b"\xef\xbb\xbf# a", b"\xef\xbb", b"desk 8 8 0")], [MARKED, "", ""])
    place.write("screens/mark.desk", f"{MARK}desk 8 8 0\nfind 1 1\n")
    line = f"line 1, '\\xef\\xbb\\xbfdesk 8 8 0': refused 15 BadSyntax: {MARKED}. {DESK_FORM}"
    place.says(f"FAILED: screens/mark.desk: {line}\n0 passed, 1 failed\n", "--lint", "screens")
    place.says(f"new: screens/mark.out\nwarning: screens/mark.desk: {line}\n1 passed, 0 failed\n", "--accept", "screens")
    place.says(f"warning: screens/mark.desk: {MARKED}\n1 passed, 0 failed\n", "screens")
    place.write("screens/mark.out", "ok\nok 0 0\n")
    differs = "line 1, '\\xef\\xbb\\xbfdesk 8 8 0': 'refused 15 BadSyntax' in place of 'ok'"
    said = f"warning: screens/mark.desk: {MARKED}\nFAILED: screens/mark.desk: {differs}\n0 passed, 1 failed\n"
    place.says(said, "screens")
    # A comment behind the mark is none.
    place.write("screens/mark.desk", f"{MARK}# A comment\n")
    place.write("screens/mark.args", "--raw\n")
    place.write("screens/mark.hex", "")
    os.remove(place.path("screens/mark.out"))
    place.says(f"the same: screens/mark.hex\nwarning: screens/mark.desk: {MARKED}\n1 passed, 0 failed\n", "--accept", "screens")


def the_pages_have_what_is_said(place):
    """The warnings of docs/TESTING.md, and the exception of docs/PYTHON.md."""
    page, text = blocks("TESTING.md"), blocks("PYTHON.md")
    place.write("screens/find.desk", "desk 8 8 0\nfind 9\n")
    place.says(next(it for it in page if "warning: screens/find.desk" in it), "--accept", "screens")
    place.write("screens/mark.desk", f"{MARK}desk 8 8 0\n")
    place.write("screens/mark.out", "refused 15 BadSyntax\n")
    marked = next(it for it in page if "warning: screens/mark.desk" in it)
    place.says(f"{marked}2 passed, 0 failed\n", "screens")
    same("whether the exception is there", f"{Refused('find 9', 15, 'BadSyntax')}\n" in text, True)


def a_refusal_in_python_has_its_form(place):
    long = "x" * 256
    for line, number, name, form in [
        ("find 9", 15, "BadSyntax", "find H V"),
        ("imag", 15, "BadSyntax", "image"),
        ('window plian 1 1 6 6 1 0 ""', 20, "NoSuchName", 'window KIND LEFT TOP WIDTH HEIGHT SHOWN GOAWAY "TITLE"'),
        (f'menu 1 "{long}"', 10, "TooLong", 'menu ID "TITLE"'),
        ("xyzzy", 15, "BadSyntax", None),
        ("close 7", 2, "NoSuchWindow", None),
    ]:
        with Desk(place.program, raises=True) as desk:
            try:
                raise Fault(f"{line} is answered {desk.ask(line)}")
            except Refused as why:
                same(f"what {line} carries", (why.line, why.number, why.name, why.form), (line, number, name, form))
                more = f". The form is: {form}" if form else ""
                same(f"what {line} says", str(why), f"{line!r} is refused: {number} {name}{more}")
                same(f"a copy of {line}", str(pickle.loads(pickle.dumps(why))), str(why))


def a_package_without_a_manual_has_no_form(place):
    shutil.copytree(os.path.join(TOP, "desk_kit"), place.path("desk_kit"))
    asks = "from desk_kit import Refused; why = Refused('find 9', 15, 'BadSyntax'); print(why.form, why)"
    ran = subprocess.run([sys.executable, "-B", "-c", asks], cwd=place.folder, capture_output=True)
    said = b"None 'find 9' is refused: 15 BadSyntax\n"
    same("what is said", (ran.returncode, ran.stdout, ran.stderr), (0, said, b""))


def a_form_is_read_only_for_a_refusal(place):
    """The manual is read once a form is asked for, and not before."""
    asks = """import sys
from desk_kit import Desk, Refused
from desk_kit.forms import forms_if_any
with Desk(sys.argv[1], raises=True) as desk:
    desk.ask("desk 8 8 0")
    try:
        desk.ask("close 7")
    except Refused as why:
        print(why, forms_if_any.cache_info().misses)
    try:
        desk.ask("find 9")
    except Refused as why:
        print(forms_if_any.cache_info().misses, why.form, why.form, forms_if_any.cache_info().misses)
"""
    variables = {**os.environ, "PYTHONPATH": TOP}
    ran = subprocess.run([sys.executable, "-B", "-c", asks, place.program], capture_output=True, env=variables)
    said = b"'close 7' is refused: 2 NoSuchWindow 0\n0 find H V find H V 1\n"
    same("what is said", (ran.returncode, ran.stdout, ran.stderr), (0, said, b""))


TESTS = [
    every_refused_line_of_a_script_is_told,
    refusals_that_are_stored_are_warned_of,
    tests_are_stored_without_a_manual,
    a_byte_order_mark_is_named,
    the_pages_have_what_is_said,
    a_refusal_in_python_has_its_form,
    a_package_without_a_manual_has_no_form,
    a_form_is_read_only_for_a_refusal,
]
