"""Tests of desk-test --lint, for kit-tests, and of the forms that desk_kit.forms makes of the manual."""

import os
import shutil

from desk_kit.answers import commands_of
from desk_kit.forms import Forms, Reading, forms
from desk_kit.lint import misformed, strange
from desk_kit.manual import Manual
from desk_kit.rows import folders_in, rows_of
from kit_place import blocks
from place import TOP, same

DESK = "desk 64 64 0\n"
WINDOW = 'window KIND LEFT TOP WIDTH HEIGHT SHOWN GOAWAY "TITLE"'
FILL = "fill LEFT TOP RIGHT BOTTOM MODE PATTERN"
TITLE = 'title WINDOW "TITLE"'
NO_FIL = "there is no operation 'fil', and the nearest is 'fill'"
SPACES = "one space parts a word from the next, and none stands before the first or after the last"
LONG_TITLE = f'title 1 "{"x" * 256}"'
LONG_COMMENT = "#" + "x" * 1024
# Lines behind that of the desk, each with what is said of it; nothing is said of those that are not refused, or for another
# reason.
LINES = [
    ('window plain 2 2 9 6 1 0 "x"', None),
    ("windw plain 1", f"refused 15 BadSyntax: there is no command 'windw', and the nearest is 'window'. The form is: {WINDOW}"),
    ("find 900", "refused 15 BadSyntax: 2 words in place of 3. The form is: find H V"),
    ("find 1 x", "refused 15 BadSyntax. The form is: find H V"),
    ("find 9 9 9", "refused 15 BadSyntax: 4 words in place of 3. The form is: find H V"),
    ("select 7", None),
    ("# windw", None),
    ('window plian 2 2 9 6 1 0 "x"', f"refused 20 NoSuchName. The form is: {WINDOW}"),
    ("draw 1 fil 0 0 4 4 patCopy black", f"refused 15 BadSyntax: {NO_FIL}. The form is: draw WINDOW {FILL}"),
    ("draw 1 fill 0 0 4 4 patCopy", f"refused 15 BadSyntax: 8 words in place of 9. The form is: draw WINDOW {FILL}"),
    ("draw 1 clip 00 fill 0 0 4 4 patCopy blak", f"refused 20 NoSuchName. The form is: draw WINDOW clip HEX {FILL}"),
    ("draw 1 clip", "refused 15 BadSyntax: 3 words in place of 5. The form is: draw WINDOW clip HEX OPERATION"),
    ("draw", "refused 15 BadSyntax: 1 word in place of 3. The form is: draw WINDOW OPERATION"),
    ("xyzzy 1", "refused 15 BadSyntax: there is no command 'xyzzy'"),
    ("find  1 1", f"refused 15 BadSyntax: {SPACES}. The form is: find H V"),
    ("Find 1 1", "refused 15 BadSyntax: there is no command 'Find', and the nearest is 'find'. The form is: find H V"),
    ("image ", f"refused 15 BadSyntax: {SPACES}. The form is: image"),
    ("draw 1 erase 0 0 4 4", None),
    ("\timage", "refused 15 BadSyntax: the byte 09 in column 1 stands in no command. The form is: image"),
    ('title 1 "\xe4"', f"refused 15 BadSyntax: the byte E4 in column 10 stands in no command. The form is: {TITLE}"),
    (LONG_TITLE, f"refused 10 TooLong. The form is: {TITLE}"),
    (LONG_COMMENT, "refused 10 TooLong: the line has 1025 bytes, and 1024 is the most"),
]  # fmt: skip


# Lines of a script that does not say its version, of some that do, and of one whose version there is not.
FLOAT = 'float plain 2 2 9 6 1 0 "x"'
FLOAT_FORM = "float KIND LEFT TOP WIDTH HEIGHT SHOWN GOAWAY \"TITLE\""
OVAL = "draw 1 oval 0 0 8 8 nomode black"
OVAL_FORM = "draw WINDOW oval LEFT TOP RIGHT BOTTOM MODE PATTERN"
CLIPPED = "draw 1 clip 000A0000000000040004 foval 0 0 8 8 1 patCopy black"
CLIPPED_FORM = "draw WINDOW clip HEX foval LEFT TOP RIGHT BOTTOM PENWIDTH PENHEIGHT MODE PATTERN"
REGION = "region rect 0 0 8"
REGION_FORM = "region rect LEFT TOP RIGHT BOTTOM"
ROUND = 'float round 2 30 9 6 1 0 "x"'
BUTTON = 'control 1 rbutton 0 0 9 6 1 0 1 0 "x"'
BUTTON_FORM = 'control WINDOW KIND LEFT TOP WIDTH HEIGHT SHOWN MIN MAX VALUE "TITLE"'
UNVERSIONED = [DESK.rstrip("\n"), FLOAT, "version 2"]
VERSIONED = ["version 2", DESK.rstrip("\n"), FLOAT, "version 2", 'float plain 2 2 9 6 1 0 x', OVAL, REGION, ROUND, BUTTON]
THIRD = ["version 003", DESK.rstrip("\n"), FLOAT, "region oval 0 0 8 8", OVAL, CLIPPED, REGION, "region fill 0 0 8 8", "region"]
NO_VERSION = ["version 4", DESK.rstrip("\n"), OVAL, CLIPPED]


def text_of(line):
    """A line as it is shown: 60 bytes of it at most, between quotes."""
    return f"'{line[:60]}'..." if len(line) > 60 else f"'{line}'".replace("\t", "\\t").replace("\xe4", "\\xe4")


def lines_that_are_refused_are_told_with_their_forms(place):
    place.write("screens/wrong.desk", DESK + "".join(line + "\n" for line, _ in LINES))
    told = [(number, line, said) for number, (line, said) in enumerate(LINES, 2) if said]
    said = [f"FAILED: screens/wrong.desk: line {number}, {text_of(line)}: {said}\n" for number, line, said in told]
    place.says("".join(said) + "0 passed, 1 failed\n", "--lint", "screens")
    same("the files", place.files("screens"), ["wrong.desk"])


def lines_of_another_version_are_told(place):
    place.write("screens/one.desk", "".join(line + "\n" for line in UNVERSIONED))
    place.write("screens/two.desk", "".join(line + "\n" for line in VERSIONED))
    place.write("screens/x3.desk", "".join(line + "\n" for line in THIRD))
    place.write("screens/x4.desk", "".join(line + "\n" for line in NO_VERSION))
    bad = "refused 15 BadSyntax"
    third = f"{bad}: the script does not begin with 'version 3'. The form is"
    version = f"{bad}: it stands before every other command. The form is: version NUMBER"
    told = [
        ("one", 2, FLOAT, f"{bad}: the script does not begin with 'version 2'. The form is: {FLOAT_FORM}"),
        ("one", 3, "version 2", version),
        ("two", 4, "version 2", version),
        ("two", 5, VERSIONED[4], f"{bad}. The form is: {FLOAT_FORM}"),
        ("two", 6, OVAL, f"{third}: {OVAL_FORM}"),
        ("two", 7, REGION, f"{third}: {REGION_FORM}"),
        ("two", 8, ROUND, f"{third.replace('15 BadSyntax', '20 NoSuchName')}: {FLOAT_FORM}"),
        ("two", 9, BUTTON, f"{third.replace('15 BadSyntax', '20 NoSuchName')}: {BUTTON_FORM}"),
        ("x3", 5, OVAL, f"refused 20 NoSuchName. The form is: {OVAL_FORM}"),
        ("x3", 6, CLIPPED, f"{bad}: 12 words in place of 13. The form is: {CLIPPED_FORM}"),
        ("x3", 7, REGION, f"{bad}: 5 words in place of 6. The form is: {REGION_FORM}"),
        ("x3", 8, THIRD[7], f"{bad}: there is no form 'fill'. The form is: region FORM"),
        ("x3", 9, THIRD[8], f"{bad}: 1 word in place of 2. The form is: region FORM"),
        ("x4", 3, OVAL, f"{third}: {OVAL_FORM}"),
        ("x4", 4, CLIPPED, f"{third}: {CLIPPED_FORM}"),
    ]
    failed = "".join(f"FAILED: screens/{name}.desk: line {at}, {text_of(line)}: {why}\n" for name, at, line, why in told)
    place.says(f"{failed}0 passed, 4 failed\n", "--lint", "screens")


def what_is_stored_does_not_matter_to_lint(place):
    place.write("screens/right.desk", DESK + "select 1\nimage\n")
    place.write("screens/right.out", "none of it\n")
    place.write("screens/wrong.desk", DESK + "find 1\n")
    place.write("screens/wrong.out", "ok\nrefused 15 BadSyntax\n")
    place.write("screens/wrong.args", "--raw\n")
    place.write("screens/differences/right.line-3.due.png", "of an earlier run")
    line = "line 2, 'find 1': refused 15 BadSyntax: 2 words in place of 3. The form is: find H V"
    said = f"FAILED: screens/wrong.desk: {line}\n1 passed, 1 failed\n"
    for count in "12":
        place.says(said, "--lint", "--jobs", count, "screens")
    same("what is stored", place.read("screens/right.out"), "none of it\n")
    same("the pictures", place.files("screens/differences"), ["right.line-3.due.png"])


def a_program_that_does_not_answer_is_told_by_lint(place):
    place.write("screens/two.desk", DESK + "find 1 1\n")
    for script, said in [
        ("exit 3", "the status is 3 in place of 0"),
        ("echo ok", "commands: 2, answers: 1"),
        ("echo refused 15 BadSyntax\nprintf 'P1\\n2 2\\n10\\n'", "no whole answer begins with 'P1'"),
    ]:
        place.write("program", f"#!/bin/sh\n{script}\n", 0o755)
        place.says(f"FAILED: screens/two.desk: {said}\n0 passed, 1 failed\n", "--lint", "screens", program="./program")


def lint_needs_the_manual(place):
    shutil.copytree(os.path.join(TOP, "desk_kit"), place.path("desk_kit"))
    shutil.copy(os.path.join(TOP, "desk-test"), place.folder)
    place.write("screens/one.desk", DESK)
    place.write("docs/SCRIPT.md", "# The script\n\nThere are no tables.\n")
    words = ("--program", place.program, "--lint", "screens")
    path = os.path.join(os.path.realpath(place.folder), "docs", "SCRIPT.md")
    said = f"desk-test: {path} has no tables of commands and operations\n"
    same("with no tables", place.call(*words, program="./desk-test"), ("", 2, said))
    os.remove(path)
    said = f"desk-test: the manual cannot be read: [Errno 2] No such file or directory: '{path}'\n"
    same("with no manual", place.call(*words, program="./desk-test"), ("", 2, said))


def the_page_has_what_lint_says(place):
    """The script and the lines of docs/TESTING.md."""
    found = blocks("TESTING.md")
    at = next(at for at, block in enumerate(found) if block.startswith(f"{DESK}windw "))
    place.write("screens/wrong.desk", found[at])
    same("the count of its lines", (found[at].count("\n"), found[at + 1].count("\n")), (5, 5))
    place.says(found[at + 1], "--lint", "screens")


SMALL = """
### `draw WINDOW OPERATION`, `draw WINDOW clip HEX OPERATION`

| OPERATION | Draws |
|---|---|
| `line H V` | a line |

| PATTERN | Black are |
|---|---|
| `gray` | some |

## All commands

Drawing.

| Command | What it does | Answer |
|---|---|---|
| [`draw WINDOW OPERATION`](#a), [`draw WINDOW clip HEX OPERATION`](#a) | draws, as [`no`](#n) command | `ok` |
| [`title WINDOW "TITLE"`](#b) | titles | `ok` |

## Refusals

| Answer | Why |
|---|---|
| `refused 1 NoMemory` | memory ran out |
"""


def the_tables_of_the_manual_are_read(_):
    small = Forms(Manual(SMALL))
    same("the commands", sorted(small.commands.items()), [("draw", "draw WINDOW OPERATION"), ("title", 'title WINDOW "TITLE"')])
    same("the operations", small.inner, {"draw": {"line": "line H V"}})
    same("the versions", (small.versions, small.latest()), ({}, 1))
    for line, form, unknown in [
        ('title 1 "two words"', 'title WINDOW "TITLE"', None),
        ("titl", 'title WINDOW "TITLE"', "there is no command 'titl', and the nearest is 'title'"),
        ("TITLE", 'title WINDOW "TITLE"', "there is no command 'TITLE', and the nearest is 'title'"),
        ("gray", None, "there is no command 'gray'"),
        ("draw 1", "draw WINDOW OPERATION", None),
        ("draw 1 line", "draw WINDOW line H V", None),
        ("draw 1 clip 00 line", "draw WINDOW clip HEX line H V", None),
        ("draw 1 clip 00 lin", "draw WINDOW clip HEX line H V", "there is no operation 'lin', and the nearest is 'line'"),
        ("drw 1 line", "draw WINDOW line H V", "there is no command 'drw', and the nearest is 'draw'"),
        ("draw 1 gray", "draw WINDOW OPERATION", "there is no operation 'gray'"),
        ("  ", None, "there is no command '  '"),
    ]:
        same(f"the reading of {line!r}", small.reading(line), Reading(form, unknown))


def every_line_that_rows_have_answered_has_its_form(_):
    """Those of tests/rows, which were written by hand. A line that is not BadSyntax or TooLong has its form by the manual."""
    its, seen = forms(), set()
    counts = len(its.commands), {command: len(forms) for command, forms in its.inner.items()}
    same("how many commands and inner forms there are", counts, (129, {"draw": 20, "region": 19}))
    drawn = ("round", "oval", "frect", "fround", "foval", "arc", "farc", "line", "poly", "fpoly", "frgn")
    kinds = ("window round", "float round", "control rbutton")
    texts = (
        "drawt text tplace tdispose tshow thide tset tinsert tdelete tkey tcut tcopy tpaste tselect tactive tidle tjust tscroll"
        " tview tclick tstep tend tget tinfo tline tpoint toffset scrap setscrap textwidth fontinfo"
    ).split()
    later = {"float": 2, "region": 3, **dict.fromkeys([*texts, *(f"draw {it}" for it in drawn), *kinds], 3)}
    same("those of later versions", its.versions, later)
    for folder in folders_in(os.path.join(TOP, "tests", "rows")):
        for row in rows_of(folder):
            due = (row.output() or b"").split(b"\n")
            commands = commands_of(row.script())
            if row.part(".args") is None and len(due) == len(commands) + 1:
                for command, answer in zip(commands, due):
                    if not answer.endswith((b"BadSyntax", b"TooLong")):
                        seen.add(command.text.decode("latin-1"))
    for line in sorted(seen):
        reading = its.reading(line)
        found = reading.unknown, misformed(line, reading.form or ""), strange(line.encode("latin-1"))
        same(f"what is said of {line!r}", found, (None, "", ""))
    same("whether there are many", len(seen) > 500, True)


TESTS = [
    lines_that_are_refused_are_told_with_their_forms,
    lines_of_another_version_are_told,
    what_is_stored_does_not_matter_to_lint,
    a_program_that_does_not_answer_is_told_by_lint,
    lint_needs_the_manual,
    the_page_has_what_lint_says,
    the_tables_of_the_manual_are_read,
    every_line_that_rows_have_answered_has_its_form,
]
