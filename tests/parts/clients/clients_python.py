"""Tests of the class Desk of desk_kit, for clients. What is due is worked out by hand, from docs/SCRIPT.md."""

import os

from clients_place import faults
from desk_kit import Desk, Fault, Refused
from desk_kit.desk import program_to_drive
from desk_kit.pictures import images, pixels_of
from desk_kit.rows import Row
from place import TOP, same

CLOSED = "the desk is closed, or did not answer an earlier line to its end"
SQUARE = ["11111111", "10000001", "10000001", "10011001", "10011001", "10000001", "10000001", "11111111"]
SHORT = 0.3


def refused(what, wanted, call, *words, **named):
    """Wants this call to be refused, for this line, number and name."""
    try:
        found = call(*words, **named)
    except Refused as why:
        same(what, (why.line, why.number, why.name), wanted)
        return
    raise Fault(f"{what}: {found!r} in place of a refusal")


def lines_are_answered(place):
    wanted = {
        "desk 9 9 0": "ok",
        'window plain 2 2 4 3 1 0 ""': "ok 1",
        "find 5 4": "ok 3 1",
        "find 6 4": "ok 0 1",
        "find 8 8\r": "ok 0 0",
        "info 1": "ok 2 2 4 3 1 1",
        "": "",
        "\r": "",
        "# é": "",
        "close é": "refused 15 BadSyntax",
        "#" * 1025: "refused 10 TooLong",
        "x" * 200_000: "refused 10 TooLong",
        "close 7": "refused 2 NoSuchWindow",
        "frontwin": "ok 1",
    }
    with Desk(place.program) as desk:
        for line, answer in wanted.items():
            same(line, desk.ask(line), answer)
        same("the program", (desk.program, desk.is_proved), (place.program, None))


def texts_are_edited(place):
    """Bytes that a text has no sign for are hex digits, in a line and in an answer."""
    wanted = {
        "version 3": "ok",
        "desk 64 32 0": "ok",
        'window plain 1 1 60 28 1 0 ""': "ok 1",
        "text 1 2 2 50 2 2 50 20 0 1": "ok 1",
        "tset 1 1 610D62": "ok",
        "tkey 1 1 99": "ok",
        "tget 1 1": "ok 610D6263",
        "tinfo 1 1": "ok 4 4 0 1 4 2 2 2",
        "tclick 1 1 4 15 2": "ok 1",
        "tend 4 15": "ok 2 4",
        "tcut 1 1": "ok",
        "scrap": 'ok "bc"',
    }
    with Desk(place.program) as desk:
        for line, answer in wanted.items():
            same(line, desk.ask(line), answer)
        refused("another record", ("tget 1 2", 21, "NoSuchText"), desk.ask, "tget 1 2", raises=True)


def a_refusal_is_an_exception_where_that_is_asked_for(place):
    wanted = ("close 7", 2, "NoSuchWindow")
    with Desk(place.program, raises=True) as desk:
        same("the desk", desk.ask("desk 8 8 0"), "ok")
        refused("of the desk", wanted, desk.ask, "close 7")
        same("but not of the call", desk.ask("close 7", raises=False), "refused 2 NoSuchWindow")
        same("afterwards", desk.ask("frontwin"), "ok 0")
    with Desk(place.program) as desk:
        desk.ask("desk 8 8 0")
        refused("of the call", wanted, desk.ask, "close 7", raises=True)
        same("afterwards", desk.ask("frontwin"), "ok 0")
    same("what it says", str(Refused(*wanted)), "'close 7' is refused: 2 NoSuchWindow")
    none = place.shell("no-memory", "while read line; do echo refused 1 NoMemory; done")
    with Desk(none) as desk:
        refused("an image", ("image", 1, "NoMemory"), desk.image)
        refused("a picture", ("image", 1, "NoMemory"), desk.png)
        same("a line", desk.ask("image"), "refused 1 NoMemory")


def the_screen_is_rows_and_a_picture(place):
    with Desk(place.program) as desk:
        for line in ("desk 8 8 0", 'window plain 1 1 6 6 1 0 ""', "draw 1 fill 2 2 4 4 patCopy black"):
            same(line, desk.ask(line)[:2], "ok")
        same("the rows", desk.image(), SQUARE)
        same("the picture", pixels_of(desk.png()), SQUARE)
        tall = [row for row in SQUARE for _ in range(3)]
        same("a larger one", pixels_of(desk.png(scale=3)), ["".join(3 * bit for bit in row) for row in tall])
        same("the answer", desk.ask("image"), "P1\n8 8\n" + "\n".join(SQUARE))


def screens_of_all_sizes_are_whole(place):
    """A desktop alone is gray: every other pixel is black, the first one among them. A row of 71 takes two lines."""
    for width, height in ((70, 8), (71, 9), (140, 8), (1024, 1024)):
        with Desk(place.program) as desk:
            desk.ask(f"desk {width} {height} 0", raises=True)
            rows = [(text * width)[:width] for text in ("10", "01")]
            same(f"{width} by {height}", desk.image() == [rows[v % 2] for v in range(height)], True)


def a_font_is_that_of_its_file(place):
    row = Row(os.path.join(TOP, "tests", "rows", "fonts", "text-in-a-font"))
    font = os.fsdecode(row.font(place.folder))
    with Desk(place.program, font=font) as desk:
        for line in row.script().decode("ascii").splitlines():
            if line != "image":
                desk.ask(line, raises=True)
        same("the image", desk.image(), images(row.output())[-1])
    with Desk(place.program, font=place.path("none")) as desk:
        said = f"{place.program} has ended, with status 1: desk: 18 ReadFault"
        faults("no font", said, desk.ask, "desk 8 8 0")


def more_than_a_line_is_told(place):
    with Desk(place.program) as desk:
        desk.ask("desk 8 8 0")
        try:
            raise Fault(f"{desk.ask('find 1 1' + chr(10))!r} in place of a ValueError")
        except ValueError as fault:
            same("what is said", str(fault), "more than one line: 'find 1 1\\n'")
        same("afterwards", desk.ask("find 1 1"), "ok 0 0")


def nothing_is_asked_behind_an_answer_that_is_not_whole(place):
    late = place.shell("late", "while read line; do sleep 1; echo ok $line; done")
    with Desk(late, seconds=SHORT) as desk:
        faults("an answer that is late", f"{late} does not answer within {SHORT} seconds", desk.ask, "frontwin")
        faults("the next line", CLOSED, desk.ask, "find 1 1")
    with Desk(place.program) as desk:
        desk.ask("desk 8 8 0")
        desk.close()
        faults("a closed desk", CLOSED, desk.ask, "find 1 1")


def what_is_no_answer_is_told(place):
    ends = place.shell("ends", "read line; echo ok; read line; echo why >&2; exit 3")
    with Desk(ends) as desk:
        same("the first", desk.ask("desk 8 8 0"), "ok")
        faults("the second", f"{ends} has ended, with status 3: why", desk.ask, "frontwin")
        faults("the third", CLOSED, desk.ask, "frontwin")
    other = place.shell("other", "while read line; do echo refused x; done")
    with Desk(other) as desk:
        said = "there is the answer 'refused x', which is none of a desk"
        faults("a refusal without a number", said, desk.ask, "frontwin", raises=True)
        same("not asked for", desk.ask("frontwin"), "refused x")
    with Desk(place.shell("ok", "while read line; do echo ok; done")) as desk:
        faults("no image", "in place of an image there is the answer 'ok'", desk.image)


def the_program_is_named_or_found(place):
    faults("none of this name", "there is no program no/desk that can be run", Desk, "no/desk")
    tree = place.write("no-tree", "")
    usual = os.environ["PATH"]
    try:
        os.environ["PATH"] = place.folder
        faults("none on the PATH", "there is no program desk on the PATH", program_to_drive, None, tree)
        desk = place.shell("desk", "exit 3")
        same("the one on the PATH", program_to_drive(None, tree), (desk, None))
        same("by its name", program_to_drive("desk", tree), (desk, None))
    finally:
        os.environ["PATH"] = usual
    none = f"{desk} has no program to run, and standard error has the reason"
    faults("a tree without one", none, program_to_drive, None, desk)
    for how, is_proved in (("proved", True), ("unproved", False)):
        place.shell("desk", f"[ \"$*\" = --which ] && echo {how} '{place.program}'")
        same(f"one that is {how}", program_to_drive(None, desk), (place.program, is_proved))


TESTS = [
    lines_are_answered,
    texts_are_edited,
    a_refusal_is_an_exception_where_that_is_asked_for,
    the_screen_is_rows_and_a_picture,
    screens_of_all_sizes_are_whole,
    a_font_is_that_of_its_file,
    more_than_a_line_is_told,
    nothing_is_asked_behind_an_answer_that_is_not_whole,
    what_is_no_answer_is_told,
    the_program_is_named_or_found,
]
