"""Tests of scripts of version 1 over the program, for resources: what is written is not refused there, and what is left out for
its range would be."""

import subprocess

from desk_kit.resources import opened, script_of
from place import same
from resources_made import Made, fork, of_hex, pascal
from resources_types import BUTTON, ICON, MENU, SIDES

LEAST, MOST = -16384, 16383
# How far each kind of window reaches past its content, to the left, up, to the right and down, and its definition.
KINDS = {
    "document": (0, (1, 19, 1, 1)), "dialog": (1, (8, 8, 8, 8)), "plain": (2, (1, 1, 1, 1)), "shadow": (3, (1, 1, 3, 3)),
    "nogrow": (4, (1, 19, 1, 1)), "zoom": (8, (1, 19, 1, 1)),
}  # fmt: skip


def rect_of(left, top, right, bottom):
    """The bytes of a rectangle."""
    return b"".join(it.to_bytes(2, "big", signed=True) for it in (top, left, bottom, right))


def at_the_edges(around, farther):
    """Rectangles of 20 by 30 at each edge of the coordinates, and so much farther; and the two that are as wide, or as high, as
    one may be, and so much more."""
    left, up, right, down = around
    first, top = LEAST + left - farther, LEAST + up - farther
    last, bottom = MOST - right + farther, MOST - down + farther
    yield first, 100, first + 20, 130
    yield 100, top, 120, top + 30
    yield last - 20, 100, last, 130
    yield 100, bottom - 30, 120, bottom
    yield -100, 100, MOST - right + farther - 100, 130
    yield 100, -100, 120, MOST - down + farther - 100


def answers(place, lines):
    """What the program answers to these lines, and to the check behind them."""
    given = "".join(f"{it}\n" for it in lines)
    ran = subprocess.run([place.program, "--check"], input=given.encode("utf-8"), capture_output=True, timeout=60)
    same("the run", (ran.returncode, ran.stderr), (0, b""))
    return ran.stdout.decode().splitlines()


def no_line_is_refused(place, what, lines):
    """A script of which each line is done, and after which the screen is right."""
    found = answers(place, lines)
    same(what, ([it for it in found if it.startswith("refused")], found[-1]), ([], "check 0"))


def windows_reach_the_edges_and_no_farther(place):
    for kind, (definition, around) in KINDS.items():
        rest = definition.to_bytes(2, "big") + of_hex("0100 0000 00000000 00")
        inside = [Made(b"WIND", it, rect_of(*sides) + rest) for it, sides in enumerate(at_the_edges(around, 0))]
        script = script_of(opened(fork(*inside)).resources)
        same(f"what is told of {kind}", [it.why for it in script.told], [])
        no_line_is_refused(place, f"the windows of {kind}", script.finished())
        for number, sides in enumerate(at_the_edges(around, 1)):
            (told,) = script_of(opened(fork(Made(b"WIND", 1, rect_of(*sides) + rest))).resources).told
            same(f"{kind}, edge {number}", told.why, "its window would lie outside of the coordinates -16384..16383")
            left, top, right, bottom = sides
            line = f'window {kind} {left} {top} {right - left} {bottom - top} 1 0 ""'
            same(line, answers(place, [line])[:1], ["refused 8 OutOfRange"])


def controls_reach_the_edges_and_no_farther(place):
    window = Made(b"WIND", 1, of_hex(f"{SIDES} 0002 0100 0000 00000000 00"))
    head = ["window plain 40 20 160 60 1 0 \"\""]
    for sides, is_in in [
        ((LEAST, 0, LEAST + 1, 1), True),
        ((MOST - 41, 0, MOST - 40, 1), True),
        ((MOST - 40, 0, MOST - 39, 1), False),
        ((0, MOST - 21, 1, MOST - 20), True),
        ((0, MOST - 20, 1, MOST - 19), False),
        ((0, 0, 1024, 1024), True),
        ((0, 0, 1025, 10), False),
        ((0, 0, 10, 1025), False),
        ((0, 0, 0, 10), False),
    ]:
        control = Made(b"CNTL", 2, rect_of(*sides) + BUTTON[8:])
        script = script_of(opened(fork(window, control)).resources)
        same(f"what is told of {sides}", len(script.told), 0 if is_in else 1)
        left, top, right, bottom = sides
        line = f'control 1 button {left} {top} {right - left} {bottom - top} 1 0 1 0 "OK"'
        same(line, answers(place, [*head, line])[1], "ok 1" if is_in else "refused 8 OutOfRange")
        no_line_is_refused(place, f"the script of {sides}", script.finished())


def a_script_has_as_many_as_a_desk(place):
    """More menus, windows, controls and images than a desk has room for: what is left out is told."""
    menus = [Made(b"MENU", it, it.to_bytes(2, "big") + MENU[2:]) for it in range(1, 19)]
    windows = [Made(b"WIND", it, of_hex(f"{SIDES} {it % 4 + 1:04X} 0100 0000 00000000 00")) for it in range(1, 71)]
    controls = [Made(b"CNTL", it, BUTTON) for it in range(1, 67)]
    bar = Made(b"MBAR", 1, b"".join(it.to_bytes(2, "big") for it in (16, *range(1, 17))))
    script = script_of(opened(fork(bar, *menus, *windows, *controls)).resources)
    told = [it.why for it in script.told if "stands" not in it.why and "no counterpart" not in it.why]
    wanted = ["a desk has 16 menus, and there are as many"] * 2
    wanted += [f"a script has 16 windows of the kind {it}, and there are as many" for it in ("plain", "shadow")]
    wanted += [f"a script has 16 windows of the kind {it}, and there are as many" for it in ("nogrow", "dialog", "plain", "shadow")]
    wanted += ["a window has 64 controls, and there are as many"] * 2
    same("what is told", told, wanted)
    no_line_is_refused(place, "the script", script.finished())


def a_picture_of_many_images_is_full(place):
    """A window's picture has 1024 operations: 1024 icons have room, and one more has none."""
    icons = [Made(b"ICON", it, ICON) for it in range(1, 1026)]
    script = script_of(opened(fork(*icons)).resources)
    why = "image 1 and those behind it are left out: the window for images is full"
    same("what is told", [it.sentence() for it in script.told], [f"'ICON' 1025: {why}"])
    same("what is drawn", sum(it.startswith("draw") for it in script.lines), 1024)
    no_line_is_refused(place, "the script", script.finished())


def strings_of_any_bytes_are_no_refusals(place):
    """Titles, items and comments of all bytes of MacRoman."""
    every = bytes(range(256))
    parts = [every[:128], every[128:], b'"', b"(", b"-;", b"<^!/", b"\xd0"]
    rows = b"".join(pascal(it) + bytes(4) for it in parts) + b"\0"
    menu = of_hex("0003 0000 0000 0000 0000 FFFFFFFF") + pascal(every[1:]) + rows
    window = of_hex(f"{SIDES} 0008 0100 0100 00000000") + pascal(every[:255])
    strings = of_hex("0002") + pascal(every[:255]) + pascal(every[1:])
    made = [Made(b"MBAR", 1, of_hex("0001 0003")), Made(b"MENU", 3, menu), Made(b"WIND", 1, window, name=every[:255])]
    script = script_of(opened(fork(*made, Made(b"STR#", 1, strings))).resources)
    same("the version", script.version, 1)
    no_line_is_refused(place, "the script", script.finished())


TESTS = [
    windows_reach_the_edges_and_no_farther,
    controls_reach_the_edges_and_no_farther,
    a_script_has_as_many_as_a_desk,
    a_picture_of_many_images_is_full,
    strings_of_any_bytes_are_no_refusals,
]
