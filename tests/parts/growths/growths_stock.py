"""Creations that are refused memory as often as there are definitions for them, and then done as often: a part of
growths."""

import subprocess

from growths_program import ALL, questions, refusal
from growths_rows import NO_MEMORY

from desk_kit.answers import Fault

DESK = b"desk 8 8 0"
WINDOW = b'window plain 1 1 4 4 1 0 ""'
NO_DEFINITION = b"refused 16 NoDefinition\n"
# A script of the latest version, which has all kinds.
BEGIN = [(b"version 3", b"ok\n"), (DESK, b"ok\n")]
# The kinds of windows and of controls that a script knows.
WINDOW_KINDS = (b"document", b"nogrow", b"zoom", b"dialog", b"plain", b"shadow", b"notched", b"round")
CONTROL_KINDS = (b"button", b"check", b"radio", b"scroll", b"rbutton")
# How many windows of a kind a script can open, how many controls of a kind it can make, how many lists, and how many of
# these in a window.
WINDOWS = 16
CONTROLS = 64
LISTS = 16
LISTS_OF_A_WINDOW = 8
# How many menus it can make, and how many of them there may be at a time.
MENUS = 32
MENUS_AT_A_TIME = 16


def refused_each(program, begin, growth, command, count):
    """A command that makes something so many times after these, each time refused for want of this growth: lines with the
    answers that they want."""
    # Each may find room that those before it made and left, until they leave no more: it has fewer growths then.
    growths, left = [growth], None
    while len(growths) < count:
        before = [line for it in growths for line in (refusal(it, it), command)]
        was, left = left, program.growths([*begin, *before, command])
        growths += [min(growths[-1], left)] * (count - len(growths) if left == was else 1)
    return [asked for it in growths for asked in ((refusal(it, it), b""), (command, NO_MEMORY))]


def try_definitions(program, begin, made, after):
    """Refuses the first of these commands, which make something each, as many times as there are commands, before each of
    them is done: once for want of each growth that it makes. Each stands with its answer; those to begin with come
    before, and those after find out that no more was used than was made."""
    (command, _), count = made[0], len(made)
    for growth in range(1, program.growths([*questions(begin), command]) + 1):
        refused = refused_each(program, questions(begin), growth, command, count)
        asked = [*begin, *refused, *made, *after]
        program.tries(questions(asked), [(f"each for want of growth {growth}", asked)])


def numbered(command, count, first=1):
    """A command so many times, each answered by the next number."""
    return [(command, b"ok %d\n" % number) for number in range(first, first + count)]


def try_windows(program, kind):
    """Sixteen windows that are refused leave sixteen to be opened; one more finds no definition left."""
    window = b'window %s 1 1 4 4 1 0 ""' % kind
    try_definitions(program, BEGIN, numbered(window, WINDOWS), [(window, NO_DEFINITION)])


def try_controls(program, kind):
    """64 controls that are refused leave as many to be made; one more, in a window that has room, finds no definition
    left."""
    control = b'control %%d %s 0 0 9 9 1 0 1 0 ""' % kind
    begin = [*BEGIN, *numbered(WINDOW, 2)]
    try_definitions(program, begin, numbered(control % 1, CONTROLS), [(control % 2, NO_DEFINITION)])


def try_lists(program):
    """Sixteen lists with two scroll bars that are refused leave sixteen to be made, and the scroll bars that these do not
    have. One more of each finds no definition left."""
    command = b"list %d text 0 0 2 2 1 1 2 2 1 1 0"
    windows = [1 + number // LISTS_OF_A_WINDOW for number in range(LISTS)]
    other = windows[-1] + 1
    begin = [(DESK, b"ok\n"), *numbered(WINDOW, other)]
    made = [(command % window, b"ok %d\n" % number) for number, window in enumerate(windows, 1)]
    bar = b'control %d scroll 0 0 1 1 1 0 1 0 ""' % other
    left = numbered(bar, CONTROLS - 2 * LISTS, 2 * LISTS + 1)
    try_definitions(program, begin, made, [*left, (bar, NO_DEFINITION), (command % other, NO_DEFINITION)])


def try_menus(program):
    """Menus take no memory: with each growth refused as many are made as there are definitions, and one more finds none
    left."""
    lines = []
    for first in range(1, MENUS + 1, MENUS_AT_A_TIME):
        numbers = range(first, first + MENUS_AT_A_TIME)
        lines += [(b'menu %d "M"' % number, b"ok\n") for number in numbers]
        lines += [(b"mdispose %d" % number, b"ok\n") for number in numbers]
    lines.append((b'menu 1 "M"', NO_DEFINITION))
    asked = [(DESK, b"ok\n"), *(it for line in lines for it in ((refusal(1, ALL), b""), line))]
    program.tries(questions(asked), [("with all growths refused", asked)])


def fault_of(program, name, trying, *values):
    """What goes wrong in one of these, if anything does."""
    try:
        trying(program, *values)
    except (Fault, subprocess.TimeoutExpired) as fault:
        return f"{name}, refused as often as there are definitions: {fault}"
    return None


def faults(program):
    """What goes wrong in each of these: None where nothing does."""
    yield from (fault_of(program, f"windows of the kind {it.decode()}", try_windows, it) for it in WINDOW_KINDS)
    yield from (fault_of(program, f"controls of the kind {it.decode()}", try_controls, it) for it in CONTROL_KINDS)
    yield fault_of(program, "lists", try_lists)
    yield fault_of(program, "menus", try_menus)
