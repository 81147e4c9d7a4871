"""WIND, DLOG and ALRT as commands. *Inside Macintosh* I has their bytes: chapter "The Window Manager", section "Formats of
Resources for Windows", and chapter "The Dialog Manager", section "Formats of Resources for Dialogs and Alerts". The word on the
place behind them is that of *Macintosh Toolbox Essentials*, chapters "Window Manager" and "Dialog Manager"."""

from __future__ import annotations

from desk_kit.resources.cursor import Cursor, Rect
from desk_kit.resources.fork import Resource
from desk_kit.resources.items import write_items
from desk_kit.resources.script import Script, Window

# The kinds that window definition 0 has, by their variation.
KINDS = {0: "document", 1: "dialog", 2: "plain", 3: "shadow", 4: "nogrow", 8: "zoom"}
# What stands for a window definition that has no kind.
OTHERS = {5: "dialog", 12: "nogrow"}
ROUND, LAST_ROUND = 16, 23
SOUNDS = ("no sound", "1 beep", "2 beeps", "3 beeps")


def kind_of(script: Script, resource: Resource, definition: int) -> str:
    """The kind of a window with this definition and variation. What it lacks is told."""
    if definition in KINDS:
        return KINDS[definition]
    if ROUND <= definition <= LAST_ROUND:
        if definition != ROUND:
            script.tell(resource, f"the definition {definition} has corners of its own, and those of 'round' stand for them")
        return "round"
    kind = OTHERS.get(definition, "nogrow")
    script.tell(resource, f"the window definition {definition} has no kind, and '{kind}' stands for it")
    return kind


def tell_place(script: Script, resource: Resource, read: Cursor) -> None:
    """Tells a word on the place of a window, where there is one. It stands at an even byte."""
    read.at += read.at % 2
    if read.left >= 2:
        place = read.number("H", "its place")
        if place:
            script.tell(resource, f"the place {place:04X} is worked out on a Macintosh, and the rectangle stands for it")


def write_wind(script: Script, resource: Resource) -> None:
    """A window: its rectangle on the screen, definition, whether it is shown and has a go-away box, constant and title."""
    read = resource.cursor()
    rect, definition = read.rect("its rectangle"), read.number("h", "its definition")
    shown, away = read.numbers("HH", "its flags")
    read.number("I", "its reference constant")
    title = read.pascal("its title")
    script.head(resource)
    script.window(resource, kind_of(script, resource, definition), rect, (shown != 0, away != 0), title)
    tell_place(script, resource, read)


def write_dlog(script: Script, resource: Resource) -> None:
    """A dialog: as a window, with the number of its items before the title."""
    read = resource.cursor()
    rect, definition = read.rect("its rectangle"), read.number("h", "its definition")
    shown, away = read.numbers("HH", "its flags")
    read.number("I", "its reference constant")
    items, title = read.number("h", "the number of its items"), read.pascal("its title")
    script.head(resource)
    kind = kind_of(script, resource, definition)
    window = script.window(resource, kind, rect, (shown != 0, away != 0), title)
    tell_place(script, resource, read)
    finish(script, resource, window, items, shown != 0)


def write_alrt(script: Script, resource: Resource) -> None:
    """An alert: its rectangle, the number of its items and its stages, four bits for each from the first one on: two of sound,
    one where it is drawn, one where item 2 has the ring. What is written is the first stage that is drawn."""
    read = resource.cursor()
    rect, (items, stages) = read.rect("its rectangle"), read.numbers("hH", "its items and stages")
    script.head(resource)
    bits = [stages >> 4 * it & 15 for it in range(4)]
    for number, it in enumerate(bits, 1):
        ring = f"item {2 if it & 8 else 1} has the ring"
        script.note(f"stage {number}: {SOUNDS[it & 3]}, {f'drawn, {ring}' if it & 4 else 'not drawn'}")
    drawn = next((it for it in bits if it & 4), None)
    if drawn is None:
        return
    window = script.window(resource, "dialog", rect, (True, False), b"")
    tell_place(script, resource, read)
    finish(script, resource, window, items, True, ring=2 if drawn & 8 else 1)


def finish(script: Script, resource: Resource, window: Window | None, items: int, is_shown: bool, ring: int = 0) -> None:
    """Writes the items of a dialog's window. What shows of the window is white at first, so it is updated then."""
    if window is None:
        return
    write_items(script, resource, window, items, ring)
    if is_shown:
        script.do(f"update {window.number}")
