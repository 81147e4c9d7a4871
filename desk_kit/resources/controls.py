"""CNTL as a command. *Inside Macintosh* I, chapter "The Control Manager", section "Formats of Resources for Controls", has its
bytes; *Macintosh Toolbox Essentials*, chapter "Control Manager", has the figure."""

from __future__ import annotations

from typing import NamedTuple

from desk_kit.resources.cursor import Rect
from desk_kit.resources.fork import Resource
from desk_kit.resources.script import LARGEST_SIDE, MOST_CONTROLS_OF_A_KIND, MOST_IN_A_WINDOW, Script, Window, is_in_range

# The kind of each control definition. With 8 more a title is in the window's font, which is the desk's one.
KINDS = {0: "button", 1: "check", 2: "radio", 8: "button", 9: "check", 10: "radio", 16: "scroll"}


class Template(NamedTuple):
    """What a CNTL says."""

    rect: Rect
    value: int
    shown: bool
    most: int
    least: int
    definition: int
    title: bytes


def template_of(resource: Resource) -> Template:
    """A control: its rectangle in the window, value, whether it is shown, maximum, minimum, definition, constant and title."""
    read = resource.cursor()
    rect = read.rect("its rectangle")
    value, shown, most, least, definition = read.numbers("hHhhh", "its values")
    read.number("I", "its reference constant")
    return Template(rect, value, shown != 0, most, least, definition, read.pascal("its title"))


def write_cntl(script: Script, resource: Resource) -> None:
    """A control, in the window that was opened last. A CNTL names no window; where none is open one is opened for it."""
    it = template_of(resource)
    script.head(resource)
    if it.definition not in KINDS:
        script.tell(resource, f"the control definition {it.definition} has no kind")
        return
    window = script.windows[-1] if script.windows else window_for(script, resource, it.rect)
    if window:
        write_in(script, resource, it, window)


def window_for(script: Script, resource: Resource, rect: Rect) -> Window | None:
    """Opens a window in which the control has room."""
    script.note("it names no window: this one is opened for it")
    return script.own_window(resource, max(rect.right, 1) + 8, max(rect.bottom, 1) + 8)


def write_in(script: Script, resource: Resource, it: Template, window: Window) -> None:
    """Writes a control of a known kind into this window."""
    kind, rect, least = KINDS[it.definition], it.rect, it.least
    why = why_none(script, kind, rect, window)
    if why:
        script.tell(resource, why)
        return
    if it.most < least:
        script.tell(resource, f"its maximum {it.most} lies below its minimum {least}, and both are {it.most} then")
        least = it.most
    title = script.text(resource, "the title", it.title)
    place = f"{rect.left} {rect.top} {rect.width} {rect.height}"
    script.do(f"control {window.number} {kind} {place} {int(it.shown)} {least} {it.most} {it.value} {title}")
    count_control(script, kind, window)


def count_control(script: Script, kind: str, window: Window) -> None:
    """Notes that a control of this kind was made."""
    script.kinds[f"control {kind}"] += 1
    window.controls += 1


def why_none(script: Script, kind: str, rect: Rect, window: Window) -> str:
    """Why a window cannot have a control of this kind at this rectangle, or nothing."""
    if not (1 <= rect.width <= LARGEST_SIDE and 1 <= rect.height <= LARGEST_SIDE):
        return f"its rectangle is {rect.width} by {rect.height}, and the sides of a control are 1 to {LARGEST_SIDE}"
    if not (is_in_range(rect) and is_in_range(rect.moved(window.rect.left, window.rect.top))):
        return "its rectangle lies outside of the desk's coordinates"
    if window.controls == MOST_IN_A_WINDOW:
        return f"a window has {MOST_IN_A_WINDOW} controls, and there are as many"
    if script.kinds[f"control {kind}"] == MOST_CONTROLS_OF_A_KIND:
        return f"a script has {MOST_CONTROLS_OF_A_KIND} controls of the kind {kind}, and there are as many"
    return ""
