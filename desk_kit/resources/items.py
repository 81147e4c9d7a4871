"""DITL as commands of version 3. *Inside Macintosh* I, chapter "The Dialog Manager", section "Formats of Resources for Dialogs and
Alerts", has its bytes, and IV, the same chapter, how HideDItem moves the rectangle of an item that is hidden."""

from __future__ import annotations

import re
from typing import NamedTuple

from desk_kit.answers import Fault
from desk_kit.resources.controls import KINDS, count_control, template_of, why_none, write_in
from desk_kit.resources.cursor import Cursor, Rect
from desk_kit.resources.fork import Resource
from desk_kit.resources.script import LARGEST_SIDE, MOST_IN_A_WINDOW, Script, Window, is_in_range
from desk_kit.resources.words import bytes_word, digits

USER, HELP, CONTROL, ICON, PICTURE = 0, 1, 7, 32, 64
DISABLED = 0x80
# The kind of each type of an item whose bytes are a text.
WITH_TEXT = {4: "button", 5: "check", 6: "radio", 8: "static", 16: "edit"}
# The kind of a control that is the layer of an item, and by how much the rectangle of each kind is widened.
LAYERS = {"button": "button", "default": "default-button", "check": "check", "radio": "radio", "icon": "icon-image"}
WIDENED = {"default": 4, "edit": 3}
# What HideDItem adds to the left side of an item, and where that of a hidden item lies at least.
HIDDEN_BY, FIRST_HIDDEN = 16384, 8192
ICON_SIDE, ICON_SIZE = 32, 128
EMPTY = '""'
# What a static text is filled at.
PARAMETER = re.compile(rb"\^[0-3]")


class Item(NamedTuple):
    """An item of a DITL."""

    number: int
    rect: Rect
    kind: int
    enabled: bool
    hidden: bool
    data: bytes


class Made(NamedTuple):
    """What an item becomes: a kind of the script, its rectangle and its bytes as a word."""

    kind: str
    rect: Rect
    word: str


def items_of(resource: Resource) -> list[Item]:
    """The items of a DITL: a count less one, and of each four bytes for a handle, the rectangle in the window, the type, and a
    count and bytes, filled up to a word."""
    read = resource.cursor()
    count = (read.number("H", "the count of its items") + 1) & 0xFFFF
    return [item_of(read, number) for number in range(1, min(count, MOST_IN_A_WINDOW + 1) + 1)]


def item_of(read: Cursor, number: int) -> Item:
    """The next item."""
    what = f"item {number}"
    read.take(4, what)
    rect, kind, data = read.rect(what), read.number("B", what), read.pascal(what)
    read.at += read.at % 2
    hidden = rect.left > FIRST_HIDDEN
    return Item(number, rect.moved(-HIDDEN_BY, 0) if hidden else rect, kind & ~DISABLED, kind < DISABLED, hidden, data)


def write_items(script: Script, resource: Resource, window: Window, number: int, ring: int) -> None:
    """Writes the items of the DITL of this number into a window. The item with the number of the ring is the default one."""
    listed = script.resources.find("DITL", number)
    if listed is None or listed.unread:
        script.tell(resource, f"there is no 'DITL' {number} to be read")
        return
    for it in items_of(listed):
        if it.number > MOST_IN_A_WINDOW:
            script.tell(listed, f"a window has {MOST_IN_A_WINDOW} items, and those behind it are left out")
            return
        write_item(script, listed, window, it, ring)


def write_item(script: Script, listed: Resource, window: Window, it: Item, ring: int) -> None:
    """Writes an item. Where its kind cannot be, a user item stands for it, so that the others keep their numbers."""
    made = made_of(script, listed, it, ring)
    why = why_no_item(script, window, made)
    if why:
        script.tell(listed, f"item {it.number}: {why}, and a hidden user item stands for it")
        made, it = Made("user", Rect(0, 0, 1, 1), EMPTY), it._replace(hidden=True, kind=USER)
    rect = made.rect
    place = f"{rect.left} {rect.top} {rect.width} {rect.height}"
    if made.kind == "static" and PARAMETER.search(it.data):
        script.note(f"item {it.number} is filled with the texts that param has set before it")
    script.do(f"ditem {window.number} {made.kind} {place} {int(it.enabled)} {made.word}", 3)
    window.items += 1
    if made.kind in LAYERS:
        count_control(script, LAYERS[made.kind], window)
    if made.kind in ("static", "edit"):
        window.texts += 1
        script.text_records += 1
    if it.kind == CONTROL:
        write_control(script, listed, window, it)
    if it.hidden:
        script.do(f"dhide {window.number} {it.number}", 3)


def made_of(script: Script, listed: Resource, it: Item, ring: int) -> Made:
    """What an item becomes. What has no kind is told."""
    if it.kind in WITH_TEXT:
        kind = "default" if it.kind == 4 and it.number == ring else WITH_TEXT[it.kind]
        return Made(kind, it.rect, bytes_word(it.data))
    if it.kind == ICON:
        return icon_of(script, listed, it)
    if it.kind != USER:
        script.tell(listed, f"item {it.number}: a user item stands for {called(it)}")
    return Made("user", it.rect, EMPTY)


def called(it: Item) -> str:
    """What an item without a kind is."""
    number = int.from_bytes(it.data[:2], "big", signed=True) if len(it.data) >= 2 else 0
    names = {HELP: "help", CONTROL: f"the control of 'CNTL' {number}", PICTURE: f"the picture of 'PICT' {number}"}
    return names.get(it.kind, f"the type {it.kind}")


def icon_of(script: Script, listed: Resource, it: Item) -> Made:
    """An item that shows an icon. Its picture is as large as an icon, whatever its rectangle is."""
    number = int.from_bytes(it.data[:2], "big", signed=True)
    icon = script.resources.find("ICON", number) if len(it.data) >= 2 else None
    if icon is None or len(icon.data) < ICON_SIZE:
        script.tell(listed, f"item {it.number}: there is no 'ICON' {number} to be read, and a user item stands for it")
        return Made("user", it.rect, EMPTY)
    if (it.rect.width, it.rect.height) != (ICON_SIDE, ICON_SIDE):
        script.tell(listed, f"item {it.number}: an icon has 32 by 32 pixels, and no other size stands for it")
    rect = Rect(it.rect.top, it.rect.left, it.rect.top + ICON_SIDE, it.rect.left + ICON_SIDE)
    return Made("icon", rect, digits(icon.data[:ICON_SIZE]))


def why_no_item(script: Script, window: Window, made: Made) -> str:
    """Why a window cannot have this item, or nothing."""
    wider = WIDENED.get(made.kind, 0)
    rect = Rect(made.rect.top - wider, made.rect.left - wider, made.rect.bottom + wider, made.rect.right + wider)
    if made.rect.width < 1 or made.rect.height < 1:
        return "its rectangle is empty"
    if made.kind in LAYERS:
        return why_none(script, LAYERS[made.kind], rect, window)
    if max(made.rect.width, made.rect.height) > LARGEST_SIDE:
        return f"the sides of an item are {LARGEST_SIDE} at most"
    if not (is_in_range(rect) and is_in_range(rect.moved(window.rect.left, window.rect.top))):
        return "its rectangle lies outside of the desk's coordinates"
    is_text = made.kind in ("static", "edit")
    return f"a window has {MOST_IN_A_WINDOW} texts" if is_text and window.texts == MOST_IN_A_WINDOW else ""


def write_control(script: Script, listed: Resource, window: Window, it: Item) -> None:
    """Writes the control of a CNTL that an item names, at the rectangle of the item."""
    number = int.from_bytes(it.data[:2], "big", signed=True)
    found = script.resources.find("CNTL", number) if len(it.data) >= 2 else None
    if found is None or found.unread:
        script.tell(listed, f"item {it.number}: there is no 'CNTL' {number} to be read")
        return
    try:
        template = template_of(found)
    except Fault as fault:
        script.tell(listed, f"item {it.number}: {fault}")
        return
    if template.definition in KINDS:
        write_in(script, found, template._replace(rect=it.rect), window)


def write_ditl(script: Script, resource: Resource) -> None:
    """The items of a dialog, as a comment: they are written with the dialog that names them."""
    count = len(items_of(resource))
    script.head(resource, f"{count} items, of a 'DLOG' or an 'ALRT'")
