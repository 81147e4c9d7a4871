"""The templates by which Rez makes the bytes of a resource: those of the files Types.r and SysTypes.r of *MPW*, for the types
that this package knows. Fonts and pictures have none here: they come as data."""

from __future__ import annotations

import struct
from collections.abc import Callable

from desk_kit.answers import Fault
from desk_kit.resources.rez_values import Value

WINDOWS = {
    "documentProc": 0, "dBoxProc": 1, "plainDBox": 2, "altDBoxProc": 3, "noGrowDocProc": 4, "movableDBoxProc": 5,
    "zoomDocProc": 8, "zoomNoGrow": 12, "rDocProc": 16,
}  # fmt: skip
CONTROLS = {
    "pushButProc": 0, "checkBoxProc": 1, "radioButProc": 2, "pushButProcUseWFont": 8, "checkBoxProcUseWFont": 9,
    "radioButProcUseWFont": 10, "scrollBarProc": 16, "popupMenuProc": 1008,
}  # fmt: skip
PLACES = {
    "noAutoCenter": 0x0000, "centerMainScreen": 0x280A, "alertPositionMainScreen": 0x300A, "staggerMainScreen": 0x380A,
    "centerParentWindow": 0xA80A, "alertPositionParentWindow": 0xB00A, "staggerParentWindow": 0xB80A,
    "centerParentWindowScreen": 0x680A, "alertPositionParentWindowScreen": 0x700A, "staggerParentWindowScreen": 0x780A,
}  # fmt: skip
SHOWN = {"invisible": 0, "visible": 1}
GO_AWAY = {"noGoAway": 0, "goAway": 1}
# Each case of a DITL's items, with the type of the item.
ITEMS = {
    "Button": 4, "CheckBox": 5, "RadioButton": 6, "Control": 7, "StaticText": 8, "EditText": 16, "Icon": 32, "Picture": 64,
    "UserItem": 0, "HelpItem": 1,
}  # fmt: skip
WITH_NUMBER = ("Control", "Icon", "Picture")
STAGES = {"development": 0x20, "alpha": 0x40, "beta": 0x60, "final": 0x80, "release": 0x80}
# Regions, as a version has them.
REGIONS = {
    "verUS": 0, "verFrance": 1, "verBritain": 2, "verGermany": 3, "verItaly": 4, "verNetherlands": 5, "verFrBelgiumLux": 6,
    "verSweden": 7, "verSpain": 8, "verDenmark": 9, "verPortugal": 10, "verFrCanada": 11, "verNorway": 12, "verIsrael": 13,
    "verJapan": 14, "verAustralia": 15, "verArabic": 16, "verFinland": 17, "verFrSwiss": 18, "verGrSwiss": 19,
    "verGreece": 20, "verIceland": 21, "verMalta": 22, "verCyprus": 23, "verTurkey": 24,
}  # fmt: skip
LARGEST = {1: 0xFF, 2: 0xFFFF, 4: 0xFFFFFFFF}


class Fields:
    """The values of a resource, of which a template takes one after the other."""

    def __init__(self, values: list[Value], what: str, fault: Callable[[int, str], Fault], at: int) -> None:
        self.values = values
        self.what = what
        self.fault = fault
        self.at = at
        self.place = 0

    @property
    def left(self) -> int:
        """How many values are left."""
        return len(self.values) - self.place

    def end(self) -> None:
        """A Fault where a value is left over."""
        if self.left:
            raise self.fault(self.values[self.place].at, f"{self.what} has a value more than its template")

    def take(self, *kinds: str) -> Value:
        """The next value, of one of these kinds."""
        if not self.left:
            raise self.fault(self.at, f"{self.what} has fewer values than its template")
        self.place += 1
        found = self.values[self.place - 1]
        if found.kind not in kinds:
            raise self.fault(found.at, f"{self.what} has a {found.kind} where a {' or '.join(kinds)} has to be")
        return found

    def list(self) -> Fields:
        """The values of a list in braces."""
        found = self.take("list")
        return Fields(list(found.value), self.what, self.fault, found.at)

    def number(self, size: int, names: dict[str, int]) -> bytes:
        """A number in so many bytes, or one of these names for it."""
        found = self.take("number", "name")
        number = names.get(found.value) if found.kind == "name" else found.value
        if number is None:
            raise self.fault(found.at, f"{self.what} has the name {str(found.value)[:40]}, which no constant here has")
        most = LARGEST[size]
        if not -(most // 2) - 1 <= number <= most:
            raise self.fault(found.at, f"{self.what} has the number {number}, for which {size} bytes are too few")
        return (number & most).to_bytes(size, "big")

    def byte(self, names: dict[str, int] | None = None) -> bytes:
        """A byte."""
        return self.number(1, names or {})

    def short(self, names: dict[str, int] | None = None) -> bytes:
        """A word of two bytes."""
        return self.number(2, names or {})

    def long(self) -> bytes:
        """A number in four bytes."""
        return self.number(4, {})

    def rect(self) -> bytes:
        """A rectangle: top, left, bottom and right in braces."""
        return self.group(4)

    def group(self, count: int) -> bytes:
        """So many words in braces."""
        inner = self.list()
        found = b"".join(inner.short() for _ in range(count))
        inner.end()
        return found

    def pascal(self, names: dict[str, bytes] | None = None) -> bytes:
        """A Pascal string, or one of these names for it."""
        found = self.take("string", "name")
        text = (names or {}).get(str(found.value)) if found.kind == "name" else bytes(found.value)
        if text is None:
            raise self.fault(found.at, f"{self.what} has the name {str(found.value)[:40]} where a string has to be")
        if len(text) > 255:
            raise self.fault(found.at, f"{self.what} has a string of {len(text)} bytes, and a Pascal string has 255 at most")
        return bytes([len(text)]) + text

    def character(self, names: dict[str, int]) -> bytes:
        """A character: a string of one byte, a number, or one of these names."""
        if self.left and self.values[self.place].kind == "string":
            found = self.take("string")
            if len(found.value) != 1:
                size = len(found.value)
                raise self.fault(found.at, f"{self.what} has a string of {size} bytes where one character has to be")
            return bytes(found.value)
        return self.byte(names)

    def bytes(self, count: int) -> bytes:
        """A string of so many bytes. A shorter one is filled with 0, as Rez does."""
        found = self.take("string")
        if len(found.value) > count:
            raise self.fault(found.at, f"{self.what} has a string of {len(found.value)} bytes where {count} have room")
        return bytes(found.value).ljust(count, b"\0")


def placed(fields: Fields, before: bytes) -> bytes:
    """The bytes of a window, with the word on its place behind them where there is one."""
    if not fields.left:
        return before
    return before + b"\0" * (len(before) % 2) + fields.short(PLACES)


def window(fields: Fields) -> bytes:
    """What WIND and DLOG have up to the reference constant."""
    return fields.rect() + fields.short(WINDOWS) + fields.byte(SHOWN) + b"\0" + fields.byte(GO_AWAY) + b"\0" + fields.long()


def wind(fields: Fields) -> bytes:
    """A window."""
    return placed(fields, window(fields) + fields.pascal({"Untitled": b"Untitled"}))


def dlog(fields: Fields) -> bytes:
    """A dialog: a window, and before its title the number of its items."""
    return placed(fields, window(fields) + fields.short() + fields.pascal())


def alrt(fields: Fields) -> bytes:
    """An alert. Its stages are written from the fourth to the first."""
    before, stages, bits = fields.rect() + fields.short(), fields.list(), 0
    for _ in range(4):
        bold = stages.byte({"OK": 0, "Cancel": 1})[0] & 1
        drawn = stages.byte(SHOWN)[0] & 1
        sound = stages.byte({"silent": 0, "sound1": 1, "sound2": 2, "sound3": 3})[0] & 3
        bits = bits << 4 | bold << 3 | drawn << 2 | sound
    stages.end()
    return placed(fields, before + struct.pack(">H", bits))


def ditl(fields: Fields) -> bytes:
    """The items of a dialog: of each four bytes, its rectangle, its type, whose high bit says that it is not enabled, and what
    the type has; filled up to a word."""
    items, found = fields.list(), []
    while items.left:
        rect, case = items.rect(), items.take("case")
        if case.name not in ITEMS:
            raise fields.fault(case.at, f"{fields.what} has an item of the kind {case.name[:40]}, which is none")
        inner = Fields(list(case.value), fields.what, fields.fault, case.at)
        disabled = inner.byte({"enabled": 0, "disabled": 1})[0] & 1
        item = bytes(4) + rect + bytes([ITEMS[case.name] | disabled << 7]) + item_data(case.name, inner)
        inner.end()
        found.append(item + b"\0" * (len(item) % 2))
    return struct.pack(">H", (len(found) - 1) & 0xFFFF) + b"".join(found)


def item_data(name: str, fields: Fields) -> bytes:
    """What an item of this kind has behind its type: a text, the number of a resource, or nothing."""
    if name in WITH_NUMBER:
        return b"\x02" + fields.short()
    if name == "HelpItem":
        # (help is not read: its values are gone past)
        fields.place = len(fields.values)
    return b"\0" if name in ("HelpItem", "UserItem") else fields.pascal()


def menu(fields: Fields) -> bytes:
    """A menu with its items."""
    number, definition = fields.short(), fields.short({"textMenuProc": 0})
    flags = int.from_bytes(fields.number(4, {"allEnabled": 0x7FFFFFFF}), "big")
    enabled = fields.byte({"disabled": 0, "enabled": 1})[0] & 1
    title, items = fields.pascal({"apple": b"\x14"}), fields.list()
    head = number + bytes(4) + definition + bytes(2) + struct.pack(">I", (flags << 1 | enabled) & 0xFFFFFFFF)
    found = []
    while items.left:
        text, icon = items.pascal(), items.byte({"noIcon": 0})
        key = items.character({"noKey": 0, "hierarchicalMenu": 0x1B})
        mark, style = items.character({"noMark": 0, "check": 0x12}), items.byte({"plain": 0})
        found.append(text + icon + key + mark + style)
    return head + title + b"".join(found) + b"\0"


def cntl(fields: Fields) -> bytes:
    """A control."""
    head = fields.rect() + fields.short() + fields.byte(SHOWN) + b"\0" + fields.short() + fields.short()
    return head + fields.short(CONTROLS) + fields.long() + fields.pascal()


def vers(fields: Fields) -> bytes:
    """The version of a file."""
    head = fields.byte() + fields.byte() + fields.byte(STAGES) + fields.byte()
    return head + fields.short(REGIONS) + fields.pascal() + fields.pascal()


def counted(each: Callable[[Fields], bytes]) -> Callable[[Fields], bytes]:
    """The template of a list that begins with the count of what it holds, each by a template of its own."""

    def template(fields: Fields) -> bytes:
        inner, found = fields.list(), []
        while inner.left:
            found.append(each(inner))
        return struct.pack(">H", len(found) & 0xFFFF) + b"".join(found)

    return template


def icons(fields: Fields) -> bytes:
    """An icon and its mask, in a list."""
    inner, found = fields.list(), []
    while inner.left:
        found.append(inner.bytes(128))
    return b"".join(found)


TEMPLATES: dict[str, Callable[[Fields], bytes]] = {
    "WIND": wind,
    "DLOG": dlog,
    "ALRT": alrt,
    "DITL": ditl,
    "MENU": menu,
    "MBAR": counted(Fields.short),
    "CNTL": cntl,
    "STR ": Fields.pascal,
    "STR#": counted(Fields.pascal),
    "TEXT": lambda fields: bytes(fields.take("string").value),
    "ICON": lambda fields: fields.bytes(128),
    "ICN#": icons,
    "CURS": lambda fields: fields.bytes(32) + fields.bytes(32) + fields.group(2),
    "PAT ": lambda fields: fields.bytes(8),
    "PAT#": counted(lambda fields: fields.bytes(8)),
    "vers": vers,
}
