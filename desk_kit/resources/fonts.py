"""FONT and NFNT, the records that a desk draws its texts in, and FOND, which names them. *Inside Macintosh* I, chapter "The
Font Manager", section "Format of a Font", has the bytes of a font, and IV, the same chapter, those of a family record."""

from __future__ import annotations

import struct
from typing import NamedTuple

from desk_kit.answers import Fault
from desk_kit.resources.fork import Resource, Resources
from desk_kit.resources.script import Script

KINDS = ("NFNT", "FONT")
HEAD = 26
# The bits of the type that say how many colors a glyph has.
DEPTH = 0x000C
TYPES = (0x9000, 0xB000)
# Where a family's table of fonts begins.
ASSOCIATIONS_AT = 52
STYLES = ("bold", "italic", "underline", "outline", "shadow", "condensed", "extended")


class Head(NamedTuple):
    """The words with which a font begins."""

    type: int
    first: int
    last: int
    widest: int
    kern: int
    negative_descent: int
    width: int
    height: int
    widths_at: int
    ascent: int
    descent: int
    leading: int
    words_of_row: int

    @property
    def missing(self) -> int:
        """The number of the missing symbol among the symbols."""
        return self.last - self.first + 1

    @property
    def locations_at(self) -> int:
        """The byte at which the places of the symbols begin, behind the image."""
        return HEAD + 2 * self.words_of_row * self.height


def head_of(resource: Resource) -> Head:
    """The head of a font."""
    return Head(*resource.cursor().numbers("HhhhhhHHHHHhH", "its head"))


def why_no_font(resource: Resource) -> str:
    """Why a desk refuses these bytes as its font, or nothing. docs/SCRIPT.md calls it BadFont."""
    head = head_of(resource)
    if head.type & DEPTH:
        return f"its type {head.type:04X} is of a font with more than one bit for each pixel"
    if not any(low <= head.type <= low + 3 for low in TYPES):
        return f"its type {head.type:04X} is none of 9000..9003 and B000..B003"
    if not head.first <= head.last <= 255:
        return f"its characters {head.first}..{head.last} are none"
    fields = [("height", head.height, 1, 127), ("ascent", head.ascent, 0, 127), ("descent", head.descent, 0, 127)]
    fields += [("kern", head.kern, -128, 127), ("words of a row", head.words_of_row, 0, 2047)]
    fields += [("place of the widths", head.widths_at, 1, 32767)]
    for what, number, least, most in fields:
        if not least <= number <= most:
            return f"its {what}, {number}, lies outside {least}..{most}"
    return why_no_tables(resource.data, head)


def why_no_tables(data: bytes, head: Head) -> str:
    """Why these are no tables of a font, or nothing: the place of each symbol in the image, and its offset and width."""
    count, widths_at = head.missing + 2, 16 + 2 * head.widths_at
    for what, at in (("places", head.locations_at), ("widths", widths_at)):
        if at + 2 * count > len(data):
            return f"it has {len(data)} bytes, and its {what}, {count} words, begin at byte {at}"
    places = struct.unpack_from(f">{count}H", data, head.locations_at)
    if list(places) != sorted(places):
        return "the places of its symbols do not rise"
    if places[-1] > 16 * head.words_of_row:
        return f"its last symbol ends in column {places[-1]}, and its image has {16 * head.words_of_row}"
    (missing,) = struct.unpack_from(">H", data, widths_at + 2 * head.missing)
    return "it has no missing symbol" if missing == 0xFFFF else ""


def font_of(resources: Resources, number: int) -> Resource:
    """The font of this number: an NFNT, or where there is none a FONT."""
    found = next((it for it in (resources.find(kind, number) for kind in KINDS) if it), None)
    if found is None:
        raise Fault(f"there is no 'FONT' {number} and no 'NFNT' {number}")
    found = resources.get(found.kind, number)
    why = why_no_font(found)
    if why:
        raise Fault(f"{found.label} is no font of a desk: {why}")
    return found


def write_font(script: Script, resource: Resource) -> None:
    """A font, as a comment: `desk-rez font` takes it out. A FONT whose number is a multiple of 128 has a name and no bytes."""
    number = resource.number & 0xFFFF
    said = f"font {number >> 7}, size {number & 127}" if resource.kind == "FONT" else "of a family"
    if resource.kind == "FONT" and not resource.data:
        script.head(resource, f"the name of font {number >> 7}")
        return
    why = why_no_font(resource)
    if why:
        script.head(resource, said)
        script.tell(resource, f"it is no font of a desk: {why}")
        return
    head = head_of(resource)
    metrics = f"ascent {head.ascent}, descent {head.descent}, leading {head.leading}, characters {head.first}..{head.last}"
    script.head(resource, f"{said}, {metrics}: 'desk-rez font' takes it out, for --font")


def write_fond(script: Script, resource: Resource) -> None:
    """A family of fonts, as comments: which font is of which size and style."""
    read = resource.cursor()
    read.take(2, "its flags")
    number = read.number("H", "its number")
    read.take(ASSOCIATIONS_AT - 4, "its head")
    count = (read.number("H", "the count of its fonts") + 1) & 0xFFFF
    read.need(6 * count, f"a list of {count} fonts")
    script.head(resource, f"family {number}, of so many fonts: {count}")
    for _ in range(count):
        size, style, found = read.numbers("HHh", "a font")
        named = ", ".join(it for bit, it in enumerate(STYLES) if style >> bit & 1) or "plain"
        kind = next((it for it in KINDS if script.resources.find(it, found)), "")
        script.note(f"size {size}, {named}: {f'{kind!r} {found}' if kind else f'{found}, which is not in this file'}")
