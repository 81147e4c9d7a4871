"""The resources of a resource fork. *Inside Macintosh: More Macintosh Toolbox*, chapter "Resource Manager", section "Resource
File Format", has the figures: the fork, its header, its map, the type list, a reference list and the name list.

A fork comes from strangers. So its parts have to lie within it and apart from each other, and the references in its map have
to fit into that. Then the time and the memory that reading takes are bounded by the size of the fork.
"""

from __future__ import annotations

from collections.abc import Iterator
from typing import NamedTuple

from desk_kit.answers import Fault
from desk_kit.resources.cursor import Cursor

HEADER, MAP_HEAD = 16, 28
SIZE_OF_TYPE, SIZE_OF_REFERENCE = 8, 12
# The offset of a name that is not there, and a count less one where nothing is counted.
NONE = 0xFFFF
# A bit of a resource's attributes, resCompressed, that System 7 gave to resources of its own.
COMPRESSED = 0x01
WHY_COMPRESSED = "its bytes are compressed as System 7 compressed its own"


class Resource(NamedTuple):
    """A resource of a file."""

    # Its type, of four characters.
    kind: str
    number: int
    # Its name in MacRoman, empty where it has none.
    name: bytes
    data: bytes
    # Why its bytes are not those of its type, or nothing.
    unread: str = ""

    @property
    def label(self) -> str:
        """How the resource is called in a sentence."""
        return f"'{self.kind}' {self.number}"

    def cursor(self) -> Cursor:
        """Its bytes, to be read."""
        return Cursor(self.data, self.label)


class Resources:
    """The resources of a file, in the order in which the file has them."""

    def __init__(self, found: list[Resource]) -> None:
        self.all = found
        self.by_key: dict[tuple[str, int], Resource] = {}
        for it in found:
            if self.by_key.setdefault((it.kind, it.number), it) is not it:
                raise Fault(f"{it.label} is there twice")

    def __iter__(self) -> Iterator[Resource]:
        return iter(self.all)

    def __len__(self) -> int:
        return len(self.all)

    def find(self, kind: str, number: int) -> Resource | None:
        """The resource of this type and number, or None."""
        return self.by_key.get((kind, number))

    def get(self, kind: str, number: int) -> Resource:
        """The resource of this type and number; a Fault where there is none, or where its bytes are not at hand."""
        found = self.find(kind, number)
        if found is None:
            raise Fault(f"there is no '{kind}' {number}")
        if found.unread:
            raise Fault(f"{found.label} cannot be read: {found.unread}")
        return found


class Span(NamedTuple):
    """A part of the fork, to be seen apart from others."""

    begin: int
    end: int
    what: str


class Reference(NamedTuple):
    """What the map says of a resource."""

    kind: str
    number: int
    # The place of its name in the name list, or NONE.
    name: int
    attributes: int
    # The place of its length in the resource data.
    place: int

    @property
    def label(self) -> str:
        """How the resource is called in a sentence."""
        return f"'{self.kind}' {self.number}"


def type_of(code: bytes) -> str:
    """A type as text: four characters of MacRoman, and in place of one that does not print its number."""
    text = code.decode("mac_roman")
    return text if text.isprintable() else "".join(it if it.isprintable() else f"\\x{ord(it):02X}" for it in text)


def keep_apart(spans: list[Span]) -> None:
    """A Fault where two of these parts share a byte."""
    ordered = sorted(spans)
    for one, other in zip(ordered, ordered[1:]):
        if other.begin < one.end:
            raise Fault(f"{one.what} and {other.what} overlap at byte {other.begin}")


def part_of(fork: bytes, at: int, size: int, what: str) -> bytes:
    """So many bytes of the fork from this place on."""
    if at + size > len(fork):
        raise Fault(f"the resource fork has {len(fork)} bytes, and {what}, of {size}, begins at byte {at}")
    return fork[at : at + size]


def resources_of(fork: bytes) -> Resources:
    """All resources of a resource fork."""
    data_at, map_at, data_size, map_size = Cursor(fork, "the resource fork").numbers("IIII", "its header")
    data = part_of(fork, data_at, data_size, "the resource data")
    whole_map = part_of(fork, map_at, map_size, "the resource map")
    parts = [(0, HEADER, "the header"), (data_at, data_size, "the resource data"), (map_at, map_size, "the resource map")]
    keep_apart([Span(at, at + size, what) for at, size, what in parts if size])
    references, names_at = references_of(whole_map)
    bodies = [body_of(data, it) for it in references]
    keep_apart([Span(it.place, it.place + 4 + len(body), it.label) for it, body in zip(references, bodies)])
    return Resources([resource_of(it, name_of(whole_map, names_at, it), body) for it, body in zip(references, bodies)])


def body_of(data: bytes, it: Reference) -> bytes:
    """The bytes of a resource, which stand in the resource data behind their count."""
    if it.place > len(data):
        raise Fault(f"the resource data has {len(data)} bytes, and {it.label} begins at byte {it.place}")
    found = Cursor(data, "the resource data", it.place)
    return found.take(found.number("I", f"the length of {it.label}"), it.label)


def resource_of(it: Reference, name: bytes, body: bytes) -> Resource:
    """A resource, of which System 7's own may be compressed."""
    return Resource(it.kind, it.number, name, body, WHY_COMPRESSED if it.attributes & COMPRESSED else "")


def references_of(whole_map: bytes) -> tuple[list[Reference], int]:
    """All references of a map, and where its name list begins. The lists lie apart from each other, so that all of them
    together have room in the map."""
    head = Cursor(whole_map, "the resource map")
    head.take(MAP_HEAD - 4, "its head")
    types_at, names_at = head.numbers("HH", "its head")
    if types_at > len(whole_map):
        raise Fault(f"the resource map has {len(whole_map)} bytes, and its type list begins at byte {types_at}")
    types = Cursor(whole_map, "the resource map", types_at)
    count = (types.number("H", "the type list") + 1) & NONE
    types.need(count * SIZE_OF_TYPE, f"a type list of {count} types")
    lists = [list_of(whole_map, types_at, *types.numbers("4sHH", "a type")) for _ in range(count)]
    keep_apart([Span(types_at, types.at, "the type list"), *(one for _, one in lists)])
    return [it for kind, one in lists for it in references_in(whole_map, kind, one)], names_at


def list_of(whole_map: bytes, types_at: int, code: bytes, last: int, offset: int) -> tuple[str, Span]:
    """A type, and the reference list of which the type list says this."""
    kind = type_of(code)
    at, what = types_at + offset, f"the references of '{kind}'"
    end = at + (last + 1) * SIZE_OF_REFERENCE
    if end > len(whole_map):
        raise Fault(f"the resource map has {len(whole_map)} bytes, and {what}, {last + 1}, begin at byte {at}")
    return kind, Span(at, end, what)


def references_in(whole_map: bytes, kind: str, one: Span) -> list[Reference]:
    """The references of the list of this type."""
    return [reference_at(whole_map, at, kind) for at in range(one.begin, one.end, SIZE_OF_REFERENCE)]


def reference_at(whole_map: bytes, at: int, kind: str) -> Reference:
    """The reference at this place of the map: number, place of the name, attributes in a byte, place of the data in three, and
    room for a handle."""
    number, name, placed = Cursor(whole_map, "the resource map", at).numbers("hHI", "a reference")
    return Reference(kind, number, name, placed >> 24, placed & 0xFFFFFF)


def name_of(whole_map: bytes, names_at: int, it: Reference) -> bytes:
    """The name of a resource, or nothing."""
    if it.name == NONE:
        return b""
    at = names_at + it.name
    if at >= len(whole_map):
        raise Fault(f"the resource map has {len(whole_map)} bytes, and the name of {it.label} begins at byte {at}")
    return Cursor(whole_map, "the resource map", at).pascal(f"the name of {it.label}")
