"""Files in which a resource fork comes: the fork alone, AppleDouble, AppleSingle, MacBinary I to III, BinHex 4.0, and the text
of Rez and DeRez.

AppleSingle and AppleDouble are those of *AppleSingle/AppleDouble Formats for Foreign Files Developer's Note* (Apple, 1990),
MacBinary those of the standards of 1985, 1987 and 1996.
"""

from __future__ import annotations

import binascii
import struct
from typing import NamedTuple

from desk_kit.answers import Fault
from desk_kit.resources import binhex
from desk_kit.resources.cursor import Cursor
from desk_kit.resources.fork import Resources, resources_of
from desk_kit.resources.rez_text import is_rez, resources_of_text

# The first bytes of the two, and the entry of each that is the resource fork.
SINGLE, DOUBLE = bytes.fromhex("00051600"), bytes.fromhex("00051607")
VERSIONS = (0x00010000, 0x00020000)
RESOURCE_FORK = 2
# The parts of a MacBinary file are filled up to blocks of this many bytes.
BLOCK = 128
LONGEST_NAME = 63
# Where MacBinary II has the sum of the bytes before, and a second header's length.
SUM_AT, SECOND_AT = 124, 120
# The bytes that are 0 in MacBinary I, beside 0, 74 and 82.
EMPTY_IN_FIRST = slice(99, 128)
# The most bytes that a file may have.
LARGEST_FILE = 1 << 26


class Opened(NamedTuple):
    """What a file holds."""

    # How the resources come, as 'a resource fork' or 'MacBinary'.
    container: str
    resources: Resources


def opened(data: bytes) -> Opened:
    """The resources of a file with these bytes. A Fault says what is wrong with them, in a sentence without its end."""
    if not data:
        raise Fault("the file is empty, and has no resource fork")
    if len(data) > LARGEST_FILE:
        raise Fault(f"the file has more than {LARGEST_FILE} bytes")
    if is_rez(data):
        return Opened("Rez", resources_of_text(data))
    container, fork = fork_in(data)
    if not fork:
        raise Fault(f"{container} has an empty resource fork")
    return Opened(container, resources_of(fork))


def fork_in(data: bytes) -> tuple[str, bytes]:
    """How a resource fork comes in these bytes, and its bytes."""
    if data[:4] in (SINGLE, DOUBLE):
        return ("AppleSingle" if data[:4] == SINGLE else "AppleDouble"), apple_entry(data)
    if binhex.begins_in(data):
        return "BinHex", binhex.resource_fork(data)
    number = mac_binary(data)
    if number:
        return f"MacBinary {number}", mac_binary_fork(data)
    return "a resource fork", data


def apple_entry(data: bytes) -> bytes:
    """The resource fork of AppleSingle or AppleDouble: of the entries, each with its number, place and length, that of
    number 2."""
    what = "AppleSingle" if data[:4] == SINGLE else "AppleDouble"
    head = Cursor(data, what, 4)
    version = head.number("I", "its version")
    if version not in VERSIONS:
        raise Fault(f"{what} has the version {version:08X}, and those that are known are 00010000 and 00020000")
    head.take(16, "its filler")
    count = head.number("H", "the count of its entries")
    head.need(12 * count, f"a list of {count} entries")
    for _ in range(count):
        number, at, size = head.numbers("III", "an entry")
        if number == RESOURCE_FORK:
            if at + size > len(data):
                raise Fault(f"{what} has {len(data)} bytes, and its resource fork, of {size}, begins at byte {at}")
            return data[at : at + size]
    raise Fault(f"{what} has no entry {RESOURCE_FORK}, a resource fork")


def in_blocks(size: int) -> int:
    """How many bytes whole blocks have that hold so many."""
    return -(-size // BLOCK) * BLOCK


def mac_binary(data: bytes) -> str:
    """Which MacBinary these bytes are, I, II or III, or nothing. That of II and III is told by its sum, that of I by its
    bytes that are 0 and by a length of its forks that fits the file."""
    head = data[:BLOCK]
    if len(head) < BLOCK or head[0] or head[74] or not 1 <= head[1] <= LONGEST_NAME:
        return ""
    if binascii.crc_hqx(head[:SUM_AT], 0) == struct.unpack_from(">H", head, SUM_AT)[0]:
        return "III" if head[102:106] == b"mBIN" else "II"
    data_size, fork_size = struct.unpack_from(">II", head, 83)
    fits = BLOCK + in_blocks(data_size) + fork_size <= len(data)
    return "I" if not head[82] and not any(head[EMPTY_IN_FIRST]) and fits else ""


def mac_binary_fork(data: bytes) -> bytes:
    """The resource fork of MacBinary: behind the header, the second header, if any, and the data fork, each in blocks."""
    data_size, fork_size = struct.unpack_from(">II", data, 83)
    (second,) = struct.unpack_from(">H", data, SECOND_AT)
    at = BLOCK + in_blocks(second) + in_blocks(data_size)
    if at + fork_size > len(data):
        raise Fault(f"MacBinary has {len(data)} bytes, and its resource fork, of {fork_size}, begins at byte {at}")
    return data[at : at + fork_size]
