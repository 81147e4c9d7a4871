"""A writer of resource forks and of the files in which they come, for the tests of resources. It shares nothing with the reader:
it was written from *Inside Macintosh: More Macintosh Toolbox*, chapter "Resource Manager", section "Resource File Format", whose
figures have the header, the map, the type list, a reference list and the name list."""

import struct
from typing import NamedTuple

DATA_AT = 256
# The characters of BinHex 4.0, by their numbers.
LETTERS = "!\"#$%&'()*+,-012345689@ABCDEFGHIJKLMNPQRSTUVXYZ[`abcdefhijklmpqr"
HEAD_OF_BINHEX = "(This file must be converted with BinHex 4.0)"


class Made(NamedTuple):
    """A resource to be written: its type, number, bytes, name in MacRoman, and attributes."""

    kind: bytes
    number: int
    data: bytes
    name: bytes = None
    attributes: int = 0


def of_hex(text):
    """The bytes of hexadecimal digits, between which spaces and ends of lines may stand."""
    return bytes.fromhex("".join(text.split()))


def fork(*resources, data_at=DATA_AT):
    """A resource fork. The data come first, and then the map: its head of 28 bytes, the type list, the reference lists, the
    names."""
    data, places = b"", []
    for it in resources:
        places.append(len(data))
        data += struct.pack(">I", len(it.data)) + it.data
    kinds = list(dict.fromkeys(it.kind for it in resources))
    types, references, names = struct.pack(">H", (len(kinds) - 1) & 0xFFFF), b"", b""
    for kind in kinds:
        of_kind = [(it, place) for it, place in zip(resources, places) if it.kind == kind]
        types += kind + struct.pack(">HH", len(of_kind) - 1, 2 + 8 * len(kinds) + len(references))
        for it, place in of_kind:
            at = 0xFFFF if it.name is None else len(names)
            names += b"" if it.name is None else bytes([len(it.name)]) + it.name
            references += struct.pack(">hHI4x", it.number, at, it.attributes << 24 | place)
    lists = types + references
    size = 28 + len(lists) + len(names)
    header = struct.pack(">IIII", data_at, data_at + len(data), len(data), size)
    head = header + bytes(8) + struct.pack(">HH", 28, 28 + len(lists))
    return header + bytes(data_at - 16) + data + head + lists + names


def double(resource_fork, magic=0x00051607, version=0x00020000):
    """AppleDouble, or AppleSingle by its magic number: a name of the file, and the resource fork behind it."""
    name = b"Made"
    at = 26 + 2 * 12
    entries = struct.pack(">III", 3, at, len(name)) + struct.pack(">III", 2, at + len(name), len(resource_fork))
    return struct.pack(">II16xH", magic, version, 2) + entries + name + resource_fork


def crc(data):
    """The sum of 16 bits by the polynomial x^16 + x^12 + x^5 + 1, bit by bit."""
    found = 0
    for byte in data:
        found ^= byte << 8
        for _ in range(8):
            found = (found << 1 ^ (0x1021 if found & 0x8000 else 0)) & 0xFFFF
    return found


def filled(data, block=128):
    return data + bytes(-len(data) % block)


def mac_binary(resource_fork, number, data_fork=b"of data", second=b""):
    """MacBinary I, II or III, with a data fork, and from II on perhaps a second header."""
    head = bytearray(128)
    head[1:6] = b"\x04Made"
    head[65:73] = b"APPLMADE"
    head[83:91] = struct.pack(">II", len(data_fork), len(resource_fork))
    if number > 1:
        head[120:122] = struct.pack(">H", len(second))
        head[122:124] = bytes([128 + number, 129])
    if number == 3:
        head[102:106] = b"mBIN"
    if number > 1:
        head[124:126] = struct.pack(">H", crc(head[:124]))
    return bytes(head) + filled(second) + filled(data_fork) + filled(resource_fork)


def runs(data):
    """The bytes as BinHex has them, with each run of more than three as a run, and each 0x90 by a 0 behind it."""
    found, at = bytearray(), 0
    while at < len(data):
        count = 1
        while count < 255 and data[at : at + count + 1] == data[at : at + 1] * (count + 1):
            count += 1
        found += b"\x90\x00" if data[at] == 0x90 else data[at : at + 1]
        if count > 3:
            found += bytes([0x90, count])
        at += count if count > 3 else 1
    return bytes(found)


def binhex(resource_fork, data_fork=b"of data", name=b"Made"):
    """BinHex 4.0, in lines of 64 characters."""
    head = bytes([len(name)]) + name + b"\0" + b"APPLMADE" + struct.pack(">HII", 0, len(data_fork), len(resource_fork))
    whole = b"".join(it + struct.pack(">H", crc(it)) for it in (head, data_fork, resource_fork))
    bits = "".join(f"{it:08b}" for it in runs(whole))
    bits += "0" * (-len(bits) % 6)
    letters = "".join(LETTERS[int(bits[at : at + 6], 2)] for at in range(0, len(bits), 6))
    letters = f":{letters}:"
    lines = [letters[at : at + 64] for at in range(0, len(letters), 64)]
    return "\n".join(["A letter before.", HEAD_OF_BINHEX, *lines, "A letter behind."]).encode("ascii")


def pascal(text):
    return bytes([len(text)]) + text


# A font of two characters, A and B, of 3 and 5 columns in an image of 3 rows; the missing symbol has one column. Its head has 13
# words: type, first and last character, widest, kern, negative descent, width and height, place of the widths (from that word
# on: 5 words of the head, 3 of the image, 4 of the symbols' places), ascent, descent, leading, words of a row.
FONT = of_hex("""
    9000 0041 0042 0006 0000 FFFF 0005 0003 000C 0002 0001 0001 0001
    A880 7480 A880
    0000 0003 0008 0009
    0004 0006 0002 FFFF
    """)
