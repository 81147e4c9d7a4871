"""Tests of the files in which a resource fork comes, for resources."""

import struct

from desk_kit.answers import Fault
from desk_kit.resources import opened
from place import Differs, same
from resources_made import HEAD_OF_BINHEX, Made, binhex, double, fork, mac_binary, of_hex, pascal, runs

# Two types, of which one has two resources; names, none and an empty one; runs of bytes, and the byte that begins a run.
RESOURCES = [
    Made(b"STR ", 128, pascal(b"one"), name=b"Caf\x8e"),
    Made(b"MENU", -3, b"\x90" * 300 + b"\0" * 7, attributes=0x20),
    Made(b"STR ", 32767, b"", name=b""),
]
FOUND = [("STR ", 128, b"Caf\x8e", b"\x03one"), ("STR ", 32767, b"", b""), ("MENU", -3, b"", b"\x90" * 300 + bytes(7))]
FORK = fork(*RESOURCES)


def found_in(data):
    """What comes, and what it comes in."""
    found = opened(data)
    return found.container, [(it.kind, it.number, it.name, it.data) for it in found.resources]


def each_container_gives_the_same_resources(_):
    for container, data in [
        ("a resource fork", FORK),
        ("a resource fork", fork(*RESOURCES, data_at=16)),
        ("AppleDouble", double(FORK)),
        ("AppleDouble", double(FORK, version=0x00010000)),
        ("AppleSingle", double(FORK, magic=0x00051600)),
        ("MacBinary I", mac_binary(FORK, 1)),
        ("MacBinary II", mac_binary(FORK, 2)),
        ("MacBinary II", mac_binary(FORK, 2, second=b"second")),
        ("MacBinary III", mac_binary(FORK, 3, data_fork=b"")),
        ("BinHex", binhex(FORK)),
        ("BinHex", binhex(FORK, data_fork=b"\x90" * 400, name=b"\x90\x90")),
    ]:
        same(container, found_in(data), (container, FOUND))


def a_fork_may_be_empty_of_resources(_):
    empty = fork()
    same("no types", found_in(empty), ("a resource fork", []))
    same("in MacBinary", found_in(mac_binary(empty, 2)), ("MacBinary II", []))


def a_fork_may_lack_what_fills_its_last_block(_):
    made = mac_binary(FORK, 2)
    cut = len(made) - (-len(FORK) % 128)
    same("cut behind the fork", found_in(made[:cut]), ("MacBinary II", FOUND))


def binhex_is_found_behind_other_text(_):
    made = binhex(FORK)
    same("behind a letter", found_in(b"Dear reader,\n" * 100 + made)[1], FOUND)
    worded = made.replace(HEAD_OF_BINHEX.encode(), b"(This file must be converted; you knew that already.)")
    same("in another wording", found_in(worded), ("BinHex", FOUND))
    same("with returns", found_in(made.replace(b"\n", b"\r"))[1], FOUND)
    # 0x90 in a run, by its own count, and a run of 0x90.
    same("runs", runs(b"\x90\x90\x90\x90\x90a"), of_hex("90 00 90 05 61"))


def said_of(data):
    """What is said of bytes that cannot be read."""
    try:
        opened(data)
    except Fault as fault:
        return str(fault)
    raise Differs("it was read")


def what_is_no_fork_is_said_in_a_sentence(_):
    header = struct.pack(">IIII", 256, 300, 44, 50)
    sum_at = len(binhex(FORK)) - len("\nA letter behind.")
    for what, data, said in [
        ("nothing", b"", "the file is empty, and has no resource fork"),
        ("a word", b"abc", "the resource fork has 3 bytes, and its header at byte 0 needs 16"),
        ("a text", b"x" * 40, "the resource fork has 40 bytes, and the resource data, of 2021161080, begins at byte 2021161080"),
        ("a header alone", header, "the resource fork has 16 bytes, and the resource data, of 44, begins at byte 256"),
        ("no entry", of_hex("00051607 00020000") + bytes(16) + of_hex("0000"), "AppleDouble has no entry 2, a resource fork"),
        (
            "an entry past the end",
            of_hex("00051607 00020000") + bytes(16) + of_hex("0001 00000002 00000026 00000001"),
            "AppleDouble has 38 bytes, and its resource fork, of 1, begins at byte 38",
        ),
        (
            "more entries than there are",
            of_hex("00051600 00020000") + bytes(16) + of_hex("0003") + bytes(24),
            "AppleSingle has 50 bytes, and a list of 3 entries at byte 26 needs 36",
        ),
        (
            "another version",
            of_hex("00051607 00030000") + bytes(18),
            "AppleDouble has the version 00030000, and those that are known are 00010000 and 00020000",
        ),
        ("an empty fork", double(b""), "AppleDouble has an empty resource fork"),
        ("BinHex without characters", HEAD_OF_BINHEX.encode(), "BinHex has no colon, and its characters stand between two"),
        ("an open one", binhex(FORK)[:sum_at].rstrip(b":"), "BinHex has one colon, and its characters stand between two"),
        (
            "a strange character",
            binhex(FORK).replace(b"\n:", b"\n:7"),
            "BinHex has the byte 37 among its characters, at byte 64",
        ),
        (
            "a damaged one",
            binhex(FORK).replace(b"\n:", b"\n:", 1)[:100] + b"!" + binhex(FORK)[101:],
            "the data fork that BinHex holds is damaged: the sum at byte 33 is not that of its bytes",
        ),
    ]:
        same(what, said_of(data), said)


def parts_that_overlap_are_refused(_):
    two = fork(Made(b"STR ", 1, pascal(b"one")), Made(b"STR ", 2, pascal(b"two")))
    map_at = struct.unpack_from(">I", two, 4)[0]
    types = map_at + 28
    second = types + 10 + 12
    for what, at, text, said in [
        ("data", second + 5, "000000", "'STR ' 1 and 'STR ' 2 overlap at byte 0"),
        ("data past the end", second + 5, "000050", "the resource data has 16 bytes, and 'STR ' 2 begins at byte 80"),
        ("the map in the data", 4, "00000104", "the resource data and the resource map overlap at byte 260"),
        ("data in the header", 0, "00000008", "the header and the resource data overlap at byte 8"),
        ("references in the types", types + 8, "0004", "the type list and the references of 'STR ' overlap at byte 32"),
        ("too many references", types + 6, "00FF", "the resource map has 62 bytes, and the references of 'STR ', 256, begin at byte 38"),
        ("too many types", types, "0008", "the resource map has 62 bytes, and a type list of 9 types at byte 30 needs 72"),
        ("a type list past the end", map_at + 24, "0FFF", "the resource map has 62 bytes, and its type list begins at byte 4095"),
        ("a name past the end", types + 12, "0000", "the resource map has 62 bytes, and the name of 'STR ' 1 begins at byte 62"),
        ("one number twice", second, "0001", "'STR ' 1 is there twice"),
    ]:
        changed = of_hex(text)
        same(what, said_of(two[:at] + changed + two[at + len(changed) :]), said)


def what_system_7_compressed_is_told(_):
    made = opened(fork(Made(b"WIND", 1, b"abc", attributes=0x01))).resources
    why = "its bytes are compressed as System 7 compressed its own"
    same("why", [it.unread for it in made], [why])


TESTS = [
    each_container_gives_the_same_resources,
    a_fork_may_be_empty_of_resources,
    a_fork_may_lack_what_fills_its_last_block,
    binhex_is_found_behind_other_text,
    what_is_no_fork_is_said_in_a_sentence,
    parts_that_overlap_are_refused,
    what_system_7_compressed_is_told,
]
