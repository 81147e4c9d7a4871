"""Tests of pictures, for resources: PICT of both versions. Opcodes and data were written by hand, from the tables of *Imaging With
QuickDraw*, appendix A."""

from desk_kit.resources import opened, script_of
from place import same
from resources_made import Made, fork, of_hex
from resources_types import lines_of

# A frame of 100 by 60 whose corner is 10 down and 20 to the right.
FRAME = "000A 0014 0046 0078"
HEAD = "# 'PICT' 3: a picture of 100 by 60"
WINDOW = 'window plain 20 40 100 60 1 0 ""'
CIRCLE = "0032 0046 003C 0050"  # 50 70 60 80: from the corner 50 40 60 50, left first


def first_version(opcodes):
    """A picture of the first version with these opcodes."""
    return of_hex(f"0000 {FRAME} 11 01 {opcodes} FF")


def second_version(opcodes):
    """One of the second version."""
    return of_hex(f"0000 {FRAME} 0011 02FF 0C00 FFFE 0000 00480000 00480000 000A 0014 0046 0078 0000 0000 {opcodes} 00FF")


def is_drawn(what, picture, operations, told=(), version=1):
    """Whether a picture becomes these operations, and what is told of it first."""
    lines = [HEAD, WINDOW, *(f"# 'PICT' 3: {it} has no counterpart" for it in told), *(f"draw 1 {it}" for it in operations)]
    same(what, lines_of(b"PICT", picture), (version, lines))


def rectangles_and_lines_are_of_version_1(_):
    rect = "0014 001E 001E 0032"  # 10 10 30 20, left first
    is_drawn("a frame", first_version(f"30 {rect}"), ["frame 10 10 30 20 patCopy black"])
    opcodes = f"09 AA55AA55AA55AA55 08 000A 31 {rect} 3A 0A 8822882288228822 3C 34 {rect}"
    drawn = ["fill 10 10 30 20 patXor gray", "erase 10 10 30 20", "fill 10 10 30 20 patCopy ltGray"]
    is_drawn("others", first_version(opcodes), [*drawn, drawn[2]])
    is_drawn("inverted", first_version(f"33 {rect}"), ["invert 10 10 30 20"])
    sides = ["fill 10 10 30 12", "fill 10 18 30 20", "fill 10 12 13 18", "fill 27 12 30 18"]
    pen = first_version(f"07 0002 0003 30 {rect}")
    is_drawn("a thick frame", pen, [f"{it} patCopy black" for it in sides])
    thicker = first_version(f"07 0005 0003 30 {rect}")
    is_drawn("a frame without an inside", thicker, ["fill 10 10 30 20 patCopy black"])
    is_drawn("a line to the right", first_version("20 000A 0014 000A 001E"), ["hline 0 0 11 patCopy black"])
    is_drawn("one down, and on", first_version("22 000A 0014 00 05 23 FB 00"), ["vline 0 0 6 patCopy black", "hline -5 5 6 patCopy black"])
    is_drawn("a thick one", first_version("07 0002 0003 20 000A 001E 000A 0014"), ["fill 0 0 13 2 patCopy black"])
    is_drawn("one by no pen", first_version("07 0000 0001 20 000A 001E 000A 0014"), [])


def texts_are_drawn_in_the_desks_font(_):
    opcodes = "28 0014 001E 02 6869 29 0A 01 61 2A 0C 01 62 2B 01 02 01 63"
    drawn = ['text 10 10 srcOr "hi"', 'text 20 10 srcOr "a"', 'text 20 22 srcOr "b"', 'text 21 24 srcOr "c"']
    is_drawn("texts", first_version(opcodes), drawn)
    told = ["a font of its own, for which the desk's stands,", "the style of a text", "a byte of a text that no text of a script has"]
    styled = "03 0003 04 01 0D 000C 05 0003 28 0014 001E 02 8322"
    is_drawn("another font", first_version(styled), ["text 10 10 srcBic \"?'\""], told)


def round_shapes_are_of_version_3(_):
    opcodes = f"50 {CIRCLE} 0B 0006 0004 41 {CIRCLE} 62 {CIRCLE} 0000 005A 6B 005A 000A"
    drawn = [
        "foval 50 40 60 50 1 1 patCopy black",
        "round 50 40 60 50 4 6 patCopy black",
        "arc 50 40 60 50 0 90 patCopy white",
        "arc 50 40 60 50 90 10 patXor black",
    ]
    is_drawn("shapes", first_version(opcodes), drawn, version=3)
    slanted = first_version("07 0001 0002 21 0014 001E")
    is_drawn("a slanted line", slanted, ["line 0 0 10 10 2 1 patCopy black"], version=3)
    # (a line from where none ended begins at the frame's corner)
    points = "0016 0014 001E 001E 0032 0014 001E 001E 001E 001E 0032"
    polygon = first_version(f"71 {points} 78")
    hexed = "000A000A00140" + "00A0014001E"
    is_drawn("a polygon", polygon, [f"poly {hexed} patCopy black", f"fpoly {hexed} 1 1 patCopy black"], version=3)


def regions_and_clips_are_moved(_):
    box = "000A 0014 001E 001E 0032"
    at = "000A000A000A0014001E"
    is_drawn("a region", first_version(f"81 {box} 8B"), [f"rgn {at} patCopy black", f"rgn {at} patXor black"])
    is_drawn("its frame", first_version(f"80 {box}"), [f"frgn {at} 1 1 patCopy black"], version=3)
    clipped = first_version(f"01 {box} 31 0014 001E 001E 0032 01 000A 8001 8001 7FFF 7FFF 38")
    is_drawn("a clip", clipped, [f"clip {at} fill 10 10 30 20 patCopy black", "frame 10 10 30 20 patCopy black"])
    corner = "0024 000A 0014 000C 0017 000A 0014 0017 7FFF 000B 0015 0017 7FFF 000C 0014 0015 7FFF 7FFF"
    moved = "0024 0000 0000 0002 0003 0000 0000 0003 7FFF 0001 0001 0003 7FFF 0002 0000 0001 7FFF 7FFF".replace(" ", "")
    is_drawn("a corner", first_version(f"81 {corner}"), [f"rgn {moved} patCopy black"])
    told = ["a region that leaves the coordinates, or is none,"]
    is_drawn("one that stays open", first_version(f"81 {corner.replace('0014 0015 7FFF', '0014 0017 7FFF')}"), [], told)


def images_are_drawn_in_parts(_):
    bounds, source = "0000 0000 0002 000A", "0000 0001 0002 0009"  # 10 by 2, of which the columns 1 to 8
    target = "000A 0014 000C 001C"
    image = first_version(f"90 0002 {bounds} {source} {target} 0001 A0C0 5FC0")
    is_drawn("an image", image, ["bits 0 0 8 2 srcOr 41BF"])
    # Rows of 8 bytes: a byte eight times, and three as they are with one five times.
    wide = "0000 0000 0002 0040"
    packed = first_version(f"98 0008 {wide} {wide} 000A 0014 000C 0054 0000 02 F9AA 06 02010203 FCFF")
    is_drawn("a packed one", packed, ["bits 0 0 64 2 srcCopy AAAAAAAAAAAAAAAA010203FFFFFFFFFF"])
    scaled = first_version(f"90 0002 {bounds} {source} 000A 0014 000C 0024 0001 A0C0 5FC0")
    is_drawn("a scaled one", scaled, [], ["an image of another size than where it goes"])
    rows = "".join(f"{it:02X}" * 40 for it in range(1, 13))
    tall = first_version(f"90 0028 0000 0000 000C 0140 0000 0000 000C 0140 000A 0014 0016 0154 0000 {rows}")
    drawn = [(0, 0, 256, 12), (256, 0, 64, 12)]
    parts = ["".join(f"{it:02X}" * (wide // 8) for it in range(1 + top, 1 + top + high)) for _, top, wide, high in drawn]
    operations = [f"bits {left} {top} {wide} {high} srcCopy {part}" for (left, top, wide, high), part in zip(drawn, parts)]
    is_drawn("one of several parts", tall, operations)


def the_second_version_has_words(_):
    opcodes = f"001E 0001 000A 000A 0014 0046 0078 0031 {CIRCLE} 00A1 0064 0003 414243 00 0028 0014 001E 01 61 0003 0000"
    later = f"0200 11112222 00B0 00D0 00000002 3333 8010 8200 00000003 444444 00 0031 {CIRCLE}"
    told = [f"the opcode {it}" for it in ("0200", "00B0", "00D0", "8010", "8200")]
    is_drawn("what is reserved", second_version(later), ["fill 50 40 60 50 patCopy black"], told)
    is_drawn("its opcodes", second_version(opcodes), ["fill 50 40 60 50 patCopy black", 'text 10 10 srcOr "a"'])


def what_is_not_known_ends_the_reading(_):
    colored = second_version(f"001A FFFF 0000 0000 0031 {CIRCLE} 009A 0000")
    told = ["a color", "the opcode 009A at byte 58, behind which nothing is read,"]
    is_drawn("a pixel map", colored, ["fill 50 40 60 50 patCopy black"], told)
    far = first_version("31 0014 001E 001E 7FFF")
    is_drawn("a far corner", far, [], ["a coordinate outside of the desk's"])
    odd = first_version("09 8000000000000000 31 0014 001E 001E 0032")
    stands = ["the pattern 8000000000000000, for which the one that is nearest stands,"]
    is_drawn("a pattern", odd, ["fill 10 10 30 20 patCopy white"], stands)


def what_is_as_at_first_is_not_told(_):
    """Opcodes without a counterpart, with the values that every picture begins with, and with others."""
    same_as = "04 00 06 00000000 0C 00000000 0E 00000021 0F 0000001E 10 00010001 00010001 1A 0000 0000 0000 1B FFFF FFFF FFFF"
    none = f"00 11 01 15 0000 16 0000 1C 1E A0 0064 02 0000000000000000 {same_as}"
    is_drawn("what is at first", first_version(f"{none} 31 {CIRCLE}"), ["fill 50 40 60 50 patCopy black"])
    for opcode, data, what in [
        ("06", "00010000", "spaces of another width"),
        ("0C", "00010000", "another origin"),
        ("0E", "000000CD", "a color"),
        ("0F", "00000021", "a color"),
        ("10", "00020001 00010001", "a text of another size"),
        ("1B", "0000 0000 0000", "a color"),
        ("1D", "0000 0000 0000", "a color"),
        ("1F", "0000 0000 0000", "a color"),
        ("02", "AA55AA55AA55AA55", "a background that is not white"),
        ("07", "0401 0001", "a pen of 1 by 1025"),
        ("08", "0010", "the mode 16 of a pen, for which patCopy stands,"),
        ("05", "0000", "the mode 0 of a text, for which srcOr stands,"),
    ]:
        drawn = [] if opcode == "07" else ["frame 50 40 60 50 patCopy black"]
        is_drawn(f"the opcode {opcode}", first_version(f"{opcode} {data} 30 {CIRCLE}"), drawn, [what])


def modes_have_their_names(_):
    for mode, name in enumerate("patCopy patOr patXor patBic notPatCopy notPatOr notPatXor notPatBic".split(), 8):
        is_drawn(name, first_version(f"08 {mode:04X} 31 {CIRCLE}"), [f"fill 50 40 60 50 {name} black"])
    one = "0000 0000 0001 0008"
    for mode, name in enumerate("srcCopy srcOr srcXor srcBic notSrcCopy notSrcOr notSrcXor notSrcBic".split()):
        image = first_version(f"90 0002 {one} {one} 000A 0014 000B 001C {mode:04X} A5FF")
        is_drawn(name, image, [f"bits 0 0 8 1 {name} A5"])


def a_picture_is_full_at_last(_):
    picture = of_hex(f"0000 {FRAME} 11 01 31 0014 001E 001E 0032") + b"\x39" * 2000 + b"\xff"
    script = script_of(opened(fork(Made(b"PICT", 3, picture))).resources)
    same("the operations", script.commands, 1 + 1024)
    same("what is told", script.told[-1].why, "what does not fit a line, or the window's picture, is left out")


def broken_pictures_are_faults(_):
    for what, picture, said in [
        ("no end", first_version("30 0014")[:-1], "'PICT' 3 has 15 bytes, and the opcode 30 at byte 13 needs 8"),
        ("a small region", first_version("81 0009"), "'PICT' 3 has a region of 9 bytes at byte 13, and one has 10 at least"),
        ("an odd polygon", first_version("71 000B"), "'PICT' 3 has a polygon of 11 bytes at byte 13, which none has"),
        (
            "short rows",
            first_version("90 0001 0000 0000 0002 000A" + "0000" * 9),
            "'PICT' 3 has an image of 10 by 2 in rows of 1 bytes, which none has",
        ),
        (
            "a packed row that ends",
            first_version("98 0008 0000 0000 0001 0040 0000 0000 0001 0040 000A 0014 000B 0054 0000 02 FFAA"),
            "a packed row of 2 bytes ends before the 8 bytes that it stands for",
        ),
    ]:
        data = fork(Made(b"PICT", 3, picture))
        try:
            script_of(opened(data).resources)
            found = "it was read"
        except ValueError as fault:
            found = str(fault)
        same(what, found, said)


TESTS = [
    rectangles_and_lines_are_of_version_1,
    texts_are_drawn_in_the_desks_font,
    round_shapes_are_of_version_3,
    regions_and_clips_are_moved,
    images_are_drawn_in_parts,
    the_second_version_has_words,
    what_is_not_known_ends_the_reading,
    what_is_as_at_first_is_not_told,
    modes_have_their_names,
    a_picture_is_full_at_last,
    broken_pictures_are_faults,
]
