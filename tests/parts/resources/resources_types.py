"""Tests of what becomes of each type of resources. The bytes were written by hand, from the chapters that the modules of
desk_kit.resources name, and so were the lines of the script."""

from desk_kit.answers import Fault
from desk_kit.resources import becomes, opened, script_of
from place import Differs, same
from resources_made import FONT, Made, fork, of_hex, pascal

ICON = of_hex("80000001" + "00000000" * 30 + "FFFFFFFF")
MASK = of_hex("FFFFFFFF" * 32)
ARROW, ARROW_MASK = "8000" + "C000" * 14 + "0001", "C000" * 16
# A menu 3 "Edit": four items, of which the first is disabled, the second a line, the third checked and the last with a sign in
# its text and a dot as its mark.
MENU = of_hex("0003 0000 0000 0000 0000 FFFFFFF9 04 45646974") + b"".join(
    [pascal(b"Undo") + b"\0Z\0\0", pascal(b"-") + bytes(4), pascal(b"Wrap") + b"\0\0\x12\0", pascal(b"a/b") + b"\0\0\xa5\0", b"\0"]
)
MENU_LINES = [
    "# 'MENU' 3",
    'menu 3 "Edit"',
    'mappend 3 "(Undo/Z"',
    'mappend 3 "(-"',
    'mappend 3 "Wrap"',
    "mcheck 3 3 1",
    "# 'MENU' 3: item 4: its mark A5, for which * stands, has no counterpart",
    'mappend 3 "x"',
    'mitem 3 4 "a/b"',
    "mcheck 3 4 1",
]
# A button Find, a disabled static text, an edited text, an icon, the control of CNTL 5, and a check box that HideDItem hid.
ITEMS = b"".join(
    [
        of_hex("0005"),
        of_hex("00000000 0040 00AA 0054 00E6 04 04 46696E64"),
        of_hex("00000000 000A 000A 001A 0032 88 03 466F72 00"),
        of_hex("00000000 000A 0038 0014 00E2 10 02 8322"),
        of_hex("00000000 0020 0010 0040 0030 20 02 0080"),
        of_hex("00000000 0020 0060 0030 00A0 07 02 0005"),
        of_hex("00000000 0030 4008 0040 4048 05 01 41 00"),
    ]
)
BUTTON = of_hex("0002 0003 0016 0040 0000 0100 0001 0000 0000 00000000 02 4F4B")
SIDES = "0014 0028 0050 00C8"  # top 20, left 40, bottom 80, right 200: 160 by 60
ALERT = [
    "# stage 1: no sound, not drawn",
    "# stage 2: 1 beep, drawn, item 2 has the ring",
    "# stage 3: 2 beeps, drawn, item 1 has the ring",
    "# stage 4: 3 beeps, drawn, item 1 has the ring",
]
WINDOW_FOR_IMAGES = ["# a window for images", 'window plain 20 40 480 40 1 0 ""']
HIDDEN = "and a hidden user item stands for it"


def lines_of(kind, data, *others, number=3):
    """All lines of the script of a resource, behind its version, and its version."""
    found = opened(fork(Made(kind, number, data), *others)).resources
    script = script_of(found, [(kind.decode("ascii"), number)])
    version, *lines = script.finished()
    same("the version", version, f"version {script.version}")
    for it in script.told:
        if f"# {it.sentence()}" not in lines:
            raise Differs(f"no comment tells: {it.sentence()}")
    return script.version, lines


def is_written(what, kind, data, lines, *others, version=1):
    """Whether these lines come of a resource."""
    same(what, lines_of(kind, data, *others), (version, lines))


def windows_are_opened(_):
    wind = of_hex(f"{SIDES} 0008 0100 0001 00000000") + pascal(b"Notes")
    is_written("a zoom window", b"WIND", wind, ["# 'WIND' 3", 'window zoom 40 20 160 60 1 1 "Notes"'])
    for number, kind in ((0, "document"), (1, "dialog"), (2, "plain"), (3, "shadow"), (4, "nogrow")):
        data = of_hex(f"{SIDES} {number:04X} 0000 0000 12345678 00")
        is_written(kind, b"WIND", data, ["# 'WIND' 3", f'window {kind} 40 20 160 60 0 0 ""'])
    told = "# 'WIND' 3: the window definition 5 has no kind, and 'dialog' stands for it"
    movable = of_hex(f"{SIDES} 0005 0100 0000 00000000 00")
    is_written("a movable box", b"WIND", movable, ["# 'WIND' 3", told, 'window dialog 40 20 160 60 1 0 ""'])
    is_written(
        "a round window",
        b"WIND",
        of_hex(f"{SIDES} 0010 0100 0100 00000000 00"),
        ["# 'WIND' 3", 'window round 40 20 160 60 1 1 ""'],
        version=3,
    )
    is_written(
        "a title with a quote and a letter beyond ASCII, and a place",
        b"WIND",
        of_hex(f"{SIDES} 0002 0100 0000 00000000") + pascal(b'\x80 "b\xc9') + of_hex("280A"),
        [
            "# 'WIND' 3",
            "# 'WIND' 3: the title \"\u00c4 \"b\u2026\" has bytes that no text of a script has, and others stand for these",
            "window plain 40 20 160 60 1 0 \"? 'b...\"",
            "# 'WIND' 3: the place 280A is worked out on a Macintosh, and the rectangle stands for it",
        ],
    )


def windows_that_cannot_be_are_told(_):
    for what, sides, definition, why in [
        ("no width", "0014 0028 0050 0028", 2, "its rectangle is empty, 0 by 60, and no window is"),
        ("far away", "0014 3F00 0050 4000", 2, "its window would lie outside of the coordinates -16384..16383"),
        ("a title bar above", "C010 0028 C100 0060", 0, "its window would lie outside of the coordinates -16384..16383"),
    ]:
        data = of_hex(f"{sides} {definition:04X} 0100 0100 00000000 00")
        is_written(what, b"WIND", data, ["# 'WIND' 3", f"# 'WIND' 3: {why}"])
    at_the_edge = of_hex("C001 0028 C064 0060 0002 0100 0000 00000000 00")
    is_written("one at the edge", b"WIND", at_the_edge, ["# 'WIND' 3", 'window plain 40 -16383 56 99 1 0 ""'])
    many = [Made(b"WIND", it, of_hex(f"{SIDES} 0002 0100 0000 00000000 00")) for it in range(1, 18)]
    script = script_of(opened(fork(*many)).resources)
    why = "'WIND' 17: a script has 16 windows of the kind plain, and there are as many"
    same("seventeen", [it.sentence() for it in script.told], [why])


def controls_are_made(_):
    scroll = of_hex("FFFF 0109 007E 0119 0005 0100 0064 0000 0010 00000000 00")
    window = Made(b"WIND", 1, of_hex(f"{SIDES} 0002 0100 0000 00000000 00"))
    found = opened(fork(Made(b"CNTL", 9, scroll), window)).resources
    lines = ["# 'WIND' 1", 'window plain 40 20 160 60 1 0 ""', "# 'CNTL' 9", 'control 1 scroll 265 -1 16 127 1 0 100 5 ""']
    same("in the window before", script_of(found, [("WIND", 1), ("CNTL", 9)]).finished(), ["version 1", *lines])
    opening = ["# 'CNTL' 3", "# it names no window: this one is opened for it", 'window plain 20 40 72 30 1 0 ""']
    is_written("in one of its own", b"CNTL", BUTTON, [*opening, 'control 1 button 3 2 61 20 1 0 1 0 "OK"'])
    for number, kind in ((1, "check"), (10, "radio")):
        data = BUTTON[:16] + of_hex(f"{number:04X}") + BUTTON[18:]
        is_written(kind, b"CNTL", data, [*opening, f'control 1 {kind} 3 2 61 20 1 0 1 0 "OK"'])
    popup = BUTTON[:16] + of_hex("03F0") + BUTTON[18:]
    is_written("a popup", b"CNTL", popup, ["# 'CNTL' 3", "# 'CNTL' 3: the control definition 1008 has no kind"])
    low = BUTTON[:12] + of_hex("FFFF 0002") + BUTTON[16:]
    told = "# 'CNTL' 3: its maximum -1 lies below its minimum 2, and both are -1 then"
    is_written("a low maximum", b"CNTL", low, [*opening, told, 'control 1 button 3 2 61 20 1 -1 -1 0 "OK"'])
    empty = of_hex("0002 0003 0002 0040") + BUTTON[8:]
    told = "# 'CNTL' 3: its rectangle is 61 by 0, and the sides of a control are 1 to 1024"
    is_written("an empty one", b"CNTL", empty, [*opening[:2], 'window plain 20 40 72 10 1 0 ""', told])


def menus_are_made(_):
    is_written("a menu", b"MENU", MENU, MENU_LINES)
    bar = of_hex("0003 0003 0007 0003")
    lines = ["# 'MBAR' 3", *MENU_LINES, "minsert 3 0"]
    lines += ["# 'MBAR' 3: there is no 'MENU' 7 to be read", "# 'MBAR' 3: the menu 3 is in the bar already"]
    is_written("a bar", b"MBAR", bar, lines, Made(b"MENU", 3, MENU))
    disabled = of_hex("0004 0000 0000 0000 0000 FFFFFFFE 01 41") + pascal(b"B") + b"\0\0*\0" + b"\0"
    is_written("a disabled one", b"MENU", disabled, ["# 'MENU' 3", 'menu 4 "A"', 'mappend 4 "B!*"', "mdisable 4 0"])
    owned = of_hex("FFFE 0000 0000 0000 0000 FFFFFFFF 01 41 00")
    told = "# 'MENU' 3: its menu has the number -2, and those of a script are 1..32767"
    is_written("a number below 0", b"MENU", owned, ["# 'MENU' 3", told])
    special = of_hex("0005 0000 0000 0007 0000 FFFFFFFF 01 14") + b"".join(
        [pascal(b"Sub") + b"\0\x1b\x09\0", pascal(b"Bold") + b"\x02\x00\x00\x01", pascal(b"Open\xc9") + b"\0;\0\0", b"\0"]
    )
    texts = "has bytes that no text of a script has, and others stand for these"
    lines = [
        "# 'MENU' 3",
        "# 'MENU' 3: the menu definition 7 has no kind, and 'menu' stands for it",
        f"# 'MENU' 3: the title \"\\x14\" {texts}",
        'menu 5 "?"',
        "# 'MENU' 3: item 1: its submenu 9 has no counterpart",
        'mappend 5 "Sub"',
        "# 'MENU' 3: item 2: its icon 2 has no counterpart",
        "# 'MENU' 3: item 2: its style 01 has no counterpart",
        'mappend 5 "Bold"',
        "# 'MENU' 3: item 3: its key 3B has no counterpart",
        f"# 'MENU' 3: item 3 \"Open\u2026\" {texts}",
        'mappend 5 "Open..."',
    ]
    is_written("what has no counterpart", b"MENU", special, lines)


def keys_that_are_none_are_told(_):
    for key, icon, lacks in [
        (0x1B, 0, ["its submenu 7"]),
        (0x1C, 9, ["its key 1C"]),
        (0x1D, 9, ["its key 1D", "its icon 9"]),
        (0x1F, 0, ["its key 1F"]),
        (0x07, 0, ["its key 07"]),
        (0x80, 0, ["its key 80"]),
        (0x22, 0, ["its key 22"]),
        (0x20, 0, []),
    ]:
        mark = 7 if key == 0x1B else 0
        data = of_hex("0005 0000 0000 0000 0000 FFFFFFFF 01 41") + pascal(b"i") + bytes([icon, key, mark, 0]) + b"\0"
        told = [f"# 'MENU' 3: item 1: {it} has no counterpart" for it in lacks]
        is_written(f"the key {key:02X}", b"MENU", data, ["# 'MENU' 3", 'menu 5 "A"', *told, 'mappend 5 "i"'])
    for key in (0x21, 0x7E):
        data = of_hex("0005 0000 0000 0000 0000 FFFFFFFF 01 41") + pascal(b"i") + bytes([0, key, 0x7E, 0]) + b"\0"
        is_written(chr(key), b"MENU", data, ["# 'MENU' 3", 'menu 5 "A"', f'mappend 5 "i!~/{chr(key)}"'])


def a_menu_of_more_items_than_a_script_has_is_cut(_):
    rows = b"".join(pascal(b"i") + bytes(4) for _ in range(33))
    data = of_hex("0005 0000 0000 0000 0000 FFFFFFFF 01 41") + rows + b"\0"
    _, lines = lines_of(b"MENU", data)
    same("the items", lines.count('mappend 5 "i"'), 31)
    same("the last line", lines[-1], "# 'MENU' 3: a menu has 31 items, and those behind it are left out")


def dialogs_are_windows_with_items(_):
    dialog = of_hex(f"{SIDES} 0001 0100 0000 00000000 0081 00")
    others = [Made(b"DITL", 0x81, ITEMS), Made(b"ICON", 0x80, ICON), Made(b"CNTL", 5, BUTTON)]
    lines = [
        "# 'DLOG' 3",
        'window dialog 40 20 160 60 1 0 ""',
        'ditem 1 button 170 64 60 20 1 "Find"',
        'ditem 1 static 10 10 40 16 0 "For"',
        "ditem 1 edit 56 10 170 10 1 8322",
        f"ditem 1 icon 16 32 32 32 1 {ICON.hex().upper()}",
        "# 'DITL' 129: item 5: a user item stands for the control of 'CNTL' 5",
        'ditem 1 user 96 32 64 16 1 ""',
        'control 1 button 96 32 64 16 1 0 1 0 "OK"',
        'ditem 1 check 8 48 64 16 1 "A"',
        "dhide 1 6",
        "update 1",
    ]
    is_written("a dialog", b"DLOG", dialog, lines, *others, version=3)
    hidden = of_hex(f"{SIDES} 0001 0000 0000 00000000 0081 00")
    lines = [lines[0], lines[1].replace("60 1 0", "60 0 0"), *lines[2:-1]]
    is_written("a hidden one", b"DLOG", hidden, lines, *others, version=3)
    told = ["# 'DLOG' 3", 'window dialog 40 20 160 60 1 0 ""', "# 'DLOG' 3: there is no 'DITL' 129 to be read", "update 1"]
    is_written("one without items", b"DLOG", dialog, told)


def alerts_have_their_ring(_):
    alert = of_hex(f"{SIDES} 0081 76D0")
    items = of_hex("0001") + of_hex("00000000 0028 0064 003C 0096 04 02 4F4B 00000000 0028 000A 003C 003C 04 02 4E6F")
    lines = ["# 'ALRT' 3", *ALERT, 'window dialog 40 20 160 60 1 0 ""']
    lines += ['ditem 1 button 100 40 50 20 1 "OK"', 'ditem 1 default 10 40 50 20 1 "No"', "update 1"]
    is_written("an alert", b"ALRT", alert, lines, Made(b"DITL", 0x81, items), version=3)
    silent = of_hex(f"{SIDES} 0081 0000")
    stages = [f"# stage {it}: no sound, not drawn" for it in range(1, 5)]
    is_written("one that is never drawn", b"ALRT", silent, ["# 'ALRT' 3", *stages], Made(b"DITL", 0x81, items))


def items_lie_within_their_ranges(_):
    """An item of 1024 columns is one, and of 1025 is not. A left side of 8192 is that of a shown item, and one more of a hidden
    one. An edited text has 3 pixels around it, and the ring of a button 4."""
    dialog = of_hex("0014 0028 0050 00C8 0081 4444")
    head = ["# 'ALRT' 3", *(f"# stage {it}: no sound, drawn, item 1 has the ring" for it in range(1, 5))]
    head.append('window dialog 40 20 160 60 1 0 ""')
    outside, large = "its rectangle lies outside of the desk's coordinates", "the sides of an item are 1024 at most"
    for rect, kind, line, why in [
        ("0000 0000 0400 0400", "88", 'static 0 0 1024 1024 0 ""', ""),
        ("0000 0000 0400 0401", "88", "", large),
        ("0000 2000 0010 2010", "88", 'static 8192 0 16 16 0 ""', ""),
        ("0000 2001 0010 2011", "00", 'user -8191 0 16 16 1 ""', "hidden"),
        ("C003 0000 C013 0010", "90", 'edit 0 -16381 16 16 0 ""', ""),
        ("C002 0000 C012 0010", "90", "", outside),
        ("C000 0000 C010 0010", "88", 'static 0 -16384 16 16 0 ""', ""),
        ("3FDB 0000 3FEB 0010", "00", 'user 0 16347 16 16 1 ""', ""),
        ("3FDC 0000 3FEC 0010", "00", "", outside),
        ("C004 0000 C014 0010", "04", 'default 0 -16380 16 16 1 ""', ""),
        ("C003 0000 C013 0010", "04", "", outside),
        ("0000 0000 0010 03F8", "04", 'default 0 0 1016 16 1 ""', ""),
        ("0000 0000 0010 03F9", "04", "", "its rectangle is 1025 by 24, and the sides of a control are 1 to 1024"),
    ]:
        found = [f"ditem 1 {line}"] if line else []
        found += ["dhide 1 1"] if why == "hidden" else []
        if not line:
            enabled = int(int(kind, 16) < 0x80)
            found = [f"# 'DITL' 129: item 1: {why}, {HIDDEN}", f'ditem 1 user 0 0 1 1 {enabled} ""', "dhide 1 1"]
        items = of_hex(f"0000 00000000 {rect} {kind} 00")
        is_written(rect, b"ALRT", dialog, [*head, *found, "update 1"], Made(b"DITL", 0x81, items), version=3)


def texts_are_counted_with_those_of_dialogs(_):
    dialog = of_hex(f"{SIDES} 0001 0100 0000 00000000 0081 00")
    made = fork(Made(b"DLOG", 1, dialog), Made(b"DITL", 0x81, ITEMS), Made(b"TEXT", 2, b"x"), Made(b"TEXT", 3, b"y"))
    lines = script_of(opened(made).resources, [("DLOG", 1), ("TEXT", 2), ("TEXT", 3)]).lines
    same("their numbers", [it for it in lines if it.startswith("tset")], ['tset 2 3 "x"', 'tset 3 4 "y"'])


def items_that_cannot_be_keep_their_numbers(_):
    dialog = of_hex(f"{SIDES} 0001 0100 0000 00000000 0081 00")
    items = of_hex("0003") + b"".join(
        [
            of_hex("00000000 0040 00AA 0040 00E6 04 01 41 00"),
            of_hex("00000000 0020 0010 0040 0030 A0 02 0099"),
            of_hex("00000000 0020 0010 0040 0030 40 02 0007"),
            of_hex("00000000 0020 0010 0040 0030 00 00"),
        ]
    )
    lines = [
        "# 'DLOG' 3",
        'window dialog 40 20 160 60 1 0 ""',
        f"# 'DITL' 129: item 1: its rectangle is empty, {HIDDEN}",
        'ditem 1 user 0 0 1 1 1 ""',
        "dhide 1 1",
        "# 'DITL' 129: item 2: there is no 'ICON' 153 to be read, and a user item stands for it",
        'ditem 1 user 16 32 32 32 0 ""',
        "# 'DITL' 129: item 3: a user item stands for the picture of 'PICT' 7",
        'ditem 1 user 16 32 32 32 1 ""',
        'ditem 1 user 16 32 32 32 1 ""',
        "update 1",
    ]
    is_written("the items", b"DLOG", dialog, lines, Made(b"DITL", 0x81, items), version=3)
    many = of_hex("0040") + of_hex("00000000 0020 0010 0040 0030 00 00") * 65
    _, lines = lines_of(b"DLOG", dialog, Made(b"DITL", 0x81, many))
    same("sixty-five", lines.count('ditem 1 user 16 32 32 32 1 ""'), 64)
    same("what is told", lines[-2], "# 'DITL' 129: a window has 64 items, and those behind it are left out")


def images_are_drawn_on_a_shelf(_):
    drawn = f"draw 1 bits 4 4 32 32 srcCopy {ICON.hex().upper()}"
    is_written("an icon", b"ICON", ICON, ["# 'ICON' 3", *WINDOW_FOR_IMAGES, drawn])
    masked = [f"draw 1 bits 4 4 32 32 srcBic {MASK.hex().upper()}", drawn.replace("srcCopy", "srcOr")]
    is_written("one with a mask", b"ICN#", ICON + MASK, ["# 'ICN#' 3: an icon and its mask", *WINDOW_FOR_IMAGES, *masked])
    cursor = of_hex(ARROW + ARROW_MASK + "0002 0001")
    head = "# 'CURS' 3: a cursor; its hot spot is in column 1 and row 2"
    both = [f"draw 1 bits 4 4 16 16 srcBic {ARROW_MASK}", f"draw 1 bits 4 4 16 16 srcXor {ARROW}"]
    is_written("a cursor", b"CURS", cursor, [head, *WINDOW_FOR_IMAGES, *both])
    gray = of_hex("AA55AA55AA55AA55")
    is_written("a pattern", b"PAT ", gray, ["# 'PAT ' 3", *WINDOW_FOR_IMAGES, "draw 1 fill 4 4 36 36 patCopy gray"])
    # Row 0 has its first pixel black, and row 1 its last four. Row 4 of the window is row 4 of the pattern, and column 4 is its
    # column 4: so rows 0 and 1 come fifth and sixth, and begin with their fifth pixel.
    rows = ["00000000"] * 4 + ["08080808", "F0F0F0F0"] + ["00000000"] * 2
    tile = f"draw 1 bits 4 4 32 32 srcCopy {''.join(rows) * 4}"
    is_written("one without a name", b"PAT ", of_hex("80 0F 000000000000"), ["# 'PAT ' 3", *WINDOW_FOR_IMAGES, tile])
    two = [tile.replace("bits 4", "bits 44"), "draw 1 fill 84 4 116 36 patCopy black"]
    listed = of_hex("0003") + gray + of_hex("80 0F 000000000000") + of_hex("FFFFFFFFFFFFFFFF")
    found = ["# 'PAT#' 3: 3 patterns", *WINDOW_FOR_IMAGES, "draw 1 fill 4 4 36 36 patCopy gray", *two]
    is_written("a list", b"PAT#", listed, found)


def a_shelf_grows_by_rows(_):
    _, lines = lines_of(b"PAT#", of_hex("000D") + of_hex("FFFFFFFFFFFFFFFF") * 13)
    same("the last image", lines[-2:], ["size 1 480 80", "draw 1 fill 4 44 36 76 patCopy black"])


def strings_are_comments(_):
    is_written("a string", b"STR ", pascal(b"caf\x8e"), ["# 'STR ' 3: the string \"caf\u00e9\""])
    listed = of_hex("0002") + pascal(b'say "so"') + pascal(b"a\rb")
    is_written("a list", b"STR#", listed, ["# 'STR#' 3: 2 strings", '# 1 "say "so""', '# 2 "a\\x0Db"'])
    version = of_hex("01 23 80 00 0000") + pascal(b"1.2.3") + pascal(b"1.2.3, Us")
    is_written("a version", b"vers", version, ["# 'vers' 3: version 1.2.3, region 0, \"1.2.3\", \"1.2.3, Us\""])
    beta = of_hex("10 00 60 04 0003") + pascal(b"x") + pascal(b"")
    is_written("a beta", b"vers", beta, ["# 'vers' 3: version 10.0.0b4, region 3, \"x\", \"\""])
    _, (_, line) = lines_of(b"STR#", of_hex("0001") + pascal(b"\xf0" * 255))
    same("a long comment ends so", line[-4:], " ...")
    same("and fits a line", len(line.encode("utf-8")) <= 1024, True)


def a_text_is_a_record(_):
    head = ["# 'TEXT' 3: a text of 5 bytes", 'window plain 20 40 320 200 1 0 ""', "text 1 4 4 312 4 4 316 196 0 1"]
    is_written("a short one", b"TEXT", b"a\rb\x80c", [*head, "tset 1 1 610D628063"], version=3)
    _, lines = lines_of(b"TEXT", b"x" * 256)
    same("a longer one", lines[-2:], [f'tset 1 1 "{"x" * 255}"', 'tinsert 1 1 "x"'])
    _, lines = lines_of(b"TEXT", b"x" * 32001)
    told = "# 'TEXT' 3: a text record holds 32000 bytes, and those behind them are left out"
    same("one that is too long", (lines[1], len(lines), lines[-1][-3:]), (told, 4 + 126, 'xx"'))


def fonts_are_told_by_their_measures(_):
    said = "ascent 2, descent 1, leading 1, characters 65..66: 'desk-rez font' takes it out, for --font"
    is_written("a font", b"FONT", FONT, [f"# 'FONT' 3: font 0, size 3, {said}"])
    found = opened(fork(Made(b"FONT", 268, FONT), Made(b"FONT", 256, b""))).resources
    lines = ["version 1", "# 'FONT' 256: the name of font 2", f"# 'FONT' 268: font 2, size 12, {said}"]
    same("by its number", script_of(found).finished(), lines)
    is_written("one of a family", b"NFNT", FONT, [f"# 'NFNT' 3: of a family, {said}"])
    is_written("a name", b"FONT", b"", ["# 'FONT' 3: the name of font 0"])
    deep = of_hex("9004") + FONT[2:]
    why = "its type 9004 is of a font with more than one bit for each pixel"
    is_written("colors", b"NFNT", deep, ["# 'NFNT' 3: of a family", f"# 'NFNT' 3: it is no font of a desk: {why}"])
    family = bytes(2) + of_hex("0014") + bytes(48) + of_hex("0001 000C 0000 0003 0018 0003 0063")
    lines = ["# 'FOND' 9: family 20, of so many fonts: 2", "# size 12, plain: 'NFNT' 3", "# size 24, bold, italic: 99, which is not in this file"]
    found = opened(fork(Made(b"FOND", 9, family), Made(b"NFNT", 3, FONT))).resources
    same("a family", script_of(found, [("FOND", 9)]).finished(), ["version 1", *lines])


def a_name_and_an_unknown_type_are_told(_):
    made = fork(Made(b"STR ", 1, pascal(b"x"), name=b"Caf\x8e\r"), Made(b"snd ", -5, b"abc"))
    script = script_of(opened(made).resources)
    why = "'snd ' -5: no command and no comment stands for this type"
    lines = ["version 1", "# 'STR ' 1 \"Caf\u00e9\\x0D\": the string \"x\"", f"# {why}"]
    same("the lines", script.finished(), lines)
    same("what is told", [it.sentence() for it in script.told], [why])


def a_resource_says_what_becomes_of_it(_):
    made = fork(Made(b"MENU", 3, MENU), Made(b"STR ", 1, pascal(b"x")), Made(b"WIND", 1, b"abc"), Made(b"snd ", 2, b""))
    found = opened(made).resources
    said = [becomes(found, it).said() for it in found]
    broken = "nothing: 'WIND' 1 has 3 bytes, and its rectangle at byte 0 needs 8"
    unknown = "nothing: no command and no comment stands for this type"
    same("what is said", said, ["8 commands, version 1, 1 told", "comments", broken, unknown])
    try:
        script_of(found)
    except Fault as fault:
        same("the script of all", str(fault), broken.removeprefix("nothing: "))
    else:
        raise Differs("the script of a broken resource was written")


TESTS = [
    windows_are_opened,
    windows_that_cannot_be_are_told,
    controls_are_made,
    menus_are_made,
    keys_that_are_none_are_told,
    a_menu_of_more_items_than_a_script_has_is_cut,
    dialogs_are_windows_with_items,
    alerts_have_their_ring,
    items_lie_within_their_ranges,
    texts_are_counted_with_those_of_dialogs,
    items_that_cannot_be_keep_their_numbers,
    images_are_drawn_on_a_shelf,
    a_shelf_grows_by_rows,
    strings_are_comments,
    a_text_is_a_record,
    fonts_are_told_by_their_measures,
    a_name_and_an_unknown_type_are_told,
    a_resource_says_what_becomes_of_it,
]
