"""Tests of the command desk-rez, for resources: its words, what it writes, and how it ends."""

import json
import os
import subprocess

from desk_kit.pictures import pixels_of
from place import TOP, same
from resources_made import FONT, Made, double, fork, of_hex, pascal
from resources_types import ARROW, ARROW_MASK, ICON, MASK, SIDES

USAGE = "Call it so: desk-rez [--json] [--strict] [--mask] [--scale N] VERB FILE [WORD]..., with list, script, text, font or icon as VERB"
WINDOW = of_hex(f"{SIDES} 0008 0100 0100 00000000") + pascal(b"Notes")
MOVABLE = of_hex(f"{SIDES} 0005 0100 0000 00000000 00")
TOLD = "the window definition 5 has no kind, and 'dialog' stands for it"
FORK = fork(
    Made(b"WIND", 128, WINDOW, name=b"Caf\x8e"),
    Made(b"WIND", -5, MOVABLE),
    Made(b"STR ", 1, pascal(b"one\x8e")),
    Made(b"STR#", 2, of_hex("0002") + pascal(b"two") + pascal(b"three\rlines")),
    Made(b"snd ", 1, b"abc"),
)
LIST = """TYPE  NUMBER  SIZE  NAME    BECOMES
WIND     128    24  "Caf\u00e9"  1 command, version 1
WIND      -5    19          1 command, version 1, 1 told
STR        1     5          comments
STR#       2    18          comments
snd        1     3          nothing: no command and no comment stands for this type
"""
SCRIPT = f"""version 1
# 'WIND' 128 "Caf\u00e9"
window zoom 40 20 160 60 1 1 "Notes"
# 'WIND' -5
# 'WIND' -5: {TOLD}
window dialog 40 20 160 60 1 0 ""
"""
UNKNOWN = "# 'snd ' 1: no command and no comment stands for this type"
BOTH = ("WIND", "128", "WIND", "-5")


def put(place, name, data):
    """Writes the bytes of a file, and gives its name."""
    with open(place.path(name), "wb") as file:
        file.write(data)
    return name


def rez(place, *words, given=""):
    """The status of desk-rez that is called so, with what it writes."""
    return place.call("desk-rez", *words, given=given, over=False)


def a_table_says_what_becomes_of_each(place):
    put(place, "made.rsrc", FORK)
    same("the table", rez(place, "list", "made.rsrc"), (0, LIST, ""))
    same("strictly", rez(place, "--strict", "list", "made.rsrc"), (1, LIST, ""))
    put(place, "made.double", double(FORK))
    status, out, said = rez(place, "list", "made.double", "--json")
    found = json.loads(out)
    same("the same in JSON", (status, said, found["container"], len(found["resources"])), (0, "", "AppleDouble", 5))
    wanted = {"type": "WIND", "number": -5, "name": "", "size": 19, "commands": 1, "version": 1, "told": [TOLD], "fault": ""}
    same("a resource", found["resources"][1], wanted)


def a_script_is_written_and_what_it_lacks_is_told(place):
    put(place, "made.rsrc", FORK)
    told = f"desk-rez: 'WIND' -5: {TOLD}.\n"
    same("two windows", rez(place, "script", "made.rsrc", *BOTH), (0, SCRIPT, told))
    same("strictly", rez(place, "script", "made.rsrc", "--strict", *BOTH), (1, SCRIPT, told))
    same("one that lacks nothing", rez(place, "script", "--strict", "made.rsrc", "WIND", "128")[::2], (0, ""))
    status, out, said = rez(place, "script", "made.rsrc", *BOTH, "--json")
    found = json.loads(out)
    same("in JSON", (status, said, found["version"], "\n".join(found["lines"]) + "\n"), (0, told, 1, SCRIPT))
    same("what is told in JSON", found["told"], [{"type": "WIND", "number": -5, "why": TOLD}])
    status, out, _ = rez(place, "script", "made.rsrc")
    same("all", (status, out.split("\n")[1], out.split("\n")[-2]), (0, "# 'WIND' -5", UNKNOWN))


def strings_are_written_as_utf_8(place):
    put(place, "made.rsrc", FORK)
    same("all", rez(place, "text", "made.rsrc"), (0, "one\u00e9\ntwo\nthree\nlines\n", ""))
    same("a string", rez(place, "text", "made.rsrc", "STR", "1"), (0, "one\u00e9\n", ""))
    status, out, _ = rez(place, "text", "made.rsrc", "STR#", "2", "--json")
    wanted = [{"type": "STR#", "number": 2, "text": it} for it in ("two", "three\nlines")]
    same("in JSON", (status, json.loads(out)), (0, wanted))
    lacks = "desk-rez: made.rsrc: 'WIND' 128 has no strings: STR, STR#, TEXT and vers have some.\n"
    same("a window", rez(place, "text", "made.rsrc", "WIND", "128"), (1, "", lacks))


def a_font_is_taken_out(place):
    put(place, "made.rsrc", fork(Made(b"FONT", 12, FONT), Made(b"NFNT", 7, FONT[:30]), Made(b"FONT", 7, b"")))
    same("what is said", rez(place, "font", "made.rsrc", "12", "out.font"), (0, "", ""))
    with open(place.path("out.font"), "rb") as file:
        same("its bytes", file.read(), FONT)
    place.write("text.desk", 'desk 24 24 0\nwindow plain 0 0 16 8 1 0 ""\ndraw 1 text 1 3 srcOr "AB"\nimage\n')
    same("a desk draws in it", place.call("desk-png", "--font", "out.font", "text.desk", "seen")[::2], (0, ""))
    rows = place.picture("seen-1.png")
    # Its image has the rows A880, 7480 and A880: A is the three columns from the left, B the five behind these.
    same("the letters", [row[1:10] for row in rows[1:4]], ["101" + "0" + "01000", "011" + "0" + "10100", "101" + "0" + "01000"])
    short = "'NFNT' 7 is no font of a desk: it has 30 bytes, and its places, 4 words, begin at byte 32"
    same("one that is cut", rez(place, "font", "made.rsrc", "7", "x"), (1, "", f"desk-rez: made.rsrc: {short}.\n"))
    none = "desk-rez: made.rsrc: there is no 'FONT' 8 and no 'NFNT' 8.\n"
    same("none", rez(place, "font", "made.rsrc", "8", "x"), (1, "", none))
    same("the files", place.files(), ["made.rsrc", "out.font", "seen-1.png", "text.desk"])


def an_image_is_taken_out(place):
    cursor = Made(b"CURS", 3, of_hex(ARROW + ARROW_MASK + "0000 0000"))
    pattern, patterns = Made(b"PAT ", 4, of_hex("80 40 20 10 08 04 02 01")), Made(b"PAT#", 5, of_hex("0002" + "FF" * 8 + "00" * 8))
    put(place, "made.rsrc", fork(Made(b"ICON", 1, ICON), Made(b"ICN#", 2, ICON + MASK), cursor, pattern, patterns))
    icon = ["1" + "0" * 30 + "1", *["0" * 32] * 30, "1" * 32]
    arrow = ["1" + "0" * 15, *["11" + "0" * 14] * 14, "0" * 15 + "1"]
    for words, wanted in [
        (("ICON", "1"), icon),
        (("ICN#", "2"), icon),
        (("ICN#", "2", "--mask"), ["1" * 32] * 32),
        (("CURS", "3"), arrow),
        (("PAT", "4"), ["0" * at + "1" + "0" * (7 - at) for at in range(8)]),
        (("PAT#", "5"), ["1" * 8 + "0" * 8] * 8),
        (("PAT#", "5", "--scale", "2"), ["1" * 16 + "0" * 16] * 16),
    ]:
        same(f"{words}", rez(place, "icon", "made.rsrc", *words[:2], "out.png", *words[2:]), (0, "", ""))
        same(f"the picture of {words}", place.picture("out.png"), wanted)
    words = [os.path.join(TOP, "desk-rez"), "icon", "made.rsrc", "ICON", "1", "-"]
    ran = subprocess.run(words, cwd=place.folder, capture_output=True, timeout=60)
    same("on standard output", pixels_of(ran.stdout), icon)
    lacks = "desk-rez: made.rsrc: 'ICON' 1 has no mask.\n"
    same("no mask", rez(place, "icon", "made.rsrc", "ICON", "1", "x.png", "--mask"), (1, "", lacks))
    same("the files", place.files(), ["made.rsrc", "out.png"])


def files_that_cannot_be_read_are_named(place):
    put(place, "made.rsrc", FORK)
    put(place, "half.rsrc", FORK[:300])
    # (five resources of 24, 19, 5, 18 and 3 bytes, and four for the count of each)
    head = "the resource fork has 300 bytes, and the resource data, of 89, begins at byte 256"
    for words, said in [
        (["list", "nowhere"], "nowhere cannot be read: No such file or directory."),
        (["list", place.folder], f"{place.folder} cannot be read: Is a directory."),
        (["list", "half.rsrc"], f"half.rsrc: {head}."),
        (["script", "made.rsrc", "WIND", "7"], "made.rsrc: there is no 'WIND' 7."),
        (["icon", "made.rsrc", "WIND", "128", "x"], "made.rsrc: 'WIND' 128 is no image: ICON, ICN#, CURS, PAT and PAT# are."),
        (["list", "-"], "-: the file is empty, and has no resource fork."),
    ]:
        same(f"{words}", rez(place, *words), (1, "", f"desk-rez: {said}\n"))
    put(place, "icon.rsrc", fork(Made(b"ICON", 1, ICON)))
    said = "desk-rez: no/x.png cannot be written: No such file or directory.\n"
    same("a folder that is not there", rez(place, "icon", "icon.rsrc", "ICON", "1", "no/x.png"), (1, "", said))


def words_that_are_wrong_are_said(place):
    put(place, "made.rsrc", FORK)
    for words, said in [
        ([], f"a VERB and a FILE have to be there. {USAGE}"),
        (["list"], f"a VERB and a FILE have to be there. {USAGE}"),
        (["show", "made.rsrc"], f"'show' is no verb. {USAGE}"),
        (["list", "made.rsrc", "WIND"], f"list has 1 words behind FILE, which are too many or too few. {USAGE}"),
        (["script", "made.rsrc", "WIND"], f"script has 1 words behind FILE, which are too many or too few. {USAGE}"),
        (["font", "made.rsrc", "1"], f"font has 1 words behind FILE, which are too many or too few. {USAGE}"),
        (["icon", "made.rsrc", "ICON", "1"], f"icon has 2 words behind FILE, which are too many or too few. {USAGE}"),
        (["font", "made.rsrc", "1", "x", "--json"], f"font writes no JSON. {USAGE}"),
        (["script", "made.rsrc", "WIND", "x"], f"'x' is no number of a resource. {USAGE}"),
        (["script", "made.rsrc", "WIND", "32768"], "'32768' is no number of a resource, which are -32768..32767."),
        (["--scale", "17", "list", "made.rsrc"], f"argument --scale: '17' is no number from 1 to 16. {USAGE}"),
        (["--program", "x", "list", "made.rsrc"], f"unrecognized arguments: --program. {USAGE}"),
    ]:
        status, out, error = rez(place, *words)
        same(f"{words}", (status, out), (2, ""))
        if words[:1] != ["--program"]:
            same(f"what is said of {words}", error, f"desk-rez: {said}\n")


def standard_input_is_a_file(place):
    """Of Rez, whose text standard input can hold here."""
    given = "resource 'STR ' (1) { \"one\" };"
    same("the strings", rez(place, "text", "-", given=given), (0, "one\n", ""))


TESTS = [
    a_table_says_what_becomes_of_each,
    a_script_is_written_and_what_it_lacks_is_told,
    strings_are_written_as_utf_8,
    a_font_is_taken_out,
    an_image_is_taken_out,
    files_that_cannot_be_read_are_named,
    words_that_are_wrong_are_said,
    standard_input_is_a_file,
]
