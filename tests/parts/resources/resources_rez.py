"""Tests of the text of Rez and DeRez, for resources: each template makes the bytes that were written by hand."""

from desk_kit.resources import opened, script_of
from place import same
from resources_containers import said_of
from resources_made import of_hex

# A text as DeRez writes it, and as somebody writes it, with each resource's bytes.
TEXTS = [
    (
        """resource 'WIND' (128, "Main", purgeable) {
            {20, 40, 80, 200},
            zoomDocProc,
            visible,
            goAway,
            0x0,
            "Notes"
        };""",
        "0014 0028 0050 00C8 0008 0100 0100 00000000 05 4E6F746573",
    ),
    (
        "resource 'WIND' (2) { {-20, 40, 80, 200}, rDocProc, invisible, noGoAway, 7, Untitled, centerMainScreen };",
        "FFEC 0028 0050 00C8 0010 0000 0000 00000007 08 556E7469746C6564 00 280A",
    ),
    (
        "resource 'DLOG' (129) { {20, 40, 80, 200}, dBoxProc, visible, noGoAway, 0x0, 129, \"\", noAutoCenter };",
        "0014 0028 0050 00C8 0001 0100 0000 00000000 0081 00 00 0000",
    ),
    (
        """resource 'ALRT' (130) { {20, 40, 80, 200}, 129,
            { /* array: 4 elements */
                /* [1] */ OK, visible, sound3,
                /* [2] */ OK, visible, 2,
                /* [3] */ Cancel, visible, sound1,
                /* [4] */ OK, invisible, silent
            } };""",
        "0014 0028 0050 00C8 0081 76D0",
    ),
    (
        """resource 'DITL' (129) { {
                {64, 170, 84, 230}, Button { enabled, "Find" };
                {10, 10, 26, 50}, StaticText { disabled, "For" };
                {32, 16, 64, 48}, Icon { disabled, 200 };
                {32, 16, 64, 48}, UserItem { enabled };
                {32, 16, 64, 48}, HelpItem { disabled, HMScanhdlg { 128 } };
            } };""",
        """0004 00000000 0040 00AA 0054 00E6 04 04 46696E64 00000000 000A 000A 001A 0032 88 03 466F72 00
        00000000 0020 0010 0040 0030 A0 02 00C8 00000000 0020 0010 0040 0030 00 00
        00000000 0020 0010 0040 0030 81 00""",
    ),
    (
        """resource 'DITL' (1) { {
                {0, 0, 1, 1}, CheckBox { enabled, "" }; {0, 0, 1, 1}, RadioButton { enabled, "" };
                {0, 0, 1, 1}, EditText { disabled, "" }; {0, 0, 1, 1}, Picture { enabled, -2 };
                {0, 0, 1, 1}, Control { enabled, 5 }
            } };""",
        """0004 00000000 0000 0000 0001 0001 05 00 00000000 0000 0000 0001 0001 06 00 00000000 0000 0000 0001 0001 90 00
        00000000 0000 0000 0001 0001 40 02 FFFE 00000000 0000 0000 0001 0001 07 02 0005""",
    ),
    ("resource 'STR ' (2) { \"\\t\\b\\r\\n\\f\\v\\?\\'\\\\\\0b01000001\" };", "0A 09 08 0A 0D 0C 0B 7F 27 5C 41"),
    (
        """resource 'MENU' (3) { 3, textMenuProc, 0x7FFFFFFC, enabled, "Edit", {
                "Undo", noIcon, "Z", noMark, plain;
                "-", noIcon, noKey, noMark, plain;
                "Sub", 2, hierarchicalMenu, "\\0x05", 1;
                "Wrap", noIcon, noKey, check, plain
            } };""",
        """0003 0000 0000 0000 0000 FFFFFFF9 04 45646974 04 556E646F 00 5A 00 00 01 2D 00 00 00 00
        03 537562 02 1B 05 01 04 57726170 00 00 12 00 00""",
    ),
    ("resource 'MENU' (1) { 1, 0, allEnabled, disabled, apple, { } };", "0001 0000 0000 0000 0000 FFFFFFFE 01 14 00"),
    ("resource 'MBAR' (128) { { 1, 2, kEdit } };", "0003 0001 0002 0003"),
    (
        "resource 'CNTL' (5) { {2, 3, 22, 64}, 0, visible, 1, 0, pushButProc, 0, \"OK\" };",
        "0002 0003 0016 0040 0000 0100 0001 0000 0000 00000000 02 4F4B",
    ),
    ("resource 'STR ' (1) { \"caf\u00e9 \" \"\\\"x\\\"\\n\\0x41\\$42\\0d067\\104\" };", "0D 6361668E2022782 20D41424344"),
    ("resource 'STR#' (1) { { \"a\", $\"62 63\"; \"\" } };", "0003 01 61 02 6263 00"),
    ("resource 'TEXT' (1) { \"a\\tb\" };", "61 09 62"),
    ("resource 'ICON' (1) { $\"80000001\" };", "80000001" + "00" * 124),
    ("resource 'ICN#' (1) { { $\"FF\", $\"0F\" } };", "FF" + "00" * 127 + "0F" + "00" * 127),
    ("resource 'CURS' (1) { $\"8000\", $\"C000\", {2, 1} };", "8000" + "00" * 30 + "C000" + "00" * 30 + "0002 0001"),
    ("resource 'PAT ' (1) { $\"AA55AA55AA55AA55\" };", "AA55AA55AA55AA55"),
    ("resource 'PAT#' (1) { { $\"FF\", $\"00\" } };", "0002 FF00000000000000 0000000000000000"),
    (
        "resource 'vers' (1) { 0x1, 0b100011, final, 0x0, verUS, \"1.2.3\", \"1.2.3, Us\" };",
        "01 23 80 00 0000 05 312E322E33 09 312E322E332C205573",
    ),
    ("data 'snd ' (-7, \"Beep\", $20) {\n\t$\"0102 03\"  /* ... */\n\t$\"04\"\n};", "01020304"),
    ("data 'FONT' (12) { };", ""),
]
BEGIN = """// A file with more than resources.
#include "Types.r"
#define kEdit 3
#define kMore (kEdit + 1) | 8
type 'SIZE' { integer; array { byte; }; };
type 'mine' as 'STR ';
"""


def each_template_makes_its_bytes(_):
    for text, wanted in TEXTS:
        kind = text.partition("'")[2][:4]
        (it,) = opened((BEGIN + text).encode("utf-8")).resources
        same(text, (it.kind, it.data.hex()), (kind, of_hex(wanted).hex()))
    found = opened(TEXTS[0][0].encode())
    same("what it comes in", found.container, "Rez")
    same("number and name", [(it.number, it.name) for it in found.resources], [(128, b"Main")])
    (it,) = opened(TEXTS[-2][0].encode()).resources
    same("of data", (it.number, it.name), (-7, b"Beep"))


def a_text_in_macroman_is_read_as_it_is(_):
    (it,) = opened(b"resource 'STR ' (1) { \"caf\x8e\" }; // \xc9").resources
    same("its bytes", it.data, b"\x04caf\x8e")
    (it,) = opened(b"\r#define kOne 1\rresource 'STR ' (kOne) {\r\"a\"\r};\r").resources
    same("with returns", (it.number, it.data), (1, b"\x01a"))


def a_type_without_a_template_is_told(_):
    text = b"resource 'SIZE' (-1) { reserved, { 1, 2 } };\nresource 'STR ' (1) { \"a\" };"
    script = script_of(opened(text).resources)
    why = "'SIZE' -1: no template of this type is known here; DeRez writes it as data where it has none either"
    same("what is told", [it.sentence() for it in script.told], [why])
    same("the other", script.lines[0], "# 'STR ' 1: the string \"a\"")


def what_is_wrong_is_said_with_its_line(_):
    for text, said in [
        ("resource 'STR ' (1) { \"a }", "line 1: '\"' begins no word of Rez"),
        ("\nresource 'STR ' (1) { \"a\"", "line 2: the end of the text stands where '}' has to be"),
        ("\n\nresource 'STR ' (1) { 7 };", "line 3: 'STR ' 1 has a number where a string or name has to be"),
        ("resource 'STR ' (1) { \"a\", \"b\" };", "line 1: 'STR ' 1 has a value more than its template"),
        ("resource 'WIND' (1) {\n{1, 2, 3, 4}, 0 };", "line 1: 'WIND' 1 has fewer values than its template"),
        ("resource 'WIND' (1) {\n{1, 2, 3}, 0 };", "line 2: 'WIND' 1 has fewer values than its template"),
        ("resource 'WIND' (1) {\n{1, 2, 3, x}, 0 };", "line 2: 'WIND' 1 has the name x, which no constant here has"),
        ("resource 'WIND' (1) {{1, 2, 3, 70000}, 0};", "line 1: 'WIND' 1 has the number 70000, for which 2 bytes are too few"),
        ("resource 'STR' (1) { \"a\" };", "line 1: here a type of four characters in single quotes has to stand"),
        ("resource 'STR ' (40000) { \"a\" };", "line 1: the number 40000 is no resource's: it lies outside -32768..32767"),
        ("resource 'STR ' (x) { \"a\" };", "line 1: 'x' stands where a value has to be"),
        ("resource 'STR ' 1 { \"a\" };", "line 1: '1' stands where '(' has to be"),
        ("data 'STR ' (1) { $\"0\" };", "line 1: the string has other than pairs of hexadecimal digits"),
        ("data 'STR ' (1) { 7 };", "line 1: '7' stands where '}' has to be"),
        ("data 'STR ' (1) {}; read 'STR ' (2) \"a\";", "line 1: 'read' names another file, and none is read here"),
        ("#if 1\ndata 'STR ' (1) {};", "line 1: '#if 1' decides what is read, which is not done here"),
        ("window 'STR ' (1) {}; data 'x'", "line 1: here 'resource', 'data' or 'type' has to stand"),
        ("resource 'STR#' (1) " + "{" * 9 + "}" * 9, "line 1: braces stand more than 8 deep"),
        ("resource 'STR ' (" + "(" * 9 + "1", "line 1: parentheses stand more than 8 deep"),
        ("resource 'STR ' (" + "1" * 35 + ") {};", f"line 1: the number {'1' * 34}... is too long"),
        ("data 'STR ' (1) {}; data 'STR ' (1) {};", "'STR ' 1 is there twice"),
        ("data 'STR ' (1) {}; \u4e2d", "line 1: MacRoman has no character '\u4e2d'"),
        ("resource 'DITL' (1) { { {1,2,3,4}, Knob { enabled } } };", "line 1: 'DITL' 1 has an item of the kind Knob, which is none"),
        (f"resource 'STR ' (1) {{ \"{'x' * 256}\" }};", "line 1: 'STR ' 1 has a string of 256 bytes, and a Pascal string has 255 at most"),
        ("resource 'STR ' (1) { \"\\0d999\" };", "line 1: the escape \\0d999 is no byte"),
    ]:
        same(text, said_of(text.encode("utf-8")), said)


TESTS = [
    each_template_makes_its_bytes,
    a_text_in_macroman_is_read_as_it_is,
    a_type_without_a_template_is_told,
    what_is_wrong_is_said_with_its_line,
]
