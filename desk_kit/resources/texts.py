"""STR, STR# and vers as comments, and TEXT as a text record of version 3. *Inside Macintosh* I, chapter "Toolbox Utilities",
section "Formats of Miscellaneous Resources", has the bytes of strings and their lists; *Macintosh Toolbox Essentials*, chapter
"Finder Interface", those of a version."""

from __future__ import annotations

from desk_kit.resources.fork import Resource
from desk_kit.resources.script import Script
from desk_kit.resources.words import bytes_word, quoted, readable

STAGES = {0x20: "d", 0x40: "a", 0x60: "b", 0x80: ""}
# The sides of the window of a text, and how far its record lies from these.
WIDTH, HEIGHT, MARGIN = 320, 200, 4
LONGEST_TEXT, BYTES_OF_A_LINE = 32000, 255
KINDS = ("STR ", "STR#", "TEXT", "vers")


def strings_of(resource: Resource) -> list[bytes]:
    """The texts of a resource of one of these types: of a version its short and its long one."""
    read = resource.cursor()
    if resource.kind == "TEXT":
        return [resource.data]
    if resource.kind == "STR ":
        return [read.pascal("the string")]
    if resource.kind == "vers":
        read.take(6, "its numbers")
        return [read.pascal("the short text"), read.pascal("the long text")]
    count = read.number("H", "the count of its strings")
    read.need(count, f"a list of {count} strings")
    return [read.pascal(f"string {it}") for it in range(1, count + 1)]


def lines_of(data: bytes) -> str:
    """A text for somebody who reads it: a return ends a line, and what does not print else is its number."""
    return "\n".join(map(readable, data.split(b"\r")))


def write_strings(script: Script, resource: Resource) -> None:
    """Strings, each as a comment with its number."""
    strings = strings_of(resource)
    if resource.kind == "STR ":
        script.head(resource, f"the string {quoted(strings[0])}")
        return
    script.head(resource, f"{len(strings)} strings")
    for number, it in enumerate(strings, 1):
        script.note(f"{number} {quoted(it)}")


def write_vers(script: Script, resource: Resource) -> None:
    """A version: major and minor number in decimal digits, stage, number of the stage, region, short and long text."""
    major, minor, stage, number, region = resource.cursor().numbers("BBBBH", "its numbers")
    short, long = strings_of(resource)
    staged = f"{STAGES.get(stage, f' stage {stage:02X} ')}{number:X}" if stage != 0x80 else ""
    said = f"version {major:X}.{minor >> 4:X}.{minor & 15:X}{staged}, region {region}"
    script.head(resource, f"{said}, {quoted(short)}, {quoted(long)}")


def write_text(script: Script, resource: Resource) -> None:
    """A text, in a text record of a window that is opened for it. It comes in parts of 255 bytes, and is cut at 32,000."""
    script.head(resource, f"a text of {len(resource.data)} bytes")
    if len(resource.data) > LONGEST_TEXT:
        script.tell(resource, f"a text record holds {LONGEST_TEXT} bytes, and those behind them are left out")
    window = script.own_window(resource, WIDTH, HEIGHT)
    if window is None:
        return
    width, right, bottom = WIDTH - 2 * MARGIN, WIDTH - MARGIN, HEIGHT - MARGIN
    record = script.text_records = script.text_records + 1
    place = f"{MARGIN} {MARGIN} {width} {MARGIN} {MARGIN} {right} {bottom}"
    script.do(f"text {window.number} {place} 0 1", 3)
    data = resource.data[:LONGEST_TEXT]
    for at in range(0, len(data), BYTES_OF_A_LINE):
        verb = "tinsert" if at else "tset"
        script.do(f"{verb} {window.number} {record} {bytes_word(data[at : at + BYTES_OF_A_LINE])}", 3)
