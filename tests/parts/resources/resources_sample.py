"""Tests of the sample in examples/resources and of what docs/RESOURCES.md shows of it, for resources. That its commands print what
the page says, tests/commands tests."""

import os
import re
import subprocess
import sys

from desk_kit.pictures import pixels_of
from desk_kit.resources import becomes, opened
from place import TOP, same

SAMPLE = os.path.join(TOP, "examples", "resources")
PAGE = os.path.join(TOP, "docs", "RESOURCES.md")
NOTES = os.path.join(SAMPLE, "notes.rsrc")
OF_VERSION_1 = ("MBAR", "128", "WIND", "128", "CNTL", "128")


def bytes_of(name):
    with open(os.path.join(SAMPLE, name), "rb") as file:
        return file.read()


def the_sample_is_what_its_program_makes(_):
    made = os.path.join(SAMPLE, "make-notes")
    for words, status in (["--check"], 0), (["--chek"], 1):
        ran = subprocess.run([sys.executable, made, *words], capture_output=True, timeout=60)
        same(f"{words}", (ran.returncode, ran.stdout), (status, b""))


def the_page_shows_its_bytes(_):
    with open(PAGE, encoding="utf-8") as file:
        lines = re.findall(r"(?m)^    ([0-9A-F]{4}  .*|\*)$", file.read())
    found, at = bytearray(), 0
    for line in lines:
        if line != "*":
            place = int(line[:4], 16)
            found += bytes(place - at) + bytes.fromhex(line[6:45].replace(" ", ""))
            at = len(found)
    same("the bytes of the page", bytes(found), bytes_of("notes.rsrc"))


def its_pictures_are_of_now(place):
    script = place.call("desk-rez", "script", NOTES, *OF_VERSION_1, over=False)
    same("the script", script[0], 0)
    place.write("notes.desk", script[1] + "image\n")
    said = place.call("desk-png", "--strict", "--scale", "2", "notes.desk", "notes")
    same("its picture", (said, place.picture("notes-1.png")), ((0, "notes-1.png\n", ""), pixels_of(bytes_of("notes.png"))))
    words = ("icon", NOTES, "ICON", "128", place.path("sheet.png"), "--scale", "4")
    same("its icon", place.call("desk-rez", *words, over=False), (0, "", ""))
    same("the icon's picture", place.picture("sheet.png"), pixels_of(bytes_of("sheet.png")))


def each_resource_of_it_becomes_something(_):
    found = opened(bytes_of("notes.rsrc")).resources
    same("faults", [it.label for it in found if becomes(found, it).fault], [])
    same("the icon", pixels_of(bytes_of("sheet.png"))[20][24:104], "1" * 64 + "0" * 16)


TESTS = [
    the_sample_is_what_its_program_makes,
    the_page_shows_its_bytes,
    its_pictures_are_of_now,
    each_resource_of_it_becomes_something,
]
