"""Tests of the parts of desk_kit and of tools/rt, one by one, for kit-tests."""

import fcntl
import importlib.machinery
import importlib.util
import os
import subprocess
import types
import zlib

from desk_kit import rows
from desk_kit.answers import Command, Fault, answers_of, commands_of, split
from desk_kit.differences import first_difference
from desk_kit.pictures import image_of, images, p4_of, pixels_of, png_of
from place import TOP, same

# A row of 71 columns takes two lines, one of 140 two full ones.
WIDE = b"P1\n71 2\n" + (b"01" * 35 + b"\n1\n") * 2
FULL = b"P1\n140 1\n" + b"0" * 70 + b"\n" + b"1" * 70 + b"\n"
SMALL = b"P1\n3 2\n101\n010\n"
RT = os.path.join(TOP, "tools", "rt")


def refused(what, call, *values):
    """Wants a Fault of this call."""
    try:
        found = call(*values)
    except Fault:
        return
    raise Fault(f"{what}: {found!r} in place of a fault")


def the_lines_that_are_answered_are_a_script_s_commands(_):
    long = b"#" + b"x" * 1024
    for script, wanted in [
        (b"", []),
        (b"\n\r\n# no\n#\n", []),
        (b"a\nb", [(1, b"a"), (2, b"b")]),
        (b"# no\r\na\r\n\r\nb c\r\n", [(2, b"a"), (4, b"b c")]),
        # Only one return belongs to the ending, and none does at the end of the script.
        (b"a\r\r\nb\r", [(1, b"a\r"), (2, b"b\r")]),
        (b"\r", [(1, b"\r")]),
        (b" # yes\n\t\n", [(1, b" # yes"), (2, b"\t")]),
        # A comment of 1024 bytes is skipped, and one of 1025 is answered.
        (long[:1024] + b"\r\n" + long + b"\r\n", [(2, long)]),
    ]:
        same(f"the commands of {script[:20]!r}", commands_of(script), [Command(*it) for it in wanted])


def a_text_is_split_into_its_answers(_):
    for answers in ([], [b"ok\n"], [b"ok\n", SMALL, WIDE, b"ok 1\n", FULL, FULL], [b"\n", b"P1 \n"]):
        same(f"the answers of {len(answers)}", answers_of(b"".join(answers)), answers)
    for cut in range(1, len(WIDE)):
        # A first line is whole by itself, but for the one that begins an image.
        same(f"what is left of {cut} bytes", split(b"ok\n" + WIDE[:cut]), ([b"ok\n"], WIDE[:cut]))
    for sides in (b"", b"3\n", b"3 2\n", b"0 2\n", b"03 2\n", b"-3 2\n", b"3  2\n", b"3 2 \n"):
        rest = b"P1\n" + sides + b"101\n01"
        same(f"{rest!r}", split(b"ok\n" + rest), ([b"ok\n"], rest))
        refused(f"{rest!r}", answers_of, b"ok\n" + rest)
    refused("a line without its end", answers_of, b"ok\nok")


def an_answer_is_an_image(_):
    same("the small image", image_of(SMALL), ["101", "010"])
    same("the wide one", image_of(WIDE), ["01" * 35 + "1"] * 2)
    same("the full one", image_of(FULL), ["0" * 70 + "1" * 70])
    same("all of a text", images(b"ok\n" + SMALL + b"ok 1\n" + SMALL), [["101", "010"]] * 2)
    same("those of no image", images(b"ok\nok"), [])
    refused("half an image", images, b"ok\n" + SMALL[:-1])
    for broken in (SMALL.replace(b"010", b"0x0"), SMALL.replace(b"101\n0", b"1010\n"), WIDE.replace(b"1\n1\n", b"\n11\n")):
        refused(f"{broken!r}", image_of, broken)


def files_of_images_have_their_pixels(_):
    image = ["101", "010"]
    same("the raw format", p4_of(image), b"P4\n3 2\n\xa0\x40")
    same("nine pixels", p4_of(["000000011"]), b"P4\n9 1\n\x01\x80")
    png = png_of(image, 2)
    # Six by four pixels of one bit, gray, no interlacing. 1 is white: 110011 is 00110011 in a whole byte.
    same("the head", png[:29], b"\x89PNG\r\n\x1a\n\0\0\0\rIHDR\0\0\0\x06\0\0\0\x04\x01\0\0\0\0")
    length = int.from_bytes(png[33:37], "big")
    same("the rows", zlib.decompress(png[41 : 41 + length]), b"\0\x33\0\x33\0\xcf\0\xcf")
    same("the end", png[45 + length :], b"\0\0\0\0IEND\xae\x42\x60\x82")
    same("what is read", pixels_of(png), ["110011", "110011", "001100", "001100"])


def the_first_difference_is_said(_):
    script = b"desk 3 2 0\n\nimage\nfind 0 0\n"
    stored = b"ok\n" + SMALL + b"ok 0 0\n"
    wide, flat = b"P1\n4 2\n1010\n0100\n", b"P1\n2 1\n11\n"
    there = "line 3, 'image': an image"
    small = "in place of one of 3 by 2; they differ"
    for found, said in [
        (stored, None),
        (stored.replace(b"010", b"011"), f"{there} that differs in 1 pixel, at 2 1, black in place of white"),
        (stored.replace(b"101", b"011"), f"{there} that differs in 2 pixels, the first at 0 0, white in place of black"),
        (b"ok\n" + wide, f"{there} of 4 by 2 {small} in 2 pixels, the first at 3 0, white in place of no pixel"),
        (b"ok\n" + flat, f"{there} of 2 by 1 {small} in 5 pixels, the first at 1 0, black in place of white"),
        (b"ok\nrefused 1 NoMemory\n", "line 3, 'image': 'refused 1 NoMemory' in place of an image of 3 by 2"),
        (b"ok\n" + SMALL[:-2], "line 3, 'image': a broken image in place of an image of 3 by 2"),
        (b"ok\nP1\n3 2\n1x1\n010\n", "line 3, 'image': a broken image in place of an image of 3 by 2"),
        (b"", "line 1, 'desk 3 2 0': nothing in place of 'ok'"),
        (b"ok\n" + SMALL, "line 4, 'find 0 0': nothing in place of 'ok 0 0'"),
        (stored[:-1], "line 4, 'find 0 0': 'ok 0 0' without the end of the line"),
        (stored + b"check 0\n", "after the last command: 'check 0' in place of nothing"),
    ]:
        difference = first_difference(script, found, stored)
        same(f"what is said of {found!r}", difference and difference.said(), said)
    broken = SMALL.replace(b"101", b"x0x")
    said = "line 1, 'image': a broken image in place of 'ok'"
    same("a broken image for a line", first_difference(b"image\n", broken, b"ok\n").said(), said)
    said = "line 1, 'image': '101' in place of 'x0x'"
    same("two broken images", first_difference(b"image\n", SMALL[:10], broken).said(), said)


def images_of_two_sizes_differ_where_one_has_no_pixel(_):
    wide = b"P1\n4 1\n1010\n"
    drawn = {"line-1.found": ["1010"], "line-1.due": ["101", "010"], "line-1.differ": ["0001", "1110"]}
    same("the pictures", first_difference(b"image\n", wide, SMALL).pictures(), drawn)
    same("those of one alone", first_difference(b"image\n", b"", SMALL).pictures(), {"line-1.due": ["101", "010"]})
    same("those of no command", first_difference(b"", wide, b"").pictures(), {"end.found": ["1010"]})


def a_long_answer_is_shown_where_it_differs(_):
    """The texts differ at the byte 104, which is the last digit: 20 bytes before it are shown."""
    due = b"ok " + b"0A" * 50 + b"0\n"
    said = f"line 1, '{'x' * 60}'...: ...'{'0A' * 10}1' in place of ...'{'0A' * 10}0'"
    same("what is said", first_difference(b"x" * 70, due.replace(b"0\n", b"1\n"), due).said(), said)


def a_run_that_does_not_end_is_broken_off(place):
    place.write("slow", "#!/bin/sh\nexec sleep 60\n", 0o755)
    place.write("row.desk", "")
    usual, rows.SECONDS = rows.SECONDS, 0.1
    try:
        rows.Row(place.path("row")).run(place.path("slow"))
        raise Fault("it ended")
    except Fault as fault:
        same("what is said", str(fault), "it had not ended after 0.1 seconds")
    finally:
        rows.SECONDS = usual


def kit_rt():
    """The command tools/rt as a module."""
    loader = importlib.machinery.SourceFileLoader("kit_rt", RT)
    made = importlib.util.module_from_spec(importlib.util.spec_from_loader("kit_rt", loader))
    loader.exec_module(made)
    return made


def a_command_of_the_rattle_kit_is_the_kit_s_own(_):
    asked = []

    class Crate:
        stamp = kit_rt().once(lambda self: asked.append(self) or len(asked))

    one, other = Crate(), Crate()
    same("sums", [one.stamp(), other.stamp(), one.stamp(), other.stamp()], [1, 2, 1, 2])
    same("what is summed", asked, [one, other])
    told = [subprocess.run([*it, "version"], capture_output=True, check=True).stdout for it in (["rt"], [RT])]
    same("the version", told[1], told[0])


def a_lock_that_is_known_is_left_out_and_no_other(_):
    def lock(crates):
        held = [(it, fcntl.LOCK_EX) for it in crates]
        return held

    def gives_none(crates):
        return [(it, fcntl.LOCK_EX) for it in crates]

    def locks_none(crates):
        held = crates
        return held

    for found, is_known in [(lock, True), (gives_none, False), (locks_none, False), (None, False), (len, False)]:
        rtlib = types.SimpleNamespace(lock=found)
        same(f"whether {found} is known", kit_rt().lock_nothing(rtlib), is_known)
        same(f"whether {found} stays", rtlib.lock is found, not is_known)
        same("what is held", rtlib.lock([1]) if is_known else [], [])
    same("whether there is one", kit_rt().lock_nothing(types.SimpleNamespace()), False)


TESTS = [
    the_lines_that_are_answered_are_a_script_s_commands,
    a_text_is_split_into_its_answers,
    an_answer_is_an_image,
    files_of_images_have_their_pixels,
    the_first_difference_is_said,
    images_of_two_sizes_differ_where_one_has_no_pixel,
    a_long_answer_is_shown_where_it_differs,
    a_run_that_does_not_end_is_broken_off,
    a_command_of_the_rattle_kit_is_the_kit_s_own,
    a_lock_that_is_known_is_left_out_and_no_other,
]
