"""Tests of bytes that strangers wrote, for resources: forks and texts cut at each byte, with each byte changed, with parts that are
shared or said to be larger than they are, and 20,000 mutants. Each is read, or refused by a Fault of one sentence; nothing else is
raised, and time and memory stay within bounds."""

import random
import resource
import subprocess
import sys
import time
import tracemalloc

from desk_kit.answers import Fault
from desk_kit.resources import becomes, opened, script_of
from place import TOP, Differs, same
from resources_containers import RESOURCES
from resources_made import FONT, Made, binhex, double, fork, mac_binary, of_hex, pascal
from resources_pictures import first_version, second_version
from resources_rez import TEXTS
from resources_types import BUTTON, ICON, ITEMS, MASK, MENU, SIDES

MUTANTS, SECONDS = 20000, 20
SEED = 1984
# How much time one broken file may take, and how much memory for each of its bytes, beside some for Python itself.
MOST_SECONDS, MOST_MEMORY, OWN_MEMORY = 5, 400, 4_000_000
WINDOW = of_hex(f"{SIDES} 0008 0100 0100 00000000") + pascal(b"Notes")
DIALOG = of_hex(f"{SIDES} 0001 0100 0000 00000000 0081 00")
SHAPES = "01 000A 0000 0000 0064 0064 41 0014 001E 001E 0032 28 0014 001E 02 6869 23 05 05 81 000A 000A 0014 001E 001E"
IMAGE = "0098 0008 0000 0000 0002 0040 0000 0000 0002 0040 000A 0014 000C 0054 0000 02 F9AA 02 F9AA"
# Small forks, each of which has a few types.
FORKS = [
    fork(Made(b"WIND", 1, WINDOW, name=b"Main"), Made(b"CNTL", 2, BUTTON)),
    fork(Made(b"MBAR", 1, of_hex("0001 0003")), Made(b"MENU", 3, MENU)),
    fork(Made(b"DLOG", 1, DIALOG), Made(b"DITL", 0x81, ITEMS)),
    fork(Made(b"ALRT", 1, of_hex(f"{SIDES} 0081 76D0")), Made(b"DITL", 0x81, of_hex("FFFF"))),
    fork(Made(b"ICON", 1, ICON), data_at=16),
    fork(Made(b"ICN#", 1, ICON + MASK), data_at=16),
    fork(Made(b"PAT#", 1, of_hex("0002 AA55AA55AA55AA55 0102030405060708")), Made(b"CURS", 1, bytes(68)), data_at=16),
    fork(Made(b"STR ", 1, pascal(b"one")), Made(b"STR#", 1, of_hex("0002 01 61 02 6263")), data_at=16),
    fork(Made(b"vers", 1, of_hex("01 23 80 00 0000 01 31 01 32")), Made(b"TEXT", 1, b"a text"), data_at=16),
    fork(Made(b"FONT", 12, FONT), Made(b"FOND", 1, bytes(52) + of_hex("0000 000C 0000 000C")), data_at=16),
    fork(Made(b"PICT", 1, first_version(SHAPES)), data_at=16),
    fork(Made(b"PICT", 1, second_version(IMAGE)), data_at=16),
]
CONTAINERS = [double(FORKS[0]), mac_binary(FORKS[4], 1), mac_binary(FORKS[1], 2), binhex(FORKS[7]), binhex(FORKS[0])]
TEXTS_OF_REZ = [text.replace("kEdit", "3").encode("utf-8") for text, _ in TEXTS]
# Numbers that are at the edge of something.
EDGES = (0, 1, 2, 0x7F, 0x80, 0xFE, 0xFF)


def outcome(data):
    """What becomes of these bytes: they are read, or refused in a sentence of one line."""
    try:
        found = opened(data).resources
        script = script_of(found)
        for line in script.finished():
            if len(line.encode("utf-8")) > 1024 or "\n" in line:
                raise Differs(f"the line {line[:60]!r} is no line of a script")
        return "read"
    except Differs:
        raise
    except Fault as fault:
        said = str(fault)
        if "\n" in said or not said:
            raise Differs(f"{said!r} is no sentence") from None
        return "refused"
    except Exception as fault:
        raise Differs(f"{type(fault).__name__}: {fault}, of the bytes {data.hex()[:4000]}") from fault


def forks_cut_at_each_byte_are_refused(_):
    """Each part of a fork ends where the fork does, so that none of its begins is one."""
    for data in FORKS:
        found = {outcome(data[:size]) for size in range(len(data))}
        same("a begin of a fork", found, {"refused"})
        same("the whole", outcome(data), "read")


def containers_and_texts_cut_at_each_byte_are_read_or_refused(_):
    for data in [*CONTAINERS, *TEXTS_OF_REZ]:
        for size in range(len(data)):
            outcome(data[:size])
        same("the whole", outcome(data), "read")


def each_byte_may_be_another(_):
    for data in [*FORKS, *CONTAINERS, *TEXTS_OF_REZ]:
        for at in range(16 if data[16:256] == bytes(240) else 0, len(data)):
            for byte in (0xFF, data[at] ^ 0x01, 0x00):
                outcome(data[:at] + bytes([byte]) + data[at + 1 :])


def mutant(chance):
    """One of the forks, containers and texts, with some of its bytes changed, cut out, doubled or taken from another."""
    data = bytearray(chance.choice(FORKS * 2 + CONTAINERS + TEXTS_OF_REZ))
    for _ in range(chance.randint(1, 4)):
        at = chance.randrange(len(data)) if data else 0
        how = chance.randrange(6)
        if how <= 2 and data:
            data[at] = chance.choice(EDGES) if how else chance.randrange(256)
        elif how == 3:
            del data[at : at + chance.randint(1, 8)]
        elif how == 4:
            data[at:at] = data[at : at + chance.randint(1, 16)]
        else:
            data[at : at + 4] = chance.choice(FORKS)[-chance.randint(4, 60) :][:4]
    return bytes(data)


def mutants_are_read_or_refused(_):
    """The time is that of the processor: a busy machine is slow."""
    chance, began, found = random.Random(SEED), time.process_time(), {"read": 0, "refused": 0}
    for _ in range(MUTANTS):
        found[outcome(mutant(chance))] += 1
    took = time.process_time() - began
    if took > SECONDS:
        raise Differs(f"{MUTANTS} mutants took {took:.1f} s; {SECONDS} s is the most")
    if min(found.values()) < MUTANTS // 10:
        raise Differs(f"of the mutants too few are read, or refused: {found}")


def scripts_of_mutants_have_no_refused_line(place):
    """A script of version 1 that comes of broken bytes is run all the same without a refusal."""
    chance, scripts = random.Random(SEED + 1), []
    while len(scripts) < 150:
        try:
            script = script_of(opened(mutant(chance)).resources)
        except Fault:
            continue
        if script.version == 1 and script.commands:
            scripts.append("\n".join(script.finished()) + "\n")
    for script in scripts:
        ran = subprocess.run([place.program, "--check"], input=script.encode("utf-8"), capture_output=True, timeout=60)
        refused = [it for it in ran.stdout.split(b"\n") if it.startswith(b"refused")]
        same(f"what is refused of {script!r}", (ran.returncode, refused), (0, []))
        same("the check", ran.stdout.rstrip().split(b"\n")[-1], b"check 0")


def bombs():
    """Files that say far more than they have, or that would have one part read again and again."""
    menu = of_hex("0003 0000 0000 0000 0000 FFFFFFFF 01 41") + (pascal(b"i") + bytes(4)) * 8000 + b"\0"
    items = of_hex("0FFF") + of_hex("00000000 0020 0010 0040 0030 00 00") * 4096
    dialogs = [Made(b"DLOG", it, DIALOG) for it in range(1500)]
    yield "one menu 20,000 times", fork(Made(b"MBAR", 1, of_hex("4E20") + of_hex("0003") * 20000), Made(b"MENU", 3, menu))
    yield "one list of items for all dialogs", fork(*dialogs, Made(b"DITL", 0x81, items))
    yield "65,535 strings", fork(Made(b"STR#", 1, of_hex("FFFF") + bytes(65535)))
    yield "65,535 patterns", fork(Made(b"PAT#", 1, of_hex("FFFF") + bytes(8 * 65535)))
    yield "a picture of one shape", fork(Made(b"PICT", 1, first_version("31 0014 001E 001E 0032" + "39" * 100000)))
    yield "a polygon again and again", fork(Made(b"PICT", 1, first_version("71 01FE" + "0000" * 254 + "79" * 50000)))
    row = "FA" + "81AA" * 125
    image = "98 3FFF 0000 0000 0BB8 1F40 0000 0000 0BB8 0100 0000 0000 0BB8 0100 0000"
    yield "rows that unpack", fork(Made(b"PICT", 1, first_version(image + ("00" + row) * 3000)))
    yield "runs of BinHex", b"(This file must be converted with BinHex 4.0)\n:" + b"!\"(rrr" * 50000 + b":"
    yield "braces of Rez", b"resource 'STR#' (1) " + b"{" * 200000
    yield "comments of Rez", b"resource 'STR#' (1) " + b"/*" * 200000
    yield "parentheses of Rez", b"resource 'STR#' (" + b"(" * 200000
    yield "names of Rez", b"".join(b"#define a%d a%d\n" % (it + 1, it) for it in range(10000)) + b"resource 'STR ' (a1) {"
    yield "resources", fork(*[Made(b"STR ", it, b"\0") for it in range(5000)])


def what_says_more_than_it_has_takes_no_more(_):
    for what, data in bombs():
        tracemalloc.start()
        began = time.process_time()
        outcome(data)
        took, (_, most) = time.process_time() - began, tracemalloc.get_traced_memory()
        tracemalloc.stop()
        if took > MOST_SECONDS or most > MOST_MEMORY * len(data) + OWN_MEMORY:
            raise Differs(f"{what}, of {len(data)} bytes: it took {took:.1f} s and {most} bytes of memory")


def a_table_of_all_takes_no_more(_):
    """The table has each resource written by itself: 1,500 dialogs with one list of items."""
    found = opened(dict(bombs())["one list of items for all dialogs"]).resources
    began = time.process_time()
    same("the table", len([becomes(found, it) for it in found]), 1501)
    took = time.process_time() - began
    if took > 4 * MOST_SECONDS:
        raise Differs(f"the table took {took:.1f} s")


def a_file_without_an_end_is_not_read_to_it(place):
    """/dev/zero has no end: what is read of it is bounded, and so is the memory."""
    most = 1 << 30
    ran = subprocess.run(
        [sys.executable, f"{TOP}/desk-rez", "list", "/dev/zero"],
        cwd=place.folder,
        capture_output=True,
        timeout=60,
        preexec_fn=lambda: resource.setrlimit(resource.RLIMIT_AS, (most, most)),
    )
    same("what is said", (ran.returncode, ran.stderr), (1, b"desk-rez: /dev/zero: the file has more than 67108864 bytes.\n"))


def one_resource_is_broken_and_the_others_are_not(_):
    data = fork(*RESOURCES, Made(b"WIND", 5, b"abc"))
    found = opened(data).resources
    same("the good one", script_of(found, [("STR ", 128)]).commands, 0)
    same("the broken one", outcome(data), "refused")


TESTS = [
    forks_cut_at_each_byte_are_refused,
    containers_and_texts_cut_at_each_byte_are_read_or_refused,
    each_byte_may_be_another,
    mutants_are_read_or_refused,
    scripts_of_mutants_have_no_refused_line,
    what_says_more_than_it_has_takes_no_more,
    a_table_of_all_takes_no_more,
    a_file_without_an_end_is_not_read_to_it,
    one_resource_is_broken_and_the_others_are_not,
]
