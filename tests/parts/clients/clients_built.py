"""Tests of the clients in C and Rust, for clients."""

import os
import re
import shutil

from desk_kit import Fault
from place import TESTS, TOP, Skipped, same

C = os.path.join(TOP, "clients", "c")
OWN = os.path.join(TESTS, "parts", "clients", "clients.c")
WARNINGS = ("-Wall", "-Wextra", "-Wpedantic", "-Werror")
CHECKS = ("-fsanitize=address,undefined", "-fno-sanitize-recover=all", "-fno-omit-frame-pointer")
# Programs in place of the desk's, each a shell that runs this.
OTHERS = {
    "ends": "read line; echo ok; exit 3",
    "is-killed": "read line; kill -KILL $$",
    "gives-half-an-image": "read line; printf 'P1\\n2 2\\n10\\n0'",
    "gives-half-a-line": "read line; printf P1",
    "no-height": "read line; printf 'P1\\n8\\n'; read line",
    "no-width": "read line; printf 'P1\\n0 8\\n'; read line",
    "high": "read line; printf 'P1\\n8 32768\\n'; read line",
    "no-number": "read line; printf 'refused x\\n'; read line",
    "no-name": "read line; printf 'refused 2\\n'; read line",
    "long-rows": "read line; printf 'P1\\n2 1\\n1010\\n'; read line",
    "other-sign": "read line; printf 'P1\\n2 1\\n12\\n'; read line",
    "few-pixels": "read line; printf 'P1\\n2 2\\n1\\n\\n0\\n\\n'; read line",
    "no-image": "read line; printf 'ok\\n'; read line",
    "descriptors": "read line; set -- /proc/self/fd/*; echo $#",
    "slow": "read line; for it in P 1 '\\n' 2 ' 2' '\\n10' '\\n' 0 '1\\n'; do printf \"$it\"; sleep 0.02; done\n"
    "read line; printf 'refused 2 NoSuch'; sleep 0.02; printf 'Window\\n'",
}
# What clients/c/example.c prints: its answers, and a window with a black square in it.
EXAMPLE = """0 ok
0 ok 1
0 ok
0 ok 3 1
2 refused 2 NoSuchWindow
########
#......#
#......#
#..##..#
#..##..#
#......#
#......#
########
"""


def compiler():
    """The compiler of C, or none."""
    if not shutil.which("cc"):
        raise Skipped("here is no compiler cc", "gcc")
    return "cc"


def checks(place):
    """The options for a compiler whose programs check addresses and undefined behavior, where those run here."""
    source = place.write("nothing.c", "int main(void) { return 0; }\n")
    status = place.call("cc", *CHECKS, "-o", "nothing", source)[0] or place.call(place.path("nothing"))[0]
    if status:
        print("clients: cc has no -fsanitize=address,undefined whose programs run here, so C is tested without it")
    return () if status else CHECKS


def counts_in(said):
    """What a program of tests counts in its last line."""
    found = re.search(r"([0-9]+) passed, ([0-9]+) failed\n\Z", said)
    if not found:
        raise Fault(f"it ended without a count: {said[-2000:]}")
    return int(found[1]), int(found[2])


def the_client_in_C_passes_its_tests(place):
    compiler()
    os.mkdir(place.path("others"))
    for name, text in OTHERS.items():
        place.shell(f"others/{name}", text)
    place.write("others/is-not-run", "")
    sources = (OWN, os.path.join(C, "desk.c"))
    options = ("-std=c11", "-g", "-O1", "-pthread", "-I", C, *WARNINGS, *checks(place))
    place.succeeds("cc", *options, "-o", "tests", *sources)
    _, out, err = place.call(place.path("tests"), place.program, place.path("others"))
    for line in out.splitlines()[:-1]:
        print(line)
    # What the program says of a font that is not there, once.
    unexpected = err.replace("desk: 18 ReadFault\n", "", 1)
    if unexpected:
        raise Fault(unexpected[:4000])
    return counts_in(out)


def the_example_in_C_prints_what_it_has_to(place):
    compiler()
    sources = (os.path.join(C, "example.c"), os.path.join(C, "desk.c"))
    place.succeeds("cc", "-std=c11", "-O2", *WARNINGS, "-o", "example", *sources)
    same("what it prints", place.succeeds(place.path("example"), place.program), EXAMPLE)


def the_client_in_C_reads_as_C_plus_plus(place):
    found = [it for it in ("c++", "g++", "clang++") if shutil.which(it)]
    if not found:
        raise Skipped("here is no compiler of C++", "g++")
    for name in ("desk.c", "example.c"):
        place.succeeds(found[0], "-x", "c++", "-std=c++17", "-fsyntax-only", *WARNINGS, os.path.join(C, name))


def the_client_in_Rust_passes_its_tests(place):
    if not shutil.which("cargo"):
        raise Skipped("here is no cargo", "cargo")
    tree = place.copy("clients/rust")
    manifest = os.path.join(tree, "clients", "rust", "Cargo.toml")
    words = ("cargo", "test", "--offline", "--quiet", "--manifest-path", manifest, "--target-dir", place.path("target"))
    status, out, err = place.call(*words, DESK_PROGRAM=place.program)
    counts = re.findall(r"test result: \w+\. ([0-9]+) passed; ([0-9]+) failed", out)
    passed, failed = (sum(map(int, column)) for column in zip(*counts)) if counts else (0, 0)
    if status and not failed or not passed:
        raise Fault(f"cargo test ends with status {status}: {err[-4000:]}")
    for name, said in re.findall(r"(?m)^---- (\w+) stdout ----\n((?:(?!----).*\n)*)", out):
        print(f"FAILED: {name.replace('_', ' ')}: {' '.join(said.split())[:300]}")
    return passed, failed


TESTS = [
    the_client_in_C_passes_its_tests,
    the_example_in_C_prints_what_it_has_to,
    the_client_in_C_reads_as_C_plus_plus,
    the_client_in_Rust_passes_its_tests,
]
