"""Tests of desk-test with many scripts, for kit-tests: side by side, in parts, on a terminal, and words that are refused."""

import os
import pty
import re
import shlex
import shutil
import signal
import subprocess
import time

from desk_kit import screen_tests
from desk_kit.answers import Fault
from kit_place import DESK_TEST, POINTS_OUT, SQUARE, SQUARE_IMAGE, blocks, square_out
from place import Skipped, same

# A program that sleeps as long as its script's first line says.
SLEEPS = '#!/bin/sh\nread -r _ seconds\nsleep "$seconds"\necho "slept $seconds"\n'
CLEAR = "\r\x1b[K"
SECONDS = 60


def four_that_sleep(place):
    """Four scripts, of which the first ones by their names take longest: they pass, differ, lack their output, and pass."""
    place.write("sleeps", SLEEPS, 0o755)
    for name, seconds in [("a", "0.6"), ("b", "0.4"), ("c", "0.2"), ("d", "0")]:
        place.write(f"screens/{name}.desk", f"sleep {seconds}\n")
        place.write(f"screens/{name}.out", f"slept {seconds}\n")
    place.write("screens/b.out", "slept 4\n")
    os.remove(place.path("screens/c.out"))


def what_is_said_does_not_depend_on_the_number_of_jobs(place):
    four_that_sleep(place)
    differs = "FAILED: screens/b.desk: line 1, 'sleep 0.4': 'slept 0.4' in place of 'slept 4'\n"
    lacks = "FAILED: screens/c.desk: there is no stored output c.out; --accept makes one\n"
    for words in (["--jobs", "1"], ["--jobs=2"], ["--jobs", "4"], ["--jobs", "999"], []):
        place.says(f"{differs}{lacks}2 passed, 2 failed\n", "screens", *words, program="./sleeps")
    changed = "changed: screens/b.out: line 1, 'sleep 0.4': 'slept 0.4' in place of 'slept 4'\nnew: screens/c.out\n"
    said = f"the same: screens/a.out\n{changed}the same: screens/d.out\n4 passed, 0 failed\n"
    place.says(said, "--update", "--jobs", "4", "screens", program="./sleeps")
    place.says("4 passed, 0 failed\n", "--jobs", "4", "screens", program="./sleeps")


def so_many_scripts_run_at_a_time_and_no_more(place):
    """Of four scripts each waits until all four run. Then each one tells how many run, while it runs a while."""
    here = place.path("here")
    os.mkdir(here)
    enter, count = f'mkdir "{here}/$$"', f'ls "{here}" | wc -l'
    wait = f"for _ in $(seq 400); do [ $({count}) = 4 ] && break; sleep 0.05; done"
    place.write("waits", f"#!/bin/sh\n{enter}\n{wait}\n{count}\n", 0o755)
    place.write("counts", f'#!/bin/sh\n{enter}\nsleep 0.1\n{count}\nrmdir "{here}/$$"\n', 0o755)
    for name in "abcd":
        place.write(f"screens/{name}.desk", "count\n")
        place.write(f"screens/{name}.out", "4\n")
    place.says("4 passed, 0 failed\n", "--jobs", "4", "screens", program="./waits")
    for path in os.listdir(here):
        os.rmdir(os.path.join(here, path))
    for name in "abcd":
        place.write(f"screens/{name}.out", "1\n")
    place.says("4 passed, 0 failed\n", "--jobs", "1", "screens", program="./counts")


def each_run_has_an_empty_folder_and_a_font_of_its_own(place):
    """The two scripts have one name. Each leaves a file behind."""
    place.write("tells", '#!/bin/sh\nls -A\nsleep 0.2\ncat "$2"\ntouch left\n', 0o755)
    for folder, digits, said in [("one", "41 0A", "A\n"), ("two", "42 0A", "B\n")]:
        place.write(f"{folder}/font.desk", "tell\n")
        place.write(f"{folder}/font.font", digits)
        place.write(f"{folder}/font.out", said)
    for count in "12":
        place.says("2 passed, 0 failed\n", "--jobs", count, "one", "two", program="./tells")


def each_script_runs_once_in_the_order_of_names(place):
    for name in ("b/two", "b/one", "a/three"):
        place.write(f"{name}.desk", "frontwin\n")
    place.write("b/gone.out", "")
    said = "FAILED: {}.desk: there is no stored output {}.out; --accept makes one\n"
    lines = "".join(said.format(path, path[2:]) for path in ("a/three", "b/one", "b/two"))
    lost = "FAILED: b/gone.out: it belongs to no script here\n"
    words = ("b", "b/one.desk", "a", "./b", os.path.join("a", "..", "b", "two.desk"))
    place.says(f"{lines}{lost}0 passed, 4 failed\n", *words)


def parts_together_have_each_script_once(place):
    """Of seven scripts by their names, and two files without one."""
    for name in "abcdefg":
        place.write(f"screens/{name}.desk", "frontwin\n")
    for name in "xy":
        place.write(f"screens/{name}.out", "")
    lacks = "FAILED: screens/{0}.desk: there is no stored output {0}.out; --accept makes one\n"
    lost = "FAILED: screens/{}.out: it belongs to no script here\n"
    for part, scripts, files in [
        ("1/1", "abcdefg", "xy"),
        ("1/3", "adg", "x"), ("2/3", "be", "y"), ("3/3", "cf", ""),
        ("1/2", "aceg", "x"), ("2/2", "bdf", "y"),
        ("7/7", "g", ""),
    ]:  # fmt: skip
        said = "".join([*map(lacks.format, scripts), *map(lost.format, files)])
        place.says(f"{said}0 passed, {len(scripts + files)} failed\n", "--shard", part, "screens")
    place.says("0 passed, 0 failed\n", "screens", "--shard=8/8")
    place.says("new: screens/c.out\nnew: screens/f.out\n2 passed, 0 failed\n", "--accept", "--shard", "3/3", "screens")


def make_runs_the_parts_of_the_page(place):
    """The Makefile of docs/TESTING.md, where there is make; ./desk-test hands this program over."""
    if shutil.which("make") is None:
        raise Skipped("here is no make", "make")
    place.write("Makefile", next(block for block in blocks("TESTING.md") if block.startswith("PARTS = ")))
    place.write("screens/x.desk", "frontwin\n")
    called = f'{shlex.quote(DESK_TEST)} --program {shlex.quote(place.program)} "$@"'
    place.write("desk-test", f"#!/bin/sh\n{called}\n", 0o755)
    for name in "abcde":
        place.write(f"screens/{name}.desk", "frontwin\n")
        place.write(f"screens/{name}.out", "ok 0\n")
    ran = subprocess.run(["make", "-j4", "-k", "screens"], cwd=place.folder, capture_output=True, timeout=SECONDS)
    lines = ran.stdout.decode("latin-1").split("\n")
    lacks = "FAILED: screens/x.desk: there is no stored output x.out; --accept makes one"
    said = ["1 passed, 0 failed", "1 passed, 0 failed", "1 passed, 1 failed", "2 passed, 0 failed", lacks]
    same("what is said", sorted(it for it in lines if "passed" in it or "FAILED" in it), said)
    same("whether it fails", ran.returncode != 0, True)
    same("the reports", [it for it in place.files(".") if it.endswith(".xml")], [f"part-{k}.xml" for k in (1, 2, 3, 4)])


def pictures_of_other_parts_stay(place):
    for name in "ab":
        place.write(f"screens/{name}.desk", SQUARE)
        place.write(f"screens/{name}.out", square_out(SQUARE_IMAGE))
        place.write(f"screens/differences/{name}.line-4.found.png", "")
    place.says("1 passed, 0 failed\n", "--shard", "2/2", "screens")
    same("the pictures", place.files("screens/differences"), ["a.line-4.found.png"])


def on_a_terminal(place, *words, interrupt=False, **environment):
    """What desk-test writes on standard output, and on a terminal that is standard error; it may be interrupted once a line
    of progress is there."""
    ours, its = pty.openpty()
    call, variables = [DESK_TEST, "--program", "./sleeps", *words], {**os.environ, "TERM": "xterm", **environment}
    places = {"cwd": place.folder, "env": variables, "stdout": subprocess.PIPE, "stderr": its}
    ran = subprocess.Popen(call, start_new_session=True, **places)
    os.close(its)
    seen = b""
    while more := read_terminal(ours):
        seen += more
        if interrupt and b" scripts," in seen:
            os.killpg(ran.pid, signal.SIGINT)
            interrupt = False
    os.close(ours)
    out, _ = ran.communicate(timeout=SECONDS)
    return out.decode("latin-1"), seen.decode("latin-1"), ran.returncode


def read_terminal(ours):
    """What a terminal shows next, or nothing once it is shut."""
    try:
        return os.read(ours, 4096)
    except OSError:
        return b""


def a_terminal_shows_how_far_the_scripts_are(place):
    four_that_sleep(place)
    place.write("screens/c.out", "slept 0.2\n")
    out, seen, _ = on_a_terminal(place, "--jobs", "1", "screens")
    said = "FAILED: screens/b.desk: line 1, 'sleep 0.4': 'slept 0.4' in place of 'slept 4'\n3 passed, 1 failed\n"
    same("what is printed", out, said)
    lines = [re.fullmatch(r"([0-4]) of 4 scripts, ([01]) failed, [0-9]+ s", it) for it in seen.split(CLEAR) if it]
    same("whether each line is a line of progress", all(lines), True)
    counts = list(dict.fromkeys(it.groups() for it in lines))
    same("the counts begin", counts[:2], [("0", "0"), ("1", "0")])
    same("a failed script", [it for it in counts if it[0] > "1" and it[1] != "1"], [])
    same("whether the last line is taken away", seen.endswith(CLEAR), True)


def no_log_has_a_line_of_progress(place):
    four_that_sleep(place)
    place.write("screens/c.out", "slept 0.2\n")
    out, seen, _ = on_a_terminal(place, "--jobs", "1", "screens", TERM="dumb")
    same("on a terminal that cannot clear a line", (out.split("\n")[-2], seen), ("3 passed, 1 failed", ""))
    words = [DESK_TEST, "--program", "./sleeps", "screens"]
    ran = subprocess.run(words, cwd=place.folder, stdout=subprocess.PIPE, stderr=subprocess.STDOUT, timeout=SECONDS)
    said = b"FAILED: screens/b.desk: line 1, 'sleep 0.4': 'slept 0.4' in place of 'slept 4'\n3 passed, 1 failed\n"
    same("the log", ran.stdout, said)


def an_interrupt_ends_the_tests(place):
    """As a terminal gives it, to desk-test and to all that it runs. The line of progress is taken away before it is said."""
    place.write("sleeps", SLEEPS, 0o755)
    for name in "abcdefgh":
        place.write(f"screens/{name}.desk", "sleep 50\n")
    begun = time.monotonic()
    out, seen, status = on_a_terminal(place, "--jobs", "2", "screens", interrupt=True)
    said = f"{CLEAR}desk-test: the keyboard interrupted it.\r\n"
    same("what is said", (out, seen.endswith(said), status), ("", True, 130))
    same("whether it ends soon", time.monotonic() - begun < 20, True)


def after_an_interrupt_of_its_own_few_scripts_begin(place):
    """Only those that were handed to the two processes: one each, and three that wait there."""
    place.write("starts", f'#!/bin/sh\ntouch "{place.folder}/started/$$"\nexec sleep 0.3\n', 0o755)
    os.mkdir(place.path("started"))
    for number in range(30):
        place.write(f"screens/{number}.desk", "frontwin\n")
    words = [DESK_TEST, "--program", "./starts", "--jobs", "2", "screens"]
    pipes = {"stdout": subprocess.PIPE, "stderr": subprocess.PIPE}
    ran = subprocess.Popen(words, cwd=place.folder, **pipes)
    end = time.monotonic() + SECONDS
    while not place.files("started") and time.monotonic() < end:
        time.sleep(0.01)
    ran.send_signal(signal.SIGINT)
    _, error = ran.communicate(timeout=SECONDS)
    same("what is said", (error, ran.returncode), (b"desk-test: the keyboard interrupted it.\n", 130))
    same("whether few have begun", 0 < len(place.files("started")) < 15, True)


def a_folder_that_is_removed_meanwhile_is_made_again(place):
    """As another desk-test removes it, since it is empty: here each of the first times that it is made."""
    usual, left = os.makedirs, [2]

    def make(path, exist_ok):
        usual(path, exist_ok=exist_ok)
        if left[0]:
            left[0] -= 1
            os.rmdir(path)

    folder = place.path("differences")
    screen_tests.os.makedirs = make
    try:
        screen_tests.write(folder, [("a.png", b"one"), ("b.png", b"two")])
        same("the files", (place.read("differences/a.png"), place.read("differences/b.png")), ("one", "two"))
        left[0] = 1000
        try:
            screen_tests.write(place.path("gone"), [("a.png", b"one")])
            raise Fault("it was written")
        except FileNotFoundError:
            same("whether it gives up soon", left[0] > 900, True)
    finally:
        screen_tests.os.makedirs = usual


REFUSED = [
    (["--jobs", "0"], "argument --jobs: '0' is no number from 1 to 999"),
    (["--jobs", "1000"], "argument --jobs: '1000' is no number from 1 to 999"),
    (["--jobs", "two"], "argument --jobs: 'two' is no number from 1 to 999"),
    (["--jobs=-1"], "argument --jobs: '-1' is no number from 1 to 999"),
    (["--jobs"], "argument --jobs: expected one argument"),
    (["--shard", "0/2"], "argument --shard: '0/2' is no part K/N, where K is one of the numbers from 1 to N"),
    (["--shard", "3/2"], "argument --shard: '3/2' is no part K/N, where K is one of the numbers from 1 to N"),
    (["--shard", "2"], "argument --shard: '2' is no part K/N, where K is one of the numbers from 1 to N"),
    (["--shard", "1/x"], "argument --shard: '1/x' is no part K/N, where K is one of the numbers from 1 to N"),
    (["--junit", "screens"], "argument --junit: 'screens' is a folder"),
    (["--junit", "gone/it.xml"], "argument --junit: 'gone/it.xml' cannot be written"),
    (["--junit", "screens/square.desk"], "argument --junit: 'screens/square.desk' has the name of a part of a test"),
    (["--report", "screens/square.out"], "argument --report: 'screens/square.out' has the name of a part of a test"),
    (["--report", ""], "argument --report: '' cannot be written"),
    (["--junit", "it", "--report", "./it"], "--junit and --report name one file"),
    (["--lint", "--accept"], "argument --accept/--update: not allowed with argument --lint"),
    (["--update", "--lint"], "argument --lint: not allowed with argument --accept/--update"),
]


def refused_words_change_nothing(place):
    """The script would fail, and a picture of an earlier run would be removed."""
    place.write("screens/square.desk", SQUARE)
    place.write("screens/square.out", POINTS_OUT)
    place.write("screens/differences/square.line-4.found.png", "an earlier one")
    for words, sentence in REFUSED:
        out, status, error = place.call("--program", place.program, "screens", *words)
        said, _, usage = error.partition(". Call it so: ")
        wanted = ("", 2, f"desk-test: {sentence}", True)
        same(f"{words}", (out, status, said, usage.startswith("desk-test [")), wanted)
    same("the script", place.read("screens/square.desk"), SQUARE)
    same("what is stored", place.read("screens/square.out"), POINTS_OUT)
    same("the files", place.files("."), ["screens"])
    same("the pictures", place.files("screens/differences"), ["square.line-4.found.png"])


TESTS = [
    what_is_said_does_not_depend_on_the_number_of_jobs,
    so_many_scripts_run_at_a_time_and_no_more,
    each_run_has_an_empty_folder_and_a_font_of_its_own,
    each_script_runs_once_in_the_order_of_names,
    parts_together_have_each_script_once,
    make_runs_the_parts_of_the_page,
    pictures_of_other_parts_stay,
    a_terminal_shows_how_far_the_scripts_are,
    no_log_has_a_line_of_progress,
    an_interrupt_ends_the_tests,
    after_an_interrupt_of_its_own_few_scripts_begin,
    a_folder_that_is_removed_meanwhile_is_made_again,
    refused_words_change_nothing,
]
