"""Tests of how desk-test ends before its scripts do, for kit-tests: by a signal, and by files that have no end."""

import os
import signal
import subprocess
import time
from contextlib import contextmanager

from desk_kit.answers import Fault
from kit_place import DESK_TEST, POINTS, POINTS_OUT
from place import same

SECONDS = 20
# How soon everything has to be over, though each script sleeps for a minute.
SOON = 5
# A program that goes on for a minute, whatever it is told. It notes itself, the process that runs it, and one that it runs
# itself.
SLEEPS = """#!/bin/sh
trap '' TERM INT HUP
sleep 60 &
echo "$$ $PPID $!" > "{0}/begins.$$"
mv "{0}/begins.$$" "{0}/runs.$$"
wait
sleep 60
"""


def is_running(process):
    """Whether this process runs. One that has ended may still wait for its parent."""
    try:
        with open(f"/proc/{process}/stat", encoding="latin-1") as file:
            return file.read().rpartition(")")[2].split()[0] not in "ZX"
    except (FileNotFoundError, ProcessLookupError):
        return False


def is_so(what, asked):
    """Waits until this is so."""
    end = time.monotonic() + SECONDS
    while not asked():
        if time.monotonic() > end:
            raise Fault(f"it is not so after {SECONDS} seconds that {what}")
        time.sleep(0.02)


@contextmanager
def started(place):
    """desk-test with four scripts that sleep, once two of them run, and the processes that belong to these; for as long as a
    block goes on."""
    place.write("sleeps", SLEEPS.format(place.path("noted")), 0o755)
    os.makedirs(place.path("noted"))
    os.makedirs(place.path("temporary"))
    for name in "abcd":
        place.write(f"screens/{name}.desk", "frontwin\n")
    words = [DESK_TEST, "--program", "./sleeps", "--jobs", "2", "screens"]
    variables = {**os.environ, "TMPDIR": place.path("temporary")}
    pipes = {"stdout": subprocess.PIPE, "stderr": subprocess.PIPE, "env": variables}
    ran = subprocess.Popen(words, cwd=place.folder, start_new_session=True, **pipes)
    is_so("two scripts run", lambda: sum(name.startswith("runs") for name in place.files("noted")) == 2)
    noted = [place.read(f"noted/{name}").split() for name in place.files("noted")]
    processes = {int(process) for line in noted for process in line}
    try:
        yield ran, processes
    finally:
        for it in filter(is_running, (ran.pid, *processes)):
            os.kill(it, signal.SIGKILL)
        ran.wait()


def ends(place, number, status, said):
    """Sends desk-test this signal, and wants this status and this on standard error, soon, with nothing left."""
    with started(place) as (ran, processes):
        same("how many processes there are", len(processes), 6)
        begun = time.monotonic()
        ran.send_signal(number)
        out, error = ran.communicate(timeout=SECONDS)
        same("how it ends", (ran.returncode, out, error), (status, b"", said))
        is_so("all of its processes are gone", lambda: not any(map(is_running, processes)))
        same("whether that is soon", time.monotonic() - begun < SOON, True)


def sigterm_ends_the_tests_and_all_that_they_run(place):
    ends(place, signal.SIGTERM, 143, b"desk-test: it was told to end.\n")
    same("its temporary files", place.files("temporary"), [])


def the_keyboard_ends_the_tests_and_all_that_they_run(place):
    ends(place, signal.SIGINT, 130, b"desk-test: the keyboard interrupted it.\n")
    same("its temporary files", place.files("temporary"), [])


def a_terminal_that_is_gone_ends_the_tests_and_all_that_they_run(place):
    ends(place, signal.SIGHUP, 129, b"desk-test: the terminal has gone.\n")


def what_runs_ends_with_a_desk_test_that_is_killed(place):
    ends(place, signal.SIGKILL, -signal.SIGKILL, b"")


def a_process_that_is_killed_ends_the_tests(place):
    with started(place) as (ran, processes):
        os.kill(int(place.read(f"noted/{place.files('noted')[0]}").split()[1]), signal.SIGKILL)
        out, error = ran.communicate(timeout=SECONDS)
        said = b"desk-test: a process that runs scripts was ended, and the tests with it\n"
        same("how it ends", (ran.returncode, out, error), (1, b"", said))
        is_so("all of its processes are gone", lambda: not any(map(is_running, processes)))


def a_script_without_an_end_is_refused(place):
    """A pipe that nobody writes to, in place of a script or of another file of a test."""
    for name in ("pipe", "out", "status"):
        place.write(f"screens/{name}.desk", POINTS)
        place.write(f"screens/{name}.out", POINTS_OUT)
    for name in ("pipe.desk", "out.out", "status.status"):
        path = place.path(f"screens/{name}")
        if os.path.exists(path):
            os.remove(path)
        os.mkfifo(path)
    pipes = ("out.out", "pipe.desk", "status.status")
    said = [f"FAILED: screens/{it.partition('.')[0]}.desk: {it} is no regular file" for it in pipes]
    for words in ([], ["--accept"]):
        nothing = "\n".join(said) + "\n0 passed, 3 failed\n"
        same(f"what is said of a folder, {words}", place.call("--program", place.program, *words, "screens"), (nothing, 1, ""))
    lint = f"{said[1]}\n2 passed, 1 failed\n"
    same("what lint says", place.call("--program", place.program, "--lint", "screens"), (lint, 1, ""))
    alone = ("", 2, "desk-test: screens/pipe.desk is no regular file\n")
    same("what is said of one", place.call("--program", place.program, "screens/pipe.desk"), alone)
    os.symlink(os.devnull, place.path("null.desk"))
    alone = ("", 2, "desk-test: null.desk is no regular file\n")
    same("what is said of a device", place.call("--program", place.program, "null.desk"), alone)


TESTS = [
    sigterm_ends_the_tests_and_all_that_they_run,
    the_keyboard_ends_the_tests_and_all_that_they_run,
    a_terminal_that_is_gone_ends_the_tests_and_all_that_they_run,
    what_runs_ends_with_a_desk_test_that_is_killed,
    a_process_that_is_killed_ends_the_tests,
    a_script_without_an_end_is_refused,
]
