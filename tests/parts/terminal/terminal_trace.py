"""Tests of ./desk --trace, for terminal: each line beside its answer, over the program as an archive has it."""

import os
import select
import shutil
import subprocess

from place import same
from terminal_kit import SECONDS, Terminal

SCRIPT = b"""# A desk of 8 by 8.
desk 8 8 0

window plain 1 1 6 6 1 0 "a"\r
image
close 7
find 9
findd 9
find 4 4"""
SHOWN = """1  # A desk of 8 by 8.
2  desk 8 8 0  -> ok
3
4  window plain 1 1 6 6 1 0 "a"  -> ok 1
5  image  -> image 8 by 8
6  close 7  -> refused 2 NoSuchWindow
7  find 9  -> refused 15 BadSyntax: 2 words in place of 3. The form is: find H V
8  findd 9  -> refused 15 BadSyntax: there is no command 'findd', and the nearest is 'find'. The form is: find H V
9  find 4 4  -> ok 3 1
"""
BAILS = "desk: line 6 is refused, and --bail ends here.\n"
READS = (
    "desk: reading a script from the terminal: type its lines, and Ctrl+D at the end. "
    "./desk --help says how to name a file.\n"
)
CALLED = "Call it so: desk --trace [--bail] [--font FILE] [SCRIPT]\n"
MARK = "it begins with a byte order mark, the bytes EF BB BF, which no command has: save the script without one"


def door(place):
    """./desk beside the program, as in an archive."""
    place.copy("desk", "desk_kit", "docs/SCRIPT.md", "CHANGELOG.md")
    os.makedirs(place.path("tree/bin"))
    os.symlink(place.program, place.path("tree/bin/desk"))
    return place.path("tree/desk")


def traced(place, *words, given=b"", environment=None, to=subprocess.PIPE):
    """The status of a call with --trace and these words, and what it writes."""
    called = [place.path("tree/desk"), "--trace", *words]
    ran = subprocess.run(
        called, cwd=place.folder, input=given, stdout=to, stderr=subprocess.PIPE, env=environment, timeout=SECONDS
    )
    return ran.returncode, (ran.stdout or b"").decode(), ran.stderr.decode()


def each_line_is_shown_beside_its_answer(place):
    door(place)
    same("standard input", traced(place, given=SCRIPT), (0, SHOWN, ""))
    with open(place.path("a script.desk"), "wb") as file:
        file.write(SCRIPT)
    same("a file", traced(place, "a script.desk"), (0, SHOWN, ""))
    same("nothing", traced(place), (0, "", ""))
    floats = 'float plain 1 1 2 2 1 0 ""'
    form = 'The form is: float KIND LEFT TOP WIDTH HEIGHT SHOWN GOAWAY "TITLE"'
    shown = f"1  desk 8 8 0  -> ok\n2  {floats}  -> refused 15 BadSyntax: the script does not begin with 'version 2'. {form}\n"
    same("a line out of its place", traced(place, given=f"desk 8 8 0\n{floats}\n".encode()), (0, shown, ""))
    floats = floats.replace("plain", "plian")
    shown = f"1  version 2  -> ok\n2  desk 8 8 0  -> ok\n3  {floats}  -> refused 20 NoSuchName. {form}\n"
    same("a name that is none", traced(place, given=f"version 2\ndesk 8 8 0\n{floats}\n".encode()), (0, shown, ""))
    draws = "draw 1 oval 0 0 8 8 nomode black"
    form = "The form is: draw WINDOW oval LEFT TOP RIGHT BOTTOM MODE PATTERN"
    shown = f"1  version 2  -> ok\n2  {draws}  -> refused 15 BadSyntax: the script does not begin with 'version 3'. {form}\n"
    same("a form of a later version", traced(place, given=f"version 2\n{draws}\n".encode()), (0, shown, ""))
    text = b"\xef\xbb\xbfdesk 8 8 0\n# \xc3\xa9\t\xff\n"
    shown = f"1  \\ufeffdesk 8 8 0  -> refused 15 BadSyntax: {MARK}. The form is: desk WIDTH HEIGHT BAR\n2  # é\\t\\xff\n"
    same("bytes that are no letters", traced(place, given=text), (0, shown, ""))


def bail_ends_at_the_first_refusal(place):
    door(place)
    before = SHOWN[: SHOWN.index("7  find")]
    same("a refusal", traced(place, "--bail", given=SCRIPT), (1, before, BAILS))
    shown = "1  desk 8 8 0  -> ok\n2  find 1 1  -> ok 0 0\n"
    same("none", traced(place, "--bail", given=b"desk 8 8 0\nfind 1 1\n"), (0, shown, ""))


def an_answer_is_shown_before_the_next_line_is_typed(place):
    pipe = subprocess.PIPE
    kept = {name: value for name, value in os.environ.items() if name != "PYTHONUNBUFFERED"}
    with subprocess.Popen([door(place), "--trace"], stdin=pipe, stdout=pipe, stderr=pipe, bufsize=0, env=kept) as ran:
        for number, (line, answer) in enumerate([("desk 8 8 0", "ok"), ("find 1 1", "ok 0 0"), ("frontwin", "ok 0")], 1):
            ran.stdin.write(f"{line}\n".encode())
            is_there = select.select([ran.stdout], [], [], SECONDS)[0]
            same(line, ran.stdout.readline() if is_there else None, f"{number}  {line}  -> {answer}\n".encode())
        out, error = ran.communicate()
        same("the end", (ran.returncode, out, error), (0, b"", b""))


def a_trace_at_a_terminal_says_what_it_reads(place):
    for words in ([], ["--trace"]):
        with Terminal([door(place) if not words else place.path("tree/desk"), *words]) as terminal:
            same("what is said", terminal.until("a file.\n"), READS)
            terminal.type("desk 8 8 0\n")
            wanted = "1  desk 8 8 0  -> ok\n" if words else "ok\n"
            same("an answer", terminal.until("ok\n"), f"desk 8 8 0\n{wanted}")
            terminal.type("\004")
            same("its status", terminal.status(), 0)


def what_a_trace_cannot_do_is_said(place):
    door(place)
    place.write("one.desk", "desk 8 8 0\n")
    place.write("no.font", "no font")
    for words, status, said in [
        (["nowhere.desk"], 1, "there is no file nowhere.desk\n"),
        (["--font", "no.font", "one.desk"], 1, f"{place.path('tree/bin/desk')} has ended, with status 1: desk: 13 BadFont\n"),
        (["--raw", "one.desk"], 2, f"unrecognized arguments: --raw. {CALLED}"),
        (["one.desk", "two.desk"], 2, f"unrecognized arguments: two.desk. {CALLED}"),
        (["--font"], 2, f"argument --font: expected one argument. {CALLED}"),
    ]:
        same(f"{words}", traced(place, *words), (status, "", f"desk: {said}"))
    with open("/dev/full", "wb") as full:
        status, _, error = traced(place, given=SCRIPT, to=full)
    same("on a full disk", (status, error.count("\n"), "No space left on device" in error), (1, 1, True))
    alone = subprocess.run([place.path("tree/desk"), "--bail"], capture_output=True, input=b"")
    same("--bail alone", (alone.returncode, alone.stdout, alone.stderr), (2, b"", b"desk: --bail goes with --trace alone.\n"))


def without_python_a_sentence_says_so(place):
    door(place)
    os.makedirs(place.path("few"))
    for name in ("bash", "env", "dirname", "readlink", "cat"):
        os.symlink(shutil.which(name), place.path(f"few/{name}"))
    said = "desk: --trace needs Python 3, and there is no command 'python3' here that runs.\n"
    same("none", traced(place, environment={"PATH": place.path("few")}), (3, "", said))


TESTS = [
    each_line_is_shown_beside_its_answer,
    bail_ends_at_the_first_refusal,
    an_answer_is_shown_before_the_next_line_is_typed,
    a_trace_at_a_terminal_says_what_it_reads,
    what_a_trace_cannot_do_is_said,
    without_python_a_sentence_says_so,
]
