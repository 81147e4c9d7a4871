"""The small repository on which edits-tests tries the program edits."""

import os
import re
import signal
import subprocess

import edits_read
import edits_record
from desk_kit.answers import Fault
from place import TESTS, same

PROGRAM = f"{TESTS}/edits"

LOW = """//! Numbers.
#![tactic(auto)]
ghost use Rattle.std.specs.Prelude.{◌≡◌, ◌≤◌, ◌+◌, ◌*◌};

const MOST: u32 = 7;

/// One more: fn twice(n) {
pub fn next(n: u32) -> u32
    requires { n ≤ 1000 }
    ensures { result ≡ n + 1 }
{
    n + 1
}

pub fn after_next(n: u32) -> u32
    requires { n ≤ 500 }
    ensures { result ≡ n + 2 }
{
    next(next(n))
}

pub fn most() -> u32
    ensures { result ≤ 7 }
{
    MOST
}

pub fn twice(n: u32) -> u32
    requires { n ≤ 1000 }
    ensures { result ≡ n * 2 }
{
    n * 2
}
"""
HIGH = """//! Numbers of numbers.
#![tactic(auto)]
ghost use Rattle.std.specs.Prelude.{◌≡◌, ◌≤◌, ◌+◌};

use low::next;

pub fn third(n: u32) -> u32
    requires { n ≤ 500 }
    ensures { result ≡ n + 3 }
{
    next(n) + 2
}
"""


class Repository:
    """A small repository: the crate low, and high over it."""

    def __init__(self, folder):
        self.folder = os.path.realpath(folder)
        self.write("crates.txt", "low:\nhigh: low\n")
        self.write("HANDLES", "Handles allowed: none.\n")
        self.write("crates/low/src/lib.rt", LOW)
        self.write("crates/high/src/lib.rt", HIGH)
        os.mkdir(f"{self.folder}/tests")
        os.mkdir(f"{self.folder}/tmp")

    def write(self, path, text):
        os.makedirs(os.path.dirname(f"{self.folder}/{path}"), exist_ok=True)
        with open(f"{self.folder}/{path}", "w", encoding="utf-8") as file:
            file.write(text)

    def build(self, crate="low"):
        """Puts something where the library of the crate is built."""
        self.write(f"crates/{crate}/out/rlib/{crate}.rlib/format", "rattle rlib")
        os.utime(f"{self.folder}/crates/{crate}/out/rlib/{crate}.rlib")

    def edit(self, name, old, new, file="src/lib.rt", more=""):
        """Writes the edit CRATE/NAME.edit."""
        crate, _, name = name.partition("/")
        self.write(f"crates/{crate}/must-fail/{name}.edit", f"file: {file}\n{more}old: {old}\nnew: {new}\n")

    def change(self, crate, old, new, file="src/lib.rt"):
        path = f"crates/{crate}/{file}"
        with open(f"{self.folder}/{path}", encoding="utf-8") as it:
            text = it.read()
        same(f"how often {old} is there", text.count(old), 1)
        self.write(path, text.replace(old, new))

    def remove(self, *names):
        for it in names:
            crate, _, name = it.partition("/")
            os.remove(f"{self.folder}/crates/{crate}/must-fail/{name}.edit")

    def crates(self):
        return {it.name: it for it in edits_read.rtlib.crates_below(self.folder)}

    def read(self, name, names=()):
        """The edit CRATE/NAME.edit as the program reads it, where rattle prints these names of functions."""
        crate, _, name = name.partition("/")
        crate = self.crates()[crate]
        edits_read.rtlib.blanked.cache_clear()
        return edits_read.Edit(crate, f"{crate.folder}/must-fail/{name}.edit", edits_read.functions_in(crate, names))

    def sums(self, name):
        """The sums of the edit CRATE/NAME over what lies there now."""
        crate, _, name = name.partition("/")
        crates = self.crates()
        texts = edits_record.Texts(list(crates.values()))
        return texts.sums_of(crates[crate], f"{crates[crate].folder}/must-fail/{name}.edit")

    def record(self):
        """The sums that are recorded, by the edits' names."""
        return {name: line.sums for name, line in self.lines().items()}

    def lines(self):
        """The lines that are recorded, by the edits' names."""
        return edits_record.Record(f"{self.folder}/tests/edits.seen").lines()

    def start(self, *words):
        how = {"stdin": subprocess.DEVNULL, "stdout": subprocess.PIPE, "stderr": subprocess.STDOUT, "text": True}
        env = {**os.environ, "TMPDIR": f"{self.folder}/tmp"}
        return subprocess.Popen([PROGRAM, *words], cwd=self.folder, env=env, **how)

    def lines_until(self, wanted, *words):
        """Runs the program until it prints a line in which this is found, kills it there, and returns the lines."""
        lines = []
        with self.start(*words) as ran:
            for line in ran.stdout:
                lines.append(line.rstrip("\n"))
                if re.search(wanted, line):
                    break
            ran.send_signal(signal.SIGKILL)
        if not lines or not re.search(wanted, lines[-1]):
            raise Fault(f"no line has {wanted}: {lines}")
        return lines

    def run(self, *words):
        """Runs the program, and returns what it counts before it tries, what it tells of each edit, and how it ends: how many
        edits still wait, the last line, and the status.
        """
        with self.start(*words) as ran:
            lines = ran.stdout.read().rstrip("\n").split("\n")
        told = dict(re.findall(r"(?m)^must-fail (\S+)\.edit: (.*)$", "\n".join(lines)))
        return counted(lines), told, (numbers_in("still waiting", lines), lines[-1], ran.returncode)

    def uncompiled(self, *words):
        """How many of the edits that still wait after a run are not known to compile."""
        with self.start(*words) as ran:
            return numbers_in("not known to compile", ran.stdout.read().split("\n"))[0]

    def counts(self, *words):
        """What a run counts before it tries; it goes no further."""
        return counted(self.lines_until("to try:", *words))


def numbers_in(words, lines):
    """The numbers in the line of these words."""
    return [int(it) for line in lines if words in line for it in re.findall(r"\d+", line)]


def counted(lines):
    """How many edits a run says that it leaves out, and how many it tries of those that are new or changed, of more than a
    body, of a changed crate, and over changed text below.
    """
    return numbers_in("to try:", lines)
