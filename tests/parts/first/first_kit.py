"""A tree of four small crates with ./desk, and a Rattle kit that proves nothing and compiles nothing, for the program first.

What the kit builds is a script that tells whether it was proved, and then answers each line of its input. Its rt writes into
the file 'asked' of the kit what it is asked for. What else it does, files of the kit say, which a test makes:

  saves          the path of a file that is saved with a further line while rt works
  slow           rt takes half a second
  meet           the names of crates of which each is proved only once all are begun, or after some seconds
  links-itself   rt try asks no linker of the kit
  only-here      rt try works in the kit's own folder alone
  only-by-rt     what is linked does not run by itself
"""

import os
import re
import shutil
import signal
import subprocess
import threading

from desk_kit.answers import Fault
from place import TOP, same

CRATES = "low:\nleft: low # beside right\nright: low\ndesk: low left right\nother: low\n"
SECONDS = 60

RT = """#!/usr/bin/env python3
import os, subprocess, sys, time
sys.path.insert(0, os.path.dirname(os.path.realpath(__file__)))
import rtlib
KIT = rtlib.KIT
HOME = os.path.dirname(os.path.realpath(KIT + "/home"))
def has(name):
    return os.path.exists(HOME + "/" + name)
def tell(*words):
    with open(HOME + "/asked", "a") as file:
        print(*words, file=file)
def meet(name):
    others = open(HOME + "/meet").read().split() if has("meet") else []
    for _ in range(100):
        begun = [it.split()[-1] for it in open(HOME + "/asked")]
        if name not in others or all(it in begun for it in others):
            break
        time.sleep(0.05)
def asked(*words):
    tell(*words)
    if has("saves"):
        with open(open(HOME + "/saves").read(), "a") as file:
            print("// more", file=file)
    if has("slow"):
        time.sleep(0.5)
    meet(words[-1])
def link(program, how):
    linker = "own" if how == "unproved" and has("links-itself") else "toolchain/bin/ld.lld"
    subprocess.run([KIT + "/" + linker, "--relax", "-o", program, how, HOME], check=True, env={})
def tried():
    asked("try")
    if has("only-here") and KIT != HOME:
        return "another kit"
    program = os.environ["TMPDIR"] + "/program"
    subprocess.run([KIT + "/toolchain/bin/clang", "-O0", "-c", HOME + "/asked"], check=True, env={})
    link(program, "unproved")
    return subprocess.run([program], env={**os.environ, "BY_RT": "1"}, stdout=subprocess.DEVNULL).returncode
def main(words):
    if words[0] == "version":
        return 0
    if os.path.exists("src/wrong"):
        print("src/main.rt:1:1: error[unknown-name]: wrong", file=sys.stderr)
        return 1
    if words[0] == "try":
        return tried()
    name = os.path.basename(os.getcwd())
    asked(*words, "of", name)
    rtlib.lock([os.getcwd()])
    if os.path.exists("proofs/wrong"):
        print("open goal")
        return 1
    if words[0] == "run":
        os.makedirs("out", exist_ok=True)
        link("out/" + name, "proved")
    tell("end of", name)
    return 0
if __name__ == "__main__":
    sys.exit(main(sys.argv[1:]))
"""
LOCK = """
def lock(crates):
    held = [os.open(it, os.O_RDONLY) for it in crates]
    for it in held:
        fcntl.flock(it, fcntl.LOCK_EX | fcntl.LOCK_NB)
    return held
"""
RTLIB = """import fcntl, os
KIT = os.path.dirname(os.path.dirname(os.path.realpath(__file__)))
class Crate:
    def stamp(self):
        return ""
"""
LINKER = """#!/bin/sh
/bin/cat > "$3" <<'PROGRAM'
#!/bin/sh
how=HOW
[ -n "$BY_RT" ] || ! [ -e "HOME/only-by-rt" ] || [ $how = proved ] || exit 1
echo "$how:$(printf ' [%s]' "$@")"
while IFS= read -r line; do echo "$how answers $line"; done
exit $#
PROGRAM
/bin/sed -i "s%HOW%$4%; s%HOME%$5%" "$3"
exec /bin/chmod +x "$3"
"""
COMPILER = """#!/bin/sh
case $1 in --target=*) exit 1 ;; esac
echo "clang $1 $2" >> "$3"
"""

# What rt is asked for where the program is compiled without proof.
TRIED = ["try", "clang -O2 -c"]
# What ./desk says.
COMPILES = r"desk: compiling the program, unproved, which takes one to four minutes\."
STEPS = [
    r"desk: step 1 of 3: rt reads and checks the texts of all crates",
    r"desk: step 2 of 3(, after \d+ s)?: LLVM compiles them",
    r"desk: step 3 of 3(, after \d+ s)?: the program is linked and tried",
]
PROVES = r"desk: proving the program's crates, and building it\. .*"
ORDER = ("low", "(left|right)", "(left|right)", "desk")
PROVED = [rf"desk: crate {n} of 4 is proved, in \d+ s: {name}" for n, name in enumerate(ORDER, 1)]
BUILT = r"desk: built in \d+ s\."
NOTE = r"desk: this program is not proved\. '\./desk --prove' proves and builds it, and so does \./check\."
FAILED = r"desk: building failed after \d+ s\. Above is the end of what rt said, and all of it is in .*"


def write(path, text, mode=0o644):
    os.makedirs(os.path.dirname(path), exist_ok=True)
    with open(path, "w") as file:
        file.write(text)
    os.chmod(path, mode)


class Tree:
    """Such a tree beside such a kit."""

    def __init__(self, folder):
        self.folder = os.path.join(os.path.realpath(folder), "a tree's copy")
        self.kit = os.path.join(os.path.realpath(folder), "a kit")
        for name in ("desk", "tools/rt", "tools/prove", "tools/sums", "tools/unproved"):
            os.makedirs(os.path.dirname(self.path(name)), exist_ok=True)
            shutil.copy(os.path.join(TOP, name), self.path(name))
        for crate in ("low", "left", "right", "desk", "other"):
            for part in ("src/lib.rt", "src/more.rt", "specs/Lib.antt", "proofs/Lib.antt"):
                write(self.path(f"crates/{crate}/{part}"), "")
        write(self.path("crates/desk/src/main.rt"), "")
        write(self.path("crates.txt"), CRATES)
        for name, text in {"rt": RT, "rtlib.py": RTLIB + LOCK}.items():
            write(f"{self.kit}/bin/{name}", text, 0o755)
        for name in ("toolchain/bin/ld.lld", "own"):
            write(f"{self.kit}/{name}", LINKER, 0o755)
        write(f"{self.kit}/toolchain/bin/clang", COMPILER, 0o755)
        write(f"{self.kit}/toolchain/lib/none", "")
        write(f"{self.kit}/home", "")
        self.environment = {**os.environ, "PATH": f"{self.kit}/bin:{os.environ['PATH']}"}

    def path(self, name):
        return os.path.join(self.folder, name)

    def has(self, name):
        return os.path.exists(self.path(name))

    def says(self, name, text=""):
        """Has the kit do what a file of this name says."""
        write(os.path.join(self.kit, name), text)

    def add(self, name, text="// more\n"):
        """Adds a text to a file, whose time stays as it was."""
        path = self.path(name)
        told = os.stat(path) if os.path.exists(path) else None
        with open(path, "a") as file:
            file.write(text)
        if told:
            os.utime(path, ns=(told.st_atime_ns, told.st_mtime_ns))

    def age(self):
        """Has all files and folders of the tree an hour older than they are."""
        for at, _, files in os.walk(self.folder):
            for it in [at, *(os.path.join(at, file) for file in files)]:
                told = os.stat(it)
                os.utime(it, ns=(told.st_atime_ns - 3600 * 10**9, told.st_mtime_ns - 3600 * 10**9))

    def without_rt(self):
        """Has no rt on the PATH, but all other commands of this machine."""
        found = os.path.join(self.kit, "others")
        os.makedirs(found)
        for folder in os.get_exec_path():
            for name in os.listdir(folder) if os.path.isdir(folder) else ():
                if name != "rt" and not os.path.lexists(f"{found}/{name}"):
                    os.symlink(os.path.join(folder, name), f"{found}/{name}")
        self.environment["PATH"] = found

    def asked(self):
        """What rt was asked for since this was called last, a line each."""
        path = os.path.join(self.kit, "asked")
        if not os.path.exists(path):
            return []
        with open(path) as file:
            lines = file.read().splitlines()
        os.remove(path)
        return lines

    def start(self, *words, program="desk"):
        """A call that runs on, with pipes. It is ended with all that it has started where that takes too long."""
        how = {"stdin": subprocess.PIPE, "stdout": subprocess.PIPE, "stderr": subprocess.PIPE, "bufsize": 0}
        called = [self.path(program), *words]
        ran = subprocess.Popen(called, cwd=self.kit, env=self.environment, start_new_session=True, **how)
        timer = threading.Timer(SECONDS, lambda: ran.poll() is None and os.killpg(ran.pid, signal.SIGKILL))
        timer.daemon = True
        timer.start()
        return ran

    def call(self, *words, program="desk", given="in\n"):
        """The status of a call, and what it writes on standard output and on standard error."""
        with self.start(*words, program=program) as ran:
            out, error = ran.communicate(given.encode())
        return ran.returncode, out.decode(), error.decode()

    def call_to(self, out, *words):
        """The status of a call that writes into this file, and what it writes on standard error."""
        called = [self.path("desk"), *words]
        how = {"stdin": subprocess.DEVNULL, "stdout": out, "stderr": subprocess.PIPE, "timeout": SECONDS}
        ran = subprocess.run(called, cwd=self.kit, env=self.environment, check=False, **how)
        return ran.returncode, ran.stderr.decode()

    def wants(self, status, out, lines, *words, **how):
        """Wants this of a call, where the lines are patterns of those on standard error, all of them."""
        found = self.call(*words, **how)
        same(f"{words}: the status and standard output", found[:2], (status, out))
        said = found[2].splitlines()
        if len(said) != len(lines) or not all(map(re.fullmatch, lines, said)):
            raise Fault(f"{words}: standard error is {said!r} in place of {lines!r}")

    def compiles(self, lines=(COMPILES, *STEPS, BUILT, NOTE)):
        """Wants that the program is compiled, says so and runs."""
        self.wants(0, "unproved: []\nunproved answers in\n", lines)
        same("what rt was asked for", self.asked(), TRIED)

    def runs(self, how):
        """Wants that the program runs as it is, with a line only where it is not proved."""
        self.wants(0, f"{how}: []\n{how} answers in\n", [NOTE] if how == "unproved" else [])
        same("what rt was asked for", self.asked(), [])

    def proves(self):
        """Wants that the program is proved."""
        self.asked()
        self.wants(0, "", [PROVES, *PROVED, BUILT], "--prove")
        same("what rt was asked for", len(self.asked()), 8)
