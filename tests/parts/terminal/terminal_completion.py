"""Tests of the completion of bash, zsh and fish, for terminal: what each shell itself makes of the beginning of a command."""

import os
import subprocess

from place import TOP, same
from terminal_kit import SECONDS, Terminal, need

COMMANDS = ["desk", "desk-png", "desk-rez", "desk-talk", "desk-test", "desk-view", "desk-web"]
FILES = ["a.font", "one.desk", "other.txt", "two words.desk"]
SCRIPTS = ["folder", "one.desk", "two words.desk"]
OF_DESK = ["--bail", "--check", "--font", "--help", "--prove", "--raw", "--trace", "--version", "--which"]
# The words of a command, the last of which is completed, with what it may become.
WANTED = [
    (["desk", ""], SCRIPTS),
    (["desk", "t"], ["two words.desk"]),
    (["desk", "--"], OF_DESK),
    (["desk", "one.desk", "--ra"], ["--raw"]),
    (["desk", "--font", "a"], ["a.font"]),
    (["desk", "--font", ""], sorted([*FILES, "folder"])),
    (["desk", "--trace", "o"], ["one.desk"]),
    (["desk-png", "--"], ["--font", "--help", "--image", "--last", "--program", "--scale", "--strict", "--version"]),
    (["desk-png", "--v"], ["--version"]),
    (["desk-png", "--scale", "1"], sorted(["1", *(str(it) for it in range(10, 17))])),
    (["desk-png", "--scale", "2", "o"], ["one.desk"]),
    (["desk-talk", "--p"], ["--program"]),
    (["desk-test", "--acc"], ["--accept"]),
    (["desk-test", "--differences", ""], ["folder"]),
    (["desk-test", "--jobs", ""], []),
    (["desk-view", "--sc"], ["--scale"]),
    (["desk-view", "--scale", ""], ["1", "2", "3", "4"]),
    (["desk-view", "--re"], ["--record", "--replay"]),
    (["desk-view", "--replay", "o"], ["one.desk"]),
    (["desk-web", "--"], ["--help", "--port", "--program", "--record", "--version"]),
    (["desk-web", "--record", "o"], ["one.desk", "other.txt"]),
    (["desk-rez", ""], ["font", "icon", "list", "script", "text"]),
    (["desk-rez", "--strict", "l"], ["list"]),
    (["desk-rez", "--"], ["--help", "--json", "--mask", "--scale", "--strict", "--version"]),
    (["desk-rez", "--scale", "1"], sorted(["1", *(str(it) for it in range(10, 17))])),
    (["desk-rez", "list", "o"], ["one.desk", "other.txt"]),
    (["desk-rez", "list", "--json", "a"], ["a.font"]),
    (["no-such-command", "--"], []),
]
# What has zsh put all that a word may become in its place, at Ctrl+X.
ZSH = """PROMPT='%% '; fpath=("$1" $fpath); autoload -U compinit; compinit -u -D
zstyle ':completion:all:*' completer _all_matches _complete
zstyle ':completion:all:*' insert true
zle -C all complete-word _generic; bindkey '^X' all
"""


def fill(place):
    """Makes the files that are completed, and links to the commands."""
    for name in FILES:
        place.write(name, "")
    os.mkdir(place.path("folder"))


def of_bash(place, *words):
    """What bash makes of the last of these words, a command and what follows it."""
    asks = '. "$1"; shift; COMP_WORDS=("$@"); COMP_CWORD=$(($# - 1)); _desk "$1" "${*: -1}" "${*: -2:1}"'
    script = os.path.join(TOP, "editors", "bash", "desk.bash")
    ran = subprocess.run(
        ["bash", "--norc", "-c", asks + '; printf "%s\\n" "${COMPREPLY[@]}"', "bash", script, *words],
        cwd=place.folder,
        capture_output=True,
        timeout=SECONDS,
    )
    same(f"what bash says of {words}", (ran.returncode, ran.stderr), (0, b""))
    return sorted(filter(None, ran.stdout.decode().split("\n")))


def bash_completes_words(place):
    fill(place)
    for (command, *words), wanted in [*WANTED, (["desk", "-"], sorted([*OF_DESK, "-h"]))]:
        same(f"{[command, *words]}", of_bash(place, os.path.join(TOP, command), *words), wanted)
    asks = f'. "{os.path.join(TOP, "editors", "bash", "desk.bash")}"; complete -p'
    ran = subprocess.run(["bash", "--norc", "-c", asks], capture_output=True, check=True)
    same("the commands", sorted(line.split()[-1] for line in ran.stdout.decode().splitlines()), COMMANDS)


def of_fish(place, line):
    """What fish makes of the last word of this line."""
    script = os.path.join(TOP, "editors", "fish", "desk.fish")
    words = ["fish", "--no-config", "-c", "source $argv[1]; complete -C $argv[2]", script, line]
    kept = {**os.environ, "HOME": place.folder}
    ran = subprocess.run(words, cwd=place.folder, env=kept, capture_output=True, timeout=SECONDS)
    same(f"what fish says of {line}", (ran.returncode, ran.stderr), (0, b""))
    found = {it.split("\t")[0].rstrip("/").replace("\\ ", " ") for it in ran.stdout.decode().splitlines()}
    return sorted(found)


def fish_completes_words(place):
    need("fish")
    fill(place)
    for (command, *words), wanted in WANTED:
        line = " ".join([os.path.join(TOP, command), *words])
        same(line, [it for it in of_fish(place, line) if it not in (".cache", ".config", ".local")], wanted)


def of_zsh(terminal, place, line):
    """What zsh makes of the last word of this line, which it has typed at a terminal."""
    found = place.path("folder/found")
    terminal.type(f"{line}\x18\x01print -rl -- \x05 > folder/found; print en''d\n")
    terminal.until("end\n")
    with open(found, encoding="utf-8") as file:
        words = file.read().split("\n")[:-1]
    os.remove(found)
    return sorted(it.rstrip("/") for it in words[len(line.split(" ")) - 1 :] if it != "--")


def zsh_completes_words(place):
    need("zsh")
    fill(place)
    place.write("folder/start", ZSH.replace("$1", os.path.join(TOP, "editors", "zsh")))
    with Terminal(["zsh", "-f", "-i"], columns=2000) as terminal:
        terminal.type(f"cd {place.folder} && . folder/start && print re''ady\n")
        terminal.until("ready\n")
        for (command, *words), wanted in WANTED:
            line = " ".join([os.path.join(TOP, command), *words])
            same(line, of_zsh(terminal, place, line), wanted)


TESTS = [bash_completes_words, fish_completes_words, zsh_completes_words]
