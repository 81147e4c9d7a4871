"""How the tools are called: their words, the program that they run, and the script that they begin with."""

import argparse
import os
import shutil

from desk_kit.ends import AT_FAULT, NO_PROGRAM, WRONG_WORDS, give_up, naming, say
from desk_kit.lint import byte_order_mark
from desk_kit.which import program_of

TOP = os.path.dirname(os.path.dirname(os.path.realpath(__file__)))
NOT_PROVED = "this program is not proved. './desk --prove' proves and builds it."


def version_here():
    """The version of all tools: the first one that the changelog has."""
    path = os.path.join(TOP, "CHANGELOG.md")
    with naming(path), open(path, encoding="utf-8") as file:
        return next((line[3:].strip() for line in file if line.startswith("## ")), "of no version")


class Version(argparse.Action):
    """Prints the name and the version of a tool, and ends it."""

    def __call__(self, parser, *_):
        print(parser.prog, version_here())
        parser.exit()


class Parser(argparse.ArgumentParser):
    """The words of the command line. --help prints all of the text, and --version the version. --program is a word of the
    tools that run one."""

    def __init__(self, tool, usage, text, runs_program=True):
        super().__init__(tool, usage=usage, allow_abbrev=False)
        self.all_text = text
        if runs_program:
            self.add_argument("--program")
        self.add_argument("--version", action=Version, nargs=0)

    def error(self, message):
        give_up(self.prog, WRONG_WORDS, f"{message}. Call it so: {self.usage}")

    def format_help(self):
        return self.all_text

    def print_help(self, file=None):
        print(self.format_help(), end="", file=file)


def number_to(most):
    """The type of a word that is a number from 1 to this."""

    def number(word):
        if not (word.isascii() and word.isdigit() and 1 <= int(word) <= most):
            raise argparse.ArgumentTypeError(f"'{word}' is no number from 1 to {most}")
        return int(word)

    return number


def program_named(tool, name, desk=os.path.join(TOP, "desk")):
    """The path of the program of this name, or of the one that ./desk runs. A line says so where that is not proved."""
    if name is not None:
        found = shutil.which(name)
        if found is None:
            give_up(tool, NO_PROGRAM, f"there is no program {name} that can be run.")
        return os.path.realpath(found)
    found = program_of(desk) if os.access(desk, os.X_OK) else None
    if found is None:
        give_up(tool, NO_PROGRAM, "there is no program to run. Name one by --program, if you have one elsewhere.")
    program, is_proved = found
    if not is_proved:
        say(tool, NOT_PROVED)
    return program


def read_script(tool, path, tells_mark=True):
    """The bytes of a script. A byte order mark at its begin is told, for a tool that does not tell of each line by itself."""
    try:
        with open(path, "rb") as file:
            script = file.read()
    except OSError as error:
        give_up(tool, AT_FAULT, f"the script {path} cannot be read: {error.strerror}.")
    if tells_mark and byte_order_mark(script):
        say(tool, f"{path}: {byte_order_mark(script)}")
    return script
