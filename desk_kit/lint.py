"""The lines of a script that are refused, and the form that those ought to have which are refused for their form, their
names or their length."""

import re
from typing import NamedTuple

from desk_kit.answers import LONGEST_LINE, commands_of, shown, split
from desk_kit.forms import FIRST_VERSION, NOTHING_READ, OF_FORM, words_of

# The first command of a script that says its version.
VERSION = re.compile(rb"version 0{0,8}([1-9])")
# What some editors put before the first line of a file, unseen.
BYTE_ORDER_MARK = b"\xef\xbb\xbf"
MARKED = "it begins with a byte order mark, the bytes EF BB BF, which no command has: save the script without one"
# A byte that stands in no line but a comment.
STRANGE = re.compile(rb"[^\x20-\x7e]")


class Refusal(NamedTuple):
    """A line that is refused."""

    # Its number among all lines of the script, from 1.
    line: int
    # What is said of the line, from its number on.
    sentence: str
    # Whether the line is refused for its form, its names or its length.
    is_of_form: bool


def refusals(script, out, forms):
    """The refused lines of a script that is answered so, in their order. Where there are no forms, for want of a manual, no
    form is said. A run that broke off has fewer answers than the script has commands."""
    commands = commands_of(script)
    first = commands[0] if commands else None
    answered = zip(commands, split(out)[0])
    return [refusal(it, answer, first, forms) for it, answer in answered if answer.startswith(b"refused ")]


def refusal(command, answer, first, forms):
    """The refusal of a command that is answered so, in a script with this first command."""
    refused = answer.decode("latin-1").rstrip("\n")
    is_of_form = name_of(refused) in OF_FORM
    said = refused + advice(command, first, forms).said() if is_of_form else refused
    return Refusal(command.line, f"line {command.line}, {shown(command.text)}: {said}", is_of_form)


def name_of(refused):
    """The name of a refusal, as 'refused 15 BadSyntax' has it."""
    return refused.rpartition(" ")[2]


class Advice(NamedTuple):
    """What is said of a line that is refused for its form, its names or its length."""

    # What is wrong with it, or nothing where that is not seen.
    reason: str
    # The form that it ought to have, or None.
    form: str

    def said(self, reason=""):
        """The advice behind an answer, with this reason where the line has none of its own."""
        why = self.reason or reason
        return f"{f': {why}' if why else ''}{f'. The form is: {self.form}' if self.form else ''}"


def advice(command, first, forms):
    """The advice on a command, in a script with this first one."""
    line = command.text
    text = line.removeprefix(BYTE_ORDER_MARK).decode("latin-1")
    reading = forms.reading(text) if forms else NOTHING_READ
    in_bytes = too_long(line) or byte_order_mark(line) or strange(line)
    place = misplaced(command, first) or too_new(reading, first, forms)
    return Advice(in_bytes or reading.unknown or place or misformed(text, reading.form), reading.form)


def byte_order_mark(script):
    """What is wrong with the begin of a script or of a line, where a byte order mark stands there, or nothing."""
    return MARKED if script.startswith(BYTE_ORDER_MARK) else ""


def too_long(line):
    """What is wrong with the length of a line, or nothing."""
    return f"the line has {len(line)} bytes, and {LONGEST_LINE} is the most" if len(line) > LONGEST_LINE else ""


def misplaced(command, first):
    """What is wrong with the place of a command in the script that has this first one, or nothing."""
    is_version = command.text.partition(b" ")[0] == b"version"
    return "it stands before every other command" if is_version and command.line != first.line else ""


def too_new(reading, first, forms):
    """What is wrong with the version of the script that has this first command, where a line is read so, or nothing."""
    is_new = reading.version > FIRST_VERSION and reading.version > version_of(first, forms.latest())
    return f"the script does not begin with 'version {reading.version}'" if is_new else ""


def version_of(first, latest):
    """The version of a script with this first command, where there are versions up to the latest."""
    said = VERSION.fullmatch(first.text)
    number = int(said[1]) if said else FIRST_VERSION
    return number if number <= latest else FIRST_VERSION


def strange(line):
    """What is wrong with the bytes of a line, or nothing."""
    found = STRANGE.search(line)
    return f"the byte {found[0].hex().upper()} in column {found.start() + 1} stands in no command" if found else ""


def misformed(text, form):
    """What is wrong with the spaces or the count of words of a line that is to have this form, or nothing where that is not
    seen from these, or no form is known."""
    if form is None:
        return ""
    words, wanted = words_of(text), words_of(form)
    if " ".join(words) != text:
        return "one space parts a word from the next, and none stands before the first or after the last"
    if len(words) != len(wanted):
        return f"{count_of(words)} in place of {len(wanted)}"
    return ""


def count_of(words):
    """How many words these are, in words."""
    return "1 word" if len(words) == 1 else f"{len(words)} words"
