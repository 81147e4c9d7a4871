"""The form that a line of a script ought to have, by the forms of commands and operations that the manual has."""

import difflib
import functools
import re
from typing import NamedTuple

from desk_kit.answers import Fault
from desk_kit.manual import DRAW, INNER, PATH, read_manual

# The names of the refusals that lie in the line itself.
OF_FORM = ("BadSyntax", "NoSuchName", "TooLong")
CLIP = "clip"
KIND = "KIND"
# The version of what is of no later one.
FIRST_VERSION = 1
WORD = re.compile(r'"[^"]*"|[^ ]+')


class Reading(NamedTuple):
    """What the forms make of a line."""

    # The form of the line, or the nearest one; None where none is near.
    form: str
    # What is said of a word that names no command or inner form, or None where there is no such word.
    unknown: str
    # The version from which on a script has such a line.
    version: int = FIRST_VERSION


# What is made of a line without a manual.
NOTHING_READ = Reading(None, None)


def words_of(line):
    """The words of a line or of a form. A text in quotes is one word."""
    return WORD.findall(line)


def forms():
    """The forms that the manual has."""
    try:
        return Forms(read_manual())
    except OSError as fault:
        raise Fault(f"the manual cannot be read: {fault}") from None
    except (KeyError, IndexError):
        raise Fault(f"{PATH} has no tables of commands and operations") from None


@functools.lru_cache(maxsize=1)
def forms_if_any():
    """The forms that the manual has, which is read once, or None where there is none, as in an installed package."""
    try:
        return forms()
    except Fault:
        return None


class Forms:
    """The forms of all commands, and the inner forms that some of them hold, by their names."""

    def __init__(self, manual):
        # Of the two forms of draw the one without clip comes first.
        self.commands = {name: its[0] for name, its in manual.forms.items()}
        self.inner, self.versions = manual.inner, manual.versions
        self.clipped = next((it for it in manual.forms[DRAW] if CLIP in words_of(it)), INNER[DRAW])

    def latest(self):
        """The latest version that a script may have."""
        return max(self.versions.values(), default=FIRST_VERSION)

    def version_of(self, *names):
        """The version from which on a script has what these words name."""
        return self.versions.get(" ".join(names), FIRST_VERSION)

    def reading(self, line):
        """What a line is by its first word, and by its inner form too where that word has some, as draw has operations."""
        words = words_of(line) or [line]
        command, unknown = known(words[0], self.commands, "command")
        if command is None:
            return Reading(None, unknown)
        form = self.commands[command]
        version = max(self.version_of(command), self.version_of(command, *kind_in(words, form)))
        if command == DRAW and words[2:3] == [CLIP]:
            form = self.clipped
        place = self.place_of_inner(command, form)
        if place is None or len(words) <= place:
            return Reading(form, unknown, version)
        any_of_them, forms = INNER[command], self.inner[command]
        name, other = known(words[place], forms, any_of_them.lower())
        if name is None:
            return Reading(form, unknown or other, version)
        version = max(version, self.version_of(command, name))
        return Reading(form.replace(any_of_them, forms[name]), unknown or other, version)

    def place_of_inner(self, command, form):
        """Where the inner form begins in this form of a command, from 0, or None where it has none."""
        return words_of(form).index(INNER[command]) if command in self.inner else None


def kind_in(words, form):
    """The word at the place of a kind in this form, in a list: an empty one where the form has no kind, or the line ends before
    it."""
    wanted = words_of(form)
    return words[wanted.index(KIND) :][:1] if KIND in wanted else []


def known(word, names, what):
    """The one of these names that a word is, and None; or else the nearest one, if there is one, and what is said of it."""
    if word in names:
        return word, None
    near = difflib.get_close_matches(word.lower(), names, 1)
    said = f"there is no {what} '{word}'"
    return (near[0], f"{said}, and the nearest is '{near[0]}'") if near else (None, said)
