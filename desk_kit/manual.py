"""The manual of scripts, docs/SCRIPT.md: its commands with their forms and sections, the names that their words may have,
and what refusals mean. Nothing of that is written a second time for the tools that need it."""

import os
import re
from typing import NamedTuple

from desk_kit.markdown import blocks_of, codes_in, plain

PATH = os.path.join(os.path.dirname(os.path.dirname(os.path.realpath(__file__))), "docs", "SCRIPT.md")
HEADING = re.compile(r"(?m)^(#{2,3}) +(.*)$")
# The commands that hold one of several inner forms, each with the word of its form for which these stand: a table of its
# section has them below that word.
DRAW = "draw"
INNER = {DRAW: "OPERATION", "region": "FORM"}
# The command whose section has a table of the words that a script has from some version on.
VERSION = "version"


class Entry(NamedTuple):
    """A row of the table of all commands: its group, its forms, what it does and what it answers."""

    group: str
    forms: list
    does: str
    answer: str


class Manual:
    """What the manual says."""

    def __init__(self, text):
        self.sections = sections_of(text)
        self.entries = entries_of(self.sections["All commands"])
        # Each command with its forms, as 'find H V'.
        self.forms = {}
        for entry in self.entries:
            for form in entry.forms:
                self.forms.setdefault(form.split(" ")[0], []).append(form)
        # Of each command with inner forms these, by their names.
        self.inner = {it: by_names(self.column(it, word)) for it, word in INNER.items() if it in self.forms}
        self.operations = self.inner[DRAW]
        self.patterns = self.column(DRAW, "PATTERN")
        # The version from which on a script has a command, an inner form or a kind, as the words that name it: 'float',
        # 'draw oval', 'window round'.
        # What is not here is of version 1.
        self.versions = dict(self.versioned()) if VERSION in self.forms else {}
        # What each refusal means, by its number and name.
        rows = blocks_of(self.sections["Refusals"])[0].rows()
        self.refusals = {row[0]: plain(row[1]) for row in rows[1:]}

    def section_of(self, command):
        """The heading and the text of a command's section."""
        for heading, text in self.sections.items():
            if command in [form.split(" ")[0] for form in codes_in(heading)]:
                return heading, text
        raise KeyError(command)

    def tables_of(self, command):
        """The tables of a command's section, each as its rows."""
        return [block.rows() for block in blocks_of(self.section_of(command)[1]) if block.kind == "table"]

    def column(self, command, head):
        """What stands in backquotes in the column that has this head, of a table in a command's section."""
        for head_row, *rows in self.tables_of(command):
            if head in map(plain, head_row):
                at = [*map(plain, head_row)].index(head)
                found = [name for row in rows for name in codes_in(row[at])]
                if found:
                    return found
        return []

    def versioned(self):
        """Each command, inner form and kind of a later version, as the words that name it, with that version. In the table
        inner forms and kinds stand below the names of their commands, and commands below no name."""
        head, *rows = next((it for it in self.tables_of(VERSION) if it[0][0] == "Version"), [[""]])
        for number, *cells in rows:
            for title, cell in zip(head[1:], cells):
                for command in codes_in(title) or [""]:
                    yield from ((f"{command} {name}".lstrip(), int(number)) for name in codes_in(cell))

    def kinds_of(self, command):
        """The kinds that a command may name, or none."""
        for rows in self.tables_of(command):
            for row in rows:
                if row[:2] == ["KIND", "name"]:
                    return codes_in(row[2].partition(":")[0])
        return []

    def modes_of(self, operation):
        """The modes in which an operation may draw."""
        head = f"In {operation}" if operation in ("bits", "text") else "With PATTERN"
        return self.column("draw", head)


def by_names(forms):
    """These forms, by their first words."""
    return {form.split(" ")[0]: form for form in forms}


def sections_of(text):
    """The text below each heading of a page, up to the next one."""
    found = [*HEADING.finditer(text)]
    ends = [*(it.start() for it in found[1:]), len(text)]
    return {it[2]: text[it.end() : end].strip("\n") for it, end in zip(found, ends)}


def entries_of(section):
    """The rows of the tables of all commands."""
    entries, group = [], ""
    for block in blocks_of(section):
        if block.kind == "paragraph":
            group = plain(block.text())
        elif block.kind == "table":
            rows = block.rows()[1:]
            entries += [Entry(group, codes_in(row[0]), plain(row[1]), plain(row[2])) for row in rows]
    return entries


def read_manual(path=PATH):
    """The manual that lies in this file."""
    with open(path, encoding="utf-8") as file:
        return Manual(file.read())
