"""The blocks of a document of docs/: headings, paragraphs, items, code and tables, with their marks or without."""

import re
from typing import NamedTuple

LINK = re.compile(r"!?\[((?:[^\[\]`]|`[^`]*`)*)\]\([^()\s]*\)")
CELL = re.compile(r"(?<!\\)\|")
CODE = re.compile(r"`([^`]+)`")
# What a line begins with that is no part of a paragraph.
MARKS = (("heading", "#"), ("table", "|"), ("item", "- "), ("code", "    "))
NUMBERED = re.compile(r"\d+\. ")


class Block(NamedTuple):
    """A heading, an item, or the lines of a paragraph, of code or of a table. An item and code have no marks any more."""

    kind: str
    lines: list

    def text(self):
        """Its words in one line."""
        return " ".join(self.lines)

    def rows(self):
        """The cells of a table's rows, its head the first."""
        rows = [[cell.strip() for cell in CELL.split(line.strip()[1:-1])] for line in self.lines]
        return [row for row in rows if any(cell.strip("-: ") for cell in row)]


def kind_of(line):
    """What a line that is not empty is part of."""
    found = [kind for kind, mark in MARKS if line.startswith(mark)]
    return found[0] if found else "item" if NUMBERED.match(line) else "paragraph"


def blocks_of(text):
    """The blocks of a text. An empty line ends a block, and so does a line of another kind."""
    found, is_open = [], False
    for line in text.split("\n"):
        if not line.strip():
            is_open = False
            continue
        kind = kind_of(line)
        line = line.removeprefix("    ") if kind == "code" else line.removeprefix("- ")
        if is_open and kind == found[-1].kind and kind not in ("heading", "item"):
            found[-1].lines.append(line)
        else:
            found.append(Block(kind, [line]))
        is_open = True
    return found


def plain(text):
    """A text without its marks: a link is what it is called, and code has no quotes."""
    return LINK.sub(lambda it: it[1], text).replace("`", "").replace("**", "").replace("\\|", "|")


def codes_in(text):
    """What stands in backquotes in a text, in its order."""
    return CODE.findall(text)
