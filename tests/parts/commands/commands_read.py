"""How a page is read for its commands: its paragraphs and blocks of code, and what each block is by what it follows."""

import re
from typing import NamedTuple

SPAN = re.compile(r"`([^`]+)`")
# How a command begins, in a block of code or between backquotes.
PROGRAMS = r"(?:cc|c\+\+|cargo|make|man|parallel|pip|python3|rt|sha256sum|source|tar) "
BEGIN = re.compile(rf"(?:\$ )?(?:\.\.?/|tests/|tools/|docs/[\w-]+(?: |$)|desk-\d|{PROGRAMS})")
# A word that stands for another, as SCRIPT, and an option that may be left out, as [--raw]. Types of resources are no such words.
TYPES = "ALRT|CNTL|DLOG|ICON|MBAR|MENU|WIND"
FORM = re.compile(rf"\b(?!(?:{TYPES})\b)[A-Z]{{2,}}\b|\[")
# How a paragraph ends that is followed by a file of this name, or by what the command that was named last prints.
IS_FILE = re.compile(r"`([\w./-]+)` is$|(?:of|by) (?:a|this) (script|Makefile):?$", re.I)
PRINTS = re.compile(r"(?:says|prints|shows|now|begin to differ|with status \d|begins with):?$")


class Step(NamedTuple):
    """Something that a page has done, in its order."""

    # 'command', 'file', 'output', 'code' or 'other'
    kind: str
    line: int
    # The command, or the text of the block.
    text: str
    # The name of the file, or what the page says just before.
    about: str = ""


class Part:
    """A paragraph, or a block of code, of a page."""

    def __init__(self, kind, line):
        self.kind, self.line, self.lines = kind, line, []

    def text(self):
        return "\n".join(self.lines).strip("\n")


def parts_of(text):
    """The paragraphs and indented blocks of a page, in their order. What is fenced is not read."""
    parts, last, is_fenced = [], None, False
    for number, line in enumerate(text.split("\n"), 1):
        is_fence = line.startswith("```")
        if is_fence or is_fenced:
            last, is_fenced = None, is_fence != is_fenced
            continue
        is_blank = not line.strip()
        kind = "code" if line.startswith("    ") and (last is None or last.kind == "code") else "text"
        if is_blank and last and last.kind == "code":
            last.lines.append("")
        elif is_blank:
            last = None
        else:
            if last is None or last.kind != kind:
                last = Part(kind, number)
                parts.append(last)
            last.lines.append(line[4:] if kind == "code" else line)
    return parts


def is_command(text):
    """Whether this is a command that can be called as it stands, and no more than the name of a file or a form."""
    return bool(BEGIN.match(text)) and not FORM.search(text)


def commands_in(text, line):
    """The commands between backquotes of a paragraph. A name alone, as of a tool, is none."""
    spans = [it for it in SPAN.findall(text) if " " in it and is_command(it)]
    return [Step("command", line, it) for it in spans]


def lines_of(block, line):
    """The commands of a block that has them line by line."""
    joined = re.sub(r" *\\\n *", " ", block)
    return [Step("command", line, it.strip()) for it in joined.split("\n") if it.strip()]


def block_of(block, line, before):
    """What a block of code is, by its begin and by the paragraph before it."""
    named = IS_FILE.search(before)
    if named:
        return [Step("file", line, block, named[1] or named[2])]
    if BEGIN.match(block):
        return lines_of(block, line)
    if block.startswith("from desk_kit"):
        return [Step("code", line, block)]
    return [Step("output" if PRINTS.search(before) else "other", line, block, before)]


def steps_of(text):
    """What a page has done, in its order. A file stands before the commands of the paragraph that speaks of it."""
    steps, before, place = [], "", 0
    for part in parts_of(text):
        if part.kind == "text":
            before, place = part.text(), len(steps)
            steps += commands_in(before, part.line)
            continue
        found = block_of(part.text(), part.line, before)
        if found[0].kind == "file":
            steps[place:place] = found
        else:
            steps += found
    return steps
