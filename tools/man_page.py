"""The manual pages of desk and of desk-rez, in the macros of man(7), made of the manual of scripts and of the page of resources."""

from desk_kit.markdown import NUMBERED, blocks_of, plain
from desk_kit.manual import sections_of

# Which sections of the manual are in the page, and what they are called there.
DESCRIPTION = "The program"
TRACE = "A trace"
FURTHER = ("Which program `./desk` runs", TRACE, "Reads and writes", "Lines", "Words", "Answers")
HEAD = """.\\" Made by docs/make-manual of docs/SCRIPT.md.
.TH DESK 1 "" "desk" "User Commands"
.SH NAME
desk \\- runs a script of Toolbox calls on the desktop of the classic Macintosh
.SH SYNOPSIS
"""
TOOL_HEAD = """.\\" Made by docs/make-manual of docs/RESOURCES.md.
.TH {upper} 1 "" "desk" "User Commands"
.SH NAME
{name} \\- {does}
.SH SYNOPSIS
"""
TOOL_FOOT = """.SH SEE ALSO
docs/RESOURCES.md in the sources is the whole page, with examples. docs/SCRIPT.md is the manual of scripts.
"""
FOOT = """.SH SEE ALSO
docs/SCRIPT.md in the sources is the whole manual, with the words, answers and refusals of each command.
"""


def escaped(text):
    """A text as roff has it, with nothing in it that roff would take for its own."""
    found = text.replace("\\", "\\e").replace("-", "\\-").replace('"', "\\(dq")
    return "\\&" + found if found[:1] in (".", "'") else found


def line(text):
    """A line of text, without the marks of the manual."""
    return escaped(plain(text)) + "\n"


def tagged(tag, text):
    """A paragraph behind a tag."""
    return f".TP\n.B {line(tag)}{line(text)}"


def block_of(block):
    """A block of the manual. A row of a table is a paragraph behind a tag, which is all cells but the last."""
    if block.kind == "code":
        return ".PP\n.nf\n" + "".join(map(line, block.lines)) + ".fi\n"
    if block.kind == "table":
        head, *rows = block.rows()
        return f".PP\n.I {line('; '.join(head))}" + "".join(tagged("; ".join(filter(None, it[:-1])), it[-1]) for it in rows)
    if block.kind == "item":
        number = NUMBERED.match(block.text())
        mark, begin = (number[0].strip(), number.end()) if number else ("\\(bu", 0)
        return f".IP {mark} 3\n{line(block.text()[begin:])}"
    return f".PP\n{line(block.text())}"


def section(title, text):
    """A section of the page."""
    return f".SH {escaped(plain(title).upper())}\n" + "".join(map(block_of, blocks_of(text)))


def commands_of(manual):
    """The section of all commands, by their groups."""
    parts, group = [".SH COMMANDS\n"], ""
    for entry in manual.entries:
        if entry.group != group:
            group = entry.group
            parts.append(f".SS {line(group)}")
        parts.append(tagged(" or ".join(entry.forms), f"{entry.does}. Answer: {entry.answer}."))
    return "".join(parts)


def refusals_of(manual):
    """The section of refusals."""
    return ".SH REFUSALS\n" + "".join(tagged(name, meaning) for name, meaning in manual.refusals.items())


def tool_page(text, name, does, sections):
    """The page of a tool, from the text of its own page: how it is called, the first words of the first of these sections, and
    all of them."""
    found = sections_of(text)
    called, _, described = found[sections[0]].removeprefix("`").partition("` ")
    head = TOOL_HEAD.format(upper=name.upper(), name=escaped(name), does=escaped(does))
    first = section("Description", f"It {described}")
    return "".join([head, f".B {escaped(called)}\n", first, *(section(it, found[it]) for it in sections[1:]), TOOL_FOOT])


def man_page(text, manual):
    """The whole page, from the text of the manual and what was read of it. The first words of the section of
    the program, and of that of the trace, are how it is called."""
    sections = sections_of(text)
    called, _, described = sections[DESCRIPTION].removeprefix("`").partition("` ")
    traced = sections[TRACE].removeprefix("`").partition("` ")[0]
    parts = [HEAD, f".B {escaped(called)}\n.PP\n.B {escaped(traced)}\n", section("Description", f"It {described}")]
    parts += [section(title, sections[title]) for title in FURTHER]
    return "".join([*parts, commands_of(manual), refusals_of(manual), FOOT])
