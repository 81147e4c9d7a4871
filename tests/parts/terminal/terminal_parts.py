"""Tests of the parts of kit that desk-talk and the files made of the manual stand on, for terminal."""

import os
import re

from desk_kit.driven import is_answered
from desk_kit.manual import Manual, read_manual
from desk_kit.markdown import Block, blocks_of, codes_in, plain
from desk_kit.talk import OWN, Look, Talk, completions
from place import TOP, same

# A manual of two commands and a refusal.
# What region has after the ovals and their frames.
MADE = ("arc ", "farc ", "line ", "poly ", "fpoly ", "rgn ", "offset ", "inset ", "frgn ", "union ", "sect ", "diff ", "xor ")
SMALL = """# Small

Words before.

## All commands

The tables.

**First ones**

| Command | What it does | Answer |
|---|---|---|
| [`box KIND H`](#box), [`box clip HEX`](#box) | makes a [box](#x) of `ok` | `ok N`, its number |
| [`lid H V`](#box) | shuts it | `ok` |

**Last ones**

| Command | What it does | Answer |
|---|---|---|
| [`draw OPERATION`](#draw) | draws | likewise |

## Commands

### `box KIND H`, `lid H V`

Makes a box, or shuts it. As [SCRIPT.md](SCRIPT.md#lines) says, `H` is a number.
It may be low:

- one;
- or two.

| Word | Form | Range |
|---|---|---|
| KIND | name | `round` or `flat`: below, never `lid` |
| H, V | number | 1..2 |

    box round 1

### `draw OPERATION`

Draws.

| OPERATION | Draws |
|---|---|
| `dot H MODE PATTERN` | a dot |

| Word | Form | Range |
|---|---|---|
| MODE | name | below |
| KIND | number | 1, as `round` is |

| With PATTERN | In `bits` | Black |
|---|---|---|
| `patOr` | `srcOr` | black |

| PATTERN | Black are |
|---|---|
| `gray` | half of `all` |

## Refusals

| Number and name | Meaning |
|---|---|
| 3 NoBox | no `box` is there |
| 15 BadSyntax | the line is no command |
"""


class Told:
    """A desk that answers as it was told to, and keeps what it was asked."""

    def __init__(self, **answers):
        self.answers = answers
        self.asked = []

    def ask(self, line):
        self.asked.append(line)
        return self.answers.get(line.decode("latin-1").split(" ")[0], b"refused 15 BadSyntax") if is_answered(line) else b""


def manual():
    return read_manual()


def a_page_is_read_by_its_blocks(_):
    text = "# Head\nA word\nand more.\n- one\n- two\n\n1. three\n\n    code\n      more\n\n| A | B |\n|---|:-:|\n| a\\|b | |\n"
    wanted = [
        ("heading", ["# Head"]),
        ("paragraph", ["A word", "and more."]),
        ("item", ["one"]),
        ("item", ["two"]),
        ("item", ["1. three"]),
        ("code", ["code", "  more"]),
        ("table", ["| A | B |", "|---|:-:|", "| a\\|b | |"]),
    ]
    found = blocks_of(text)
    same("the blocks", found, [Block(*it) for it in wanted])
    same("the rows", found[-1].rows(), [["A", "B"], ["a\\|b", ""]])
    same("no marks", plain("**A** [`b c`](#d) of `e` \\| [f](g.md) ![h](i.png)"), "A b c of e | f h")
    same("codes", codes_in("`a b`, [`c`](#d) and e"), ["a b", "c"])


def a_manual_is_read(_):
    found = Manual(SMALL)
    forms = {"box": ["box KIND H", "box clip HEX"], "lid": ["lid H V"], "draw": ["draw OPERATION"]}
    same("the forms", found.forms, forms)
    first = ("First ones", forms["box"], "makes a box of ok", "ok N, its number")
    same("the entries", [tuple(it) for it in found.entries][:1], [first])
    same("the groups", [it.group for it in found.entries], ["First ones", "First ones", "Last ones"])
    same("the refusals", found.refusals, {"3 NoBox": "no box is there", "15 BadSyntax": "the line is no command"})
    same("kinds", [found.kinds_of(it) for it in found.forms], [["round", "flat"]] * 2 + [[]])
    same("operations", found.operations, {"dot": "dot H MODE PATTERN"})
    same("modes", [found.modes_of("dot"), found.modes_of("bits"), found.modes_of("text")], [["patOr"], ["srcOr"], []])
    same("patterns", found.patterns, ["gray"])
    same("the begin of a section", found.section_of("draw")[1][:9], "Draws.\n\n|")
    same("a section of two", [found.section_of(it)[0] for it in ("box", "lid")], ["`box KIND H`, `lid H V`"] * 2)


def the_manual_has_every_command_of_the_rows(_):
    """The rows were written by hand, and use each command; their first words that are no command are refused."""
    rows = os.path.join(TOP, "tests", "rows")
    used = set()
    for at, _, files in os.walk(rows):
        for name in (it for it in files if it.endswith(".desk")):
            with open(os.path.join(at, name), "rb") as file:
                used.update(re.findall(rb"(?m)^([a-z]+)(?= |\r?$)", file.read()))
    forms = manual().forms
    same("the commands", len(forms), 129)
    same("those that no row has", [it for it in forms if it.encode() not in used], [])
    same("those of the prompt alone", [it for it in OWN if it in forms], [])
    kinds = {
        "window": ["document", "nogrow", "zoom", "dialog", "plain", "shadow", "notched", "round"],
        "float": ["document", "nogrow", "zoom", "dialog", "plain", "shadow", "notched", "round"],
        "control": ["button", "check", "radio", "scroll", "rbutton"],
        "list": ["text"],
    }
    same("kinds", {it: manual().kinds_of(it) for it in forms if manual().kinds_of(it)}, kinds)
    same("refusals", [*manual().refusals][::19], ["1 NoMemory", "20 NoSuchName"])


def help_is_what_the_manual_says(_):
    talk = Talk(Told(), Manual(SMALL), Look())
    table = ["  Word  Form  Range", "  KIND  name  round or flat: below, never lid", "  H, V  number  1..2"]
    text = "Makes a box, or shuts it. As SCRIPT.md says, H is a number. It may be low:"
    page = ["box KIND H, lid H V", "", text, "", "- one;", "- or two.", "", *table, "", "    box round 1"]
    same("of one", talk.answer(b"help lid"), page)
    same("of none", talk.answer(b"help frob"), ["there is no command 'frob'"])
    same("of one like it", talk.answer(b"help boxx"), ["there is no command 'boxx', and the nearest is 'box'"])
    same("of its own", talk.answer(b"help quit"), ["quit: ends, as the end of the input does"])
    same("of two", talk.answer(b"help box lid"), ["help [COMMAND]: shows the commands, or what the manual says of one"])
    own = [f"  {form}: {does}" for form, does in OWN.values()]
    first = ["First ones", "  box KIND H or box clip HEX: makes a box of ok", "  lid H V: shuts it", ""]
    same("of all", talk.answer(b"help"), [*first, "Last ones", "  draw OPERATION: draws", "", "This prompt", *own])
    same("what the desk was asked", talk.desk.asked, [])


def help_of_each_command_stands_in_the_manual(_):
    with open(os.path.join(TOP, "docs", "SCRIPT.md"), encoding="utf-8") as file:
        text = bare(file.read())
    talk = Talk(Told(), manual(), Look(columns=60))
    for command in talk.manual.forms:
        heading, *lines = talk.answer(f"help {command}".encode())
        same(f"the help of {command} names it", command in re.split(r"[ ,]+", heading), True)
        same(f"the help of {command} is long", len(lines) > 1 and max(map(len, lines)) <= 100, True)
        same(f"the help of {command}", bare("\n".join([heading, *lines])) in text, True)


def bare(text):
    """The letters and digits of a text, without where links lead and what parts the cells of a table."""
    return re.sub(r"[^A-Za-z0-9]", "", re.sub(r"\]\([^)]*\)", "", text))


def refusals_have_their_reasons(_):
    desk = Told(box=b"ok 1", lid=b"refused 3 NoBox", draw=b"refused 15 BadSyntax", save=b"ok")
    talk = Talk(desk, Manual(SMALL), Look())
    for line, said in [
        (b"box round 1", ["ok 1"]),
        (b"lid 1 2\r", ["refused 3 NoBox: no box is there"]),
        (b"draw", ["refused 15 BadSyntax: 1 word in place of 2. The form is: draw OPERATION"]),
        (b"draw dot", ["refused 15 BadSyntax: 2 words in place of 5. The form is: draw dot H MODE PATTERN"]),
        (b"draw dot 1 patOr x", ["refused 15 BadSyntax: the line is no command. The form is: draw dot H MODE PATTERN"]),
        (b"frob", ["refused 15 BadSyntax: there is no command 'frob'"]),
        (b"lidd 1 2", ["refused 15 BadSyntax: there is no command 'lidd', and the nearest is 'lid'. The form is: lid H V"]),
        (b"box x", ["ok 1"]),
        (b"save no/x.png", ["nothing is saved: refused 15 BadSyntax: there is no command 'image'"]),
        (b"", []),
        (b"# no", []),
    ]:
        same(f"{line}", talk.answer(line), said)
    same("quit", (talk.answer(b"quit"), talk.has_ended), ([], True))


def words_are_completed(_):
    book = manual()
    for before, word, wanted in [
        ("", "fr", ["front ", "frontwin"]),
        ("", "sa", ["save "]),
        ("", "q", ["quit"]),
        ("", "im", ["image"]),
        ("", "x", []),
        ("help ", "up", ["update", "updatergn"]),
        ("help update ", "", []),
        ("window ", "", ["document ", "nogrow ", "zoom ", "dialog ", "plain ", "shadow ", "notched ", "round "]),
        ("window plain ", "", []),
        ("control ", "", []),
        ("control 1 ", "c", ["check "]),
        ("control 1 ", "r", ["radio ", "rbutton "]),
        ("list 1 ", "", ["text "]),
        ("post ", "", []),
        ("draw ", "", []),
        ("draw 1 ", "f", ["fill ", "frame ", "frect ", "fround ", "foval ", "farc ", "fpoly ", "frgn "]),
        ("draw 1 ", "c", ["clip "]),
        ("draw 1 clip ", "", []),
        ("draw 1 clip 000A ", "r", ["rgn ", "round "]),
        ("draw 1 foval 0 0 8 8 1 1 ", "notPatX", ["notPatXor "]),
        ("", "reg", ["region "]),
        ("region ", "", ["rect ", "round ", "oval ", "frect ", "fround ", "foval ", *MADE]),
        ("region ", "fr", ["frect ", "fround ", "frgn "]),
        ("region ", "p", ["poly "]),
        ("region oval ", "", []),
        ("draw 1 fill 0 0 2 ", "p", []),
        ("draw 1 fill 0 0 2 2 ", "pat", ["patCopy ", "patOr ", "patXor ", "patBic "]),
        ("draw 1 clip 000A fill 0 0 2 2 patOr ", "", ["black", "dkGray", "gray", "ltGray", "white"]),
        ("draw 1 text 2 12 ", "", ["srcOr ", "srcXor ", "srcBic "]),
        ("draw 1 bits 0 0 8 1 ", "not", ["notSrcCopy ", "notSrcOr ", "notSrcXor ", "notSrcBic "]),
        ("draw 1 frob ", "", []),
    ]:
        same(f"behind {before!r}, {word!r}", completions(book, before, word), wanted)


TESTS = [
    a_page_is_read_by_its_blocks,
    a_manual_is_read,
    the_manual_has_every_command_of_the_rows,
    help_is_what_the_manual_says,
    help_of_each_command_stands_in_the_manual,
    refusals_have_their_reasons,
    words_are_completed,
]
