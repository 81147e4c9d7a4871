"""How editors color scripts: a syntax file of vim, and a grammar of TextMate. Their words are those of the manual."""

import json
from typing import NamedTuple

from desk_kit.manual import DRAW

# The classes of words, with what vim and TextMate call them.
CLASSES = {
    "Command": ("Statement", "keyword.control"),
    "Operation": ("Function", "support.function"),
    "Kind": ("Type", "storage.type"),
    "Mode": ("Constant", "support.constant.mode"),
    "Pattern": ("Constant", "support.constant.pattern"),
}
VIM_HEAD = """" Syntax of the scripts of desk. Made by docs/make-manual of docs/SCRIPT.md.
if exists("b:current_syntax")
  finish
endif
syntax case match
syntax match deskComment "^#.*$" contains=@Spell
syntax region deskText start=+"+ end=+"+ oneline
syntax match deskNumber "\\( \\)\\@<=-\\?\\d\\{1,9}\\ze\\( \\|$\\)"
"""
VIM_FOOT = """highlight default link deskComment Comment
highlight default link deskText String
highlight default link deskNumber Number
let b:current_syntax = "desk"
"""
GRAMMAR_HEAD = [
    {"name": "comment.line.number-sign.desk", "match": "^#.*$"},
    {"name": "string.quoted.double.desk", "match": '"[^"]*"'},
    {"name": "constant.numeric.desk", "match": "(?<= )-?[0-9]{1,9}(?= |$)"},
]


class Words(NamedTuple):
    """Words of a class that stand in one place: right behind a command and a count of other words, or, without a command,
    behind any blank."""

    name: str
    words: list
    command: str = ""
    between: int = 0


def places_of(manual):
    """The words of the manual beside commands, by their places. A clip may stand before an operation."""
    operations = [*manual.operations]
    found = [Words("Operation", [*operations, "clip"], "draw", 1), Words("Operation", operations, "draw clip", 1)]
    found += [Words("Operation", [*forms], command) for command, forms in manual.inner.items() if command != DRAW]
    for command, forms in manual.forms.items():
        if kinds := manual.kinds_of(command):
            found.append(Words("Kind", kinds, command, forms[0].split(" ").index("KIND") - 1))
    modes = [mode for operation in operations for mode in manual.modes_of(operation)]
    return [*found, Words("Mode", [*dict.fromkeys(modes)]), Words("Pattern", manual.patterns)]


def vim_begin(place):
    """What stands before words, as vim has it."""
    if place.command == "draw clip":
        return r"\(^draw \S\+ clip \S\+ \)\@<="
    return r"\(" + (f"^{place.command} " if place.command else " ") + r"\S\+ " * place.between + r"\)\@<="


def vim_line(name, begin, words):
    choice = "\\|".join(words)
    return f'syntax match desk{name} "{begin}\\({choice}\\)\\ze\\( \\|$\\)"\n'


def vim_of(manual):
    """The syntax file of vim."""
    lines = [vim_line("Command", "^", manual.forms)]
    lines += [vim_line(place.name, vim_begin(place), place.words) for place in places_of(manual)]
    links = [f"highlight default link desk{name} {group}\n" for name, (group, _) in CLASSES.items()]
    return VIM_HEAD + "".join([*lines, *links]) + VIM_FOOT


def rule_of(place):
    """The rule of TextMate for words. One behind a command takes the line's beginning with it."""
    choice = f"({'|'.join(place.words)})(?= |$)"
    scope = f"{CLASSES[place.name][1]}.desk"
    if not place.command:
        return {"name": scope, "match": f"(?<= ){choice}"}
    if place.command == "draw clip":
        names = (CLASSES["Command"][1], "constant.numeric", CLASSES["Operation"][1])
        begin = r"^(draw) (\S+) (clip) \S+ "
    else:
        names = (CLASSES["Command"][1], *["constant.numeric"] * place.between)
        begin = f"^({place.command}) " + r"(\S+) " * place.between
    captures = {str(number): {"name": f"{name}.desk"} for number, name in enumerate(names, 1)}
    captures[str(len(names) + 1)] = {"name": scope}
    return {"match": begin + choice, "captures": captures}


def grammar_of(manual):
    """The grammar of TextMate. Where rules begin at one place the first of them holds, so the longer ones stand first."""
    places = sorted(places_of(manual), key=lambda it: -len(it.command))
    commands = {"name": f"{CLASSES['Command'][1]}.desk", "match": f"^({'|'.join(manual.forms)})(?= |$)"}
    rules = [*GRAMMAR_HEAD, *map(rule_of, places), commands]
    grammar = {"name": "desk script", "scopeName": "source.desk", "fileTypes": ["desk"], "patterns": rules}
    return json.dumps(grammar, indent=2) + "\n"
