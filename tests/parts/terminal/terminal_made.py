"""Tests of what is made of the manual, for terminal."""

import json
import os
import re
import subprocess

from place import TOP, Skipped, same
from terminal_kit import need

# What is made of the manual, and the page that is made of another document.
MADE = ("docs/desk.1", "editors/vim/syntax/desk.vim", "editors/vscode/syntaxes/desk.tmLanguage.json")
PAGE_OF_RESOURCES = "docs/desk-rez.1"
# A line that the manual would have with a new command, and the one before it.
BEFORE = "| [`image`](#image) | shows the screen | an image in the format PBM |\n"
NEW = "| [`beep COUNT`](#image) | makes a noise | `ok` |\n"
# Lines of scripts, each word with what it is. A text is one word here.
COLORED = [
    [("window", "Command"), ("zoom", "Kind"), ("-10", "Number"), ("20", "Number"), ('"a 1 gray"', "Text")],
    [("zoom", "Command"), ("1", "Number"), ("8", "Number")],
    [("control", "Command"), ("1", "Number"), ("check", "Kind"), ("0", "Number"), ('""', "Text")],
    [("list", "Command"), ("1", "Number"), ("text", "Kind"), ("0", "Number")],
    [("draw", "Command"), ("1", "Number"), ("text", "Operation"), ("2", "Number"), ("srcOr", "Mode"), ('"text"', "Text")],
    [("draw", "Command"), ("12", "Number"), ("fill", "Operation"), ("patCopy", "Mode"), ("ltGray", "Pattern")],
    [("draw", "Command"), ("1", "Number"), ("clip", "Operation"), ("0A0B", ""), ("rgn", "Operation"), ("0F", "")],
    [("draw", "Command"), ("1", "Number"), ("foval", "Operation"), ("-2", "Number"), ("patXor", "Mode"), ("black", "Pattern")],
    [("region", "Command"), ("fround", "Operation"), ("0", "Number"), ("oval", "")],
    [("region", "Command"), ("union", "Operation"), ("0F", ""), ("line", "")],
    [("region", "Command"), ("fill", "")],
    [("frontwin", "Command")],
    [("front", "Command"), ("2", "Number")],
    [("frontwindow", ""), ("1", "Number")],
    [("close", "Command"), ("find", ""), ("plain", ""), ("fill", ""), ("patOr2", "")],
]
COMMENT = "# window plain 1"
SCOPES = {
    "Command": "keyword.control.desk",
    "Kind": "storage.type.desk",
    "Operation": "support.function.desk",
    "Mode": "support.constant.mode.desk",
    "Pattern": "support.constant.pattern.desk",
    "Number": "constant.numeric.desk",
    "Text": "string.quoted.double.desk",
    "": "",
}


def the_files_made_of_the_manual_are_of_now(place):
    check = os.path.join(TOP, "docs", "make-manual")
    same("those of the tree", place.call(check, "--check", over=False), (0, "4 passed, 0 failed\n", ""))
    place.copy("desk_kit", "tools", "docs/SCRIPT.md", "docs/RESOURCES.md", "docs/make-manual", *MADE, PAGE_OF_RESOURCES)
    made = place.path("tree/docs/make-manual")
    text = place.read("tree/docs/SCRIPT.md")
    heading = text.replace("### `image`\n", "### `image`, `beep COUNT`\n")
    place.write("tree/docs/SCRIPT.md", heading.replace(BEFORE, BEFORE + NEW))
    stale = "".join(f"FAILED: {it} is not what docs/SCRIPT.md makes of it: type docs/make-manual\n" for it in MADE)
    same("where a command is new", place.call(made, "--check", over=False), (1, f"{stale}1 passed, 3 failed\n", ""))
    same("they are made", place.call(made, over=False), (0, "", ""))
    same("the next time", place.call(made, "--check", over=False), (0, "4 passed, 0 failed\n", ""))
    same("those without the new one", [it for it in MADE if "beep" not in place.read(f"tree/{it}")], [])
    os.remove(place.path(f"tree/{MADE[0]}"))
    same("where one is not there", place.call(made, "--check", over=False)[:1], (1,))
    place.write(f"tree/{PAGE_OF_RESOURCES}", "")
    stale = f"FAILED: {PAGE_OF_RESOURCES} is not what docs/RESOURCES.md makes of it: type docs/make-manual\n"
    same("the page of resources", stale in place.call(made, "--check", over=False)[1], True)
    same("other words", place.call(made, "--chek", over=False), (1, "", "usage: make-manual [--check]\n"))


def the_manual_page_is_one(place):
    need("groff")
    page = os.path.join(TOP, "docs", "desk.1")
    words = ["groff", "-man", "-Tascii", "-ww", "-P-c", "-rHY=0", "-rLL=400n", page]
    ran = subprocess.run(words, capture_output=True, cwd=place.folder)
    same("what groff says", (ran.returncode, ran.stderr), (0, b""))
    text = re.sub(r".\x08", "", ran.stdout.decode())
    lines = [re.sub(r" +", " ", line).strip() for line in text.splitlines()]
    same("its head", lines[0].split(" ")[0], "DESK(1)")
    heads = ["NAME", "SYNOPSIS", "DESCRIPTION", "A TRACE", "LINES", "WORDS", "ANSWERS", "COMMANDS", "REFUSALS", "SEE ALSO"]
    same("sections that are not there", [it for it in heads if it not in lines], [])
    for line, after in [
        ("NAME", "desk - runs a script of Toolbox calls on the desktop of the classic Macintosh"),
        ("SYNOPSIS", "desk [--raw] [--check] [--font FILE] [SCRIPT]"),
        ("desk --trace [--bail] [--font FILE] [SCRIPT]", ""),
        ("3 close 7 -> refused 2 NoSuchWindow", "4 find 9 -> refused 15 BadSyntax: 2 words in place of 3. The form is: find H V"),
        ("find H V", "asks whose a point of the screen is. Answer: ok PART WINDOW."),
        ('title WINDOW "TITLE"', "gives a window another title. Answer: ok."),
        ("0; nothing", "the script was read to its end and each command was answered, also where the answers are refusals"),
        ("15 BadSyntax", "the line is no command, or none of the script's version, or a version behind another line"),
        ("--which", "answers which program runs, proved PATH or unproved PATH, and compiles it first where that is due"),
    ]:
        same(f"what follows {line}", lines[lines.index(line) + 1] if line in lines else None, after)
    same("marks of the manual", [it for it in lines if "`" in it or "](" in it], [])


def the_page_of_resources_is_one(place):
    need("groff")
    page = os.path.join(TOP, PAGE_OF_RESOURCES)
    words = ["groff", "-man", "-Tascii", "-ww", "-P-c", "-rHY=0", "-rLL=400n", page]
    ran = subprocess.run(words, capture_output=True, cwd=place.folder)
    same("what groff says", (ran.returncode, ran.stderr), (0, b""))
    lines = [re.sub(r" +", " ", it).strip() for it in re.sub(r".\x08", "", ran.stdout.decode()).splitlines()]
    same("its head", lines[0].split(" ")[0], "DESK-REZ(1)")
    for line, after in [
        ("SYNOPSIS", "desk-rez [OPTION]... VERB FILE [WORD]..."),
        ("font FILE NUMBER OUT", "the font of this number, an NFNT or where there is none a FONT, as a file for the option --font of desk"),
        ("--strict", "the status is 1 where something of a resource has no counterpart. What is written is the same"),
        ("129, 130, 143", "a signal ended it, as each tool"),
    ]:
        same(f"what follows {line}", lines[lines.index(line) + 1] if line in lines else None, after)
    same("marks of the document", [it for it in lines if "`" in it or "](" in it], [])


def the_grammar_colors_the_words(_):
    with open(os.path.join(TOP, MADE[2]), encoding="utf-8") as file:
        rules = json.load(file)["patterns"]
    for words in COLORED:
        line = " ".join(word for word, _ in words)
        scopes = scopes_of(rules, line)
        at = 0
        for word, name in words:
            same(f"{word} in {line}", {*scopes[at : at + len(word)]}, {SCOPES[name]})
            at += len(word) + 1
    same("a comment", {*scopes_of(rules, COMMENT)}, {"comment.line.number-sign.desk"})


def scopes_of(rules, line):
    """What each character of a line is, as an editor has it that reads a grammar of TextMate: of the rules that match the
    rest of the line that holds which begins first, and of those that begin at one place the first rule."""
    scopes, at = [""] * len(line), 0
    while at < len(line):
        found = [(rule, match) for rule in rules if (match := re.compile(rule["match"]).search(line, at))]
        if not found:
            break
        rule, match = min(found, key=lambda it: it[1].start())
        captured = {int(number): its["name"] for number, its in rule.get("captures", {}).items()}
        for number, name in ({0: rule["name"]} if "name" in rule else captured).items():
            for place in range(*match.span(number)):
                scopes[place] = name
        at = max(match.end(), at + 1)
    return scopes


def vim_colors_the_words(place):
    need("vim")
    lines = [" ".join(word for word, _ in words) for words in COLORED]
    place.write("script.desk", "\n".join([*lines, COMMENT]) + "\n")
    places = []
    for number, words in enumerate(COLORED, 1):
        column = 1
        for word, _ in words:
            places += [(number, column), (number, column + len(word) - 1)]
            column += len(word) + 1
    places.append((len(COLORED) + 1, 3))
    asked = ", ".join(f'synIDattr(synID({line}, {column}, 1), "name")' for line, column in places)
    place.write("asks.vim", f'call writefile([&filetype, {asked}], "{place.path("names")}")\nqall!\n')
    start = f"set runtimepath^={os.path.join(TOP, 'editors', 'vim')} | syntax on | filetype plugin on"
    words = ["vim", "-e", "-s", "-N", "-u", "NONE", "-i", "NONE", "--cmd", start, "-S", "asks.vim", "script.desk"]
    subprocess.run(words, cwd=place.folder, stdin=subprocess.DEVNULL, capture_output=True, timeout=60)
    if not os.path.exists(place.path("names")):
        raise Skipped("this vim runs no scripts", "vim")
    wanted = [f"desk{name}" if name else "" for words in COLORED for _, name in words for _ in range(2)]
    same("the file's type and its words", place.read("names").split("\n")[:-1], ["desk", *wanted, "deskComment"])


def the_extension_names_files_that_are_there(_):
    folder = os.path.join(TOP, "editors", "vscode")
    with open(os.path.join(folder, "package.json"), encoding="utf-8") as file:
        parts = json.load(file)["contributes"]
    paths = [it["configuration"] for it in parts["languages"]] + [it["path"] for it in parts["grammars"] + parts["snippets"]]
    same("those that are not", [it for it in paths if not os.path.isfile(os.path.join(folder, it))], [])
    languages = {it["id"]: it["extensions"] for it in parts["languages"]}
    same("the language of scripts", languages.get("desk"), [".desk"])
    grammars = {it["language"]: os.path.join(folder, it["path"]) for it in parts["grammars"]}
    same("its grammar", os.path.realpath(grammars["desk"]), os.path.join(TOP, MADE[2]))


TESTS = [
    the_files_made_of_the_manual_are_of_now,
    the_manual_page_is_one,
    the_page_of_resources_is_one,
    the_grammar_colors_the_words,
    vim_colors_the_words,
    the_extension_names_files_that_are_there,
]
