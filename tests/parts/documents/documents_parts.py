"""The tests of documents itself: a small tree that is right, and each kind of fault in it."""

import os
import subprocess

from desk_kit.answers import Fault
from documents_checks import faults_of, figures_of
from documents_read import Document, anchor_of, count_words
from documents_tree import Tree
from place import same

README = """# Small

Run `./go --fast` and see [the guide](docs/GUIDE.md#how-it-goes-on), [`low`](crates/low), the ![picture](docs/it.png).

<!-- `not_there` [nor this](nowhere.md) -->

    ./go --fast docs/it.png

```
[in code](nowhere.md) `not_there`
tests/try --all | tests/try > docs/new.png
```
"""
GUIDE = """# Guide

## How it *goes* on

- `next(n)` is `low::next`, in `low/src/lib.rt`; `Small::Kind { is_next }` and `crates/NAME/src` are there too.
- See [below](#how-it-goes-on-1), [line 2](../crates/low/src/lib.rt#L2), [other](https://example.org/x) and `tests/try`.

| One | Two |
|---|---|
| `1.5`, `a b` | `low/out/low` |

## How it goes on
"""
RIGHT = {
    "README.md": README,
    "CHANGELOG.md": "# Changes\n",
    "docs/GUIDE.md": GUIDE,
    "docs/it.png": "\0",
    "crates.txt": "# The crates\nlow:\n",
    "crates/low/README.md": "# `low`\n\nNumbers.\n",
    "crates/low/src/lib.rt": "struct Small;\npub fn next() -> Kind { is_next }\n",
    "go": "#!/bin/sh\ncase $1 in --fast) ;; esac\n",
    "tests/try": "#!/usr/bin/env python3\nimport try_parts\n",
    "tests/try_parts.py": 'OPTIONS = ["--all"]\n',
    "tests/documents_words.py": "ALLOWED = [prior, is_prior]\n",
}


def tree_of(folder, changes=()):
    """The right tree with these files put in place of its own, or taken out where they are None."""
    for path, text in {**RIGHT, **dict(changes)}.items():
        place = os.path.join(folder, path)
        if text is None:
            if os.path.exists(place):
                os.remove(place)
            continue
        os.makedirs(os.path.dirname(place), exist_ok=True)
        with open(place, "w", encoding="utf-8") as file:
            file.write(text)
    return Tree(folder)


def finds(folder, path, text, *wanted):
    """Wants just these faults, as 'FILE:LINE: WHAT' or as what these begin with, where this file has this text."""
    tree = tree_of(folder, {path: text})
    found = [f"{path}:{line}: {what}" for path, line, what in faults_of(tree)]
    if len(found) != len(wanted) or not all(it.startswith(due) for it, due in zip(found, wanted)):
        raise Fault(f"{text!r} in {path}: {found} in place of {[*wanted]}")
    tree_of(folder)


def a_right_tree_passes(folder):
    same("the faults", faults_of(tree_of(folder)), [])


def long_blocks_and_documents_are_found(folder):
    most = " ".join(["word"] * 120)
    shapes = {"{}": "paragraph", "- {}": "list item", "1. a\n2. {}": "list item", "| a | {} |": "table cell"}
    for text, what in shapes.items():
        line = 1 + text.count("\n")
        finds(folder, "CHANGELOG.md", text.format(most))
        finds(folder, "CHANGELOG.md", text.format(f"{most} word"), f"CHANGELOG.md:{line}: a {what} of 121 words")
    finds(folder, "CHANGELOG.md", f"a\n\n{most}\nword\n", "CHANGELOG.md:3: a paragraph of 121 words")
    finds(folder, "CHANGELOG.md", f"- a\n\n  {most}\n  word\n", "CHANGELOG.md:3: a paragraph of 121 words")
    for fence in ("```\n{}\n```\n", "~~~ sh\n{}\n```\n~~~\n", "a\n\n    {}\n", "<!-- a\n{} -->\n"):
        finds(folder, "CHANGELOG.md", fence.format(f"{most} word"))
    paragraphs = "\n\n".join(["word " * 100] * 9)
    finds(folder, "README.md", README + paragraphs, "README.md:1: 91")
    few = "# `low`\n\n" + "word " * 75 + "\n\n" + "word " * 74
    finds(folder, "crates/low/README.md", few)
    finds(folder, "crates/low/README.md", few + "word", "crates/low/README.md:1: 151 words")


def links_that_lead_nowhere_are_found(folder):
    for link in ("docs/NONE.md", "docs/guide.md", "<docs/a b.md>", "../up.md", "docs/it.pngs"):
        path = link.strip("<>")
        finds(folder, "CHANGELOG.md", f"a\nb [it]({link})", f"CHANGELOG.md:2: the link {path} leads to no file")
    for link in ("docs/GUIDE.md#how-it-goes-on-2", "#change", "crates/low/src/lib.rt#L3", "docs/it.png#a"):
        finds(folder, "CHANGELOG.md", f"# Changes\n\n- [it]({link})", f"CHANGELOG.md:3: the link {link} leads to an anchor")
    for text in ("![it](no.png)", '<img src="no.png">', "[it]: no.png", "| a | [b](no.png 'c') |"):
        finds(folder, "CHANGELOG.md", text, "CHANGELOG.md:1: the link no.png leads to no file")
    for text in ("[it](crates/low#low)", "[a](docs)", "[a](docs/GUIDE.md#guide)", "[a](#a)\n\n# A", "`[a](no.md)`"):
        finds(folder, "CHANGELOG.md", text)


def names_that_are_nowhere_are_found(folder):
    for span, what in [
        ("prior", "prior, which stands nowhere"),
        ("low::prior", "prior, which stands nowhere"),
        ("prior()", "prior, which stands nowhere"),
        ("Small { is_prior: 1 }", "is_prior, which stands nowhere"),
        ("low.Other", "Other, which stands nowhere"),
        ("low/src/none.rt", "no file or folder"),
        ("none.rt", "no file or folder"),
        ("crates/NAME/NONE.md", "no file or folder"),
    ]:
        finds(folder, "CHANGELOG.md", f"a\nb\nc `{span}`", f"CHANGELOG.md:3: `{span}` names {what}")
    for span in ("next", "low::Small", "lib.rt", "src/lib", "docs/*.png", "..UIDE.md", "-1", "--fast", "a + b", "crates/low/src/", "_"):
        finds(folder, "CHANGELOG.md", f"`{span}`, and ``prior`` and prior")


def names_that_stand_in_another_file_are_found(folder):
    fault = "CHANGELOG.md:2: `go` does not stand in crates/low/src/lib.rt"
    finds(folder, "CHANGELOG.md", "a\n`go` in [`lib.rt`](crates/low/src/lib.rt)", fault)
    for name in ("next", "low::next", "Small"):
        finds(folder, "CHANGELOG.md", f"`{name}` in [`lib.rt`](crates/low/src/lib.rt), `go` in [a folder](crates)")


def commands_that_are_wrong_are_found(folder):
    for command, what in [
        ("./stop", "names stop, which is no file"),
        ("tests/none --all", "names tests/none, which is no file"),
        ("./go --slow", "has the option --slow, which go does not know"),
        ("./go [--fast] [--fas]", "has the option --fas, which go does not know"),
        ("./go docs/none.png", "names docs/none.png, which is no file"),
        ("tests/try --fast", "has the option --fast, which tests/try does not know"),
    ]:
        for text in (f"a\n\n    {command}", f"a\n```\n$ {command}\n```", f"a\n\n`{command}`", f"a\n\n    go | {command}"):
            finds(folder, "CHANGELOG.md", text, f"CHANGELOG.md:3: the command {command} {what}")
    for command in ("./go --fast --help", "tests/try --all > docs/none.png", "./go NAME # --slow", "go --slow", "./go a/b"):
        finds(folder, "CHANGELOG.md", f"    {command}\n\n`{command}`")


def what_nothing_leads_to_is_found(folder):
    finds(folder, "crates/low/README.md", None, "crates.txt:2: the crate low has no crates/low/README.md")
    finds(folder, "docs/MORE.md", "[this](MORE.md)", "docs/MORE.md:1: no other document has a link to this one")
    os.remove(os.path.join(folder, "docs/MORE.md"))
    finds(folder, "crates.txt", "low:\nhigh: low\n", "crates.txt:2: the crate high has no crates/high/README.md")
    finds(folder, "crates.txt", "low:\nhigh staticlib: low\n", "crates.txt:2: the crate high has no crates/high/README.md")


def packages_are_named(folder):
    fault = "no command here ends with the packages of .ci/packages: docs crates"
    tree = tree_of(folder, {".ci/packages": "# all\ndocs\ncrates\n"})
    same("without", faults_of(tree), [("README.md", 1, fault)])
    same("with", faults_of(tree_of(folder, {"README.md": f"{README}\nIt wants `./go docs crates`.\n"})), [])


def code_of_the_library_is_tested_text(folder):
    line = README.count("\n") + 1
    code = "```rust\npub fn none() {}\n```\n"
    finds(folder, "README.md", README + code, f"README.md:{line}: this code stands in no file of the tree")
    with open(os.path.join(folder, "crates/low/src/lib.rt"), encoding="utf-8") as file:
        first = file.readline()
    finds(folder, "README.md", f"{README}```rust\n{first}```\n")


def figures_are_those_of_the_tree(folder):
    proofs = {"crates/low/proofs/Lib.antt": "a\n" * 1299, "crates/low/src/laws.rt": "    pub fn a_law() {}\n// fn none\npub const fn b() {}\n"}
    same("the figures", figures_of(tree_of(folder, proofs)), (3, 2, 1299))
    line = README.count("\n") + 1
    right = "3 functions, 2 laws among them, and 1,200 lines of proofs"
    finds(folder, "README.md", README + right)
    for said, number, now in [("3", "4", "3"), ("1,200", "1,300", "1299"), (" 2", " 1", "2")]:
        wrong = f"README.md:{line}: the figure {number.strip()} is {said.strip()} now: tests/documents --figures counts {now}"
        finds(folder, "README.md", README + right.replace(said, number, 1), wrong)


def what_git_leaves_out_is_no_part_of_the_tree(folder):
    tree_of(folder, {"crates/low/out/NEW.md": "", ".gitignore": "out/\n"})
    same("by a walk", "crates/low/out/NEW.md" in Tree(folder).files, False)
    subprocess.run(["git", "init", "-q"], cwd=folder, capture_output=True, check=False)
    tree = Tree(folder)
    same("by git", ("crates/low/out/NEW.md" in tree.files, "crates.txt" in tree.files), (False, True))
    same("the faults", faults_of(tree), [])


def anchors_are_those_of_github(_):
    for heading, anchor in [
        ("How it goes", "how-it-goes"),
        ("`desk WIDTH [BAR]` & more", "desk-width-bar--more"),
        ("[A link](to/it.md): `a_b`", "a-link-a_b"),
        ('`x "TITLE"`, `y`', "x-title-y"),
        ("Größe – 2.1", "größe--21"),
        ("`Slots<D>`", "slotsd"),
    ]:
        same(heading, anchor_of(heading), anchor)
    document = Document("a.md", '# A\n## A\n\n```\n# B\n```\n<a name="c">')
    same("the anchors", document.anchors(), {"a", "a-1", "c"})


def blocks_are_read_as_they_are_shown(_):
    text = "# A #\nb\nc\n- d\n  e\n\n  f\n\n      g\n\nh\n\n    q\n***\n> i\n\n"
    text += "| j | k\\|l |\n|---|:-:|\n~~~\nm\n~~~\n<!-- n\no -->\np"
    wanted = [
        ("heading", 1, "A"), ("paragraph", 2, "b\nc"), ("item", 4, "d\ne"), ("paragraph", 7, "f"), ("code", 9, "g"),
        ("paragraph", 11, "h"), ("code", 13, "q"), ("paragraph", 15, "i"), ("cell", 17, "j"), ("cell", 17, "k\\|l"),
        ("code", 20, "m"), ("paragraph", 24, "p"),
    ]  # fmt: skip
    same("the blocks", [tuple(it) for it in Document("a.md", text).blocks], wanted)
    same("the words", count_words("a - `b c` [d e](f g) 1, 2 – *h*."), 8)


TESTS = [
    a_right_tree_passes,
    long_blocks_and_documents_are_found,
    links_that_lead_nowhere_are_found,
    names_that_are_nowhere_are_found,
    names_that_stand_in_another_file_are_found,
    commands_that_are_wrong_are_found,
    what_nothing_leads_to_is_found,
    packages_are_named,
    code_of_the_library_is_tested_text,
    figures_are_those_of_the_tree,
    what_git_leaves_out_is_no_part_of_the_tree,
    anchors_are_those_of_github,
    blocks_are_read_as_they_are_shown,
]
