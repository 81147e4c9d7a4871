"""Tests of the parts of tools/unproved, for first: what it has linked, and how it tells how far rt is."""

import importlib.machinery
import importlib.util
import io
import os
import shlex
import shutil
import subprocess
import sys
import time

from first_kit import write
from place import same


def module_of(tree):
    """tools/unproved as a module."""
    loader = importlib.machinery.SourceFileLoader("unproved", tree.path("tools/unproved"))
    unproved = importlib.util.module_from_spec(importlib.util.spec_from_loader("unproved", loader))
    loader.exec_module(unproved)
    return unproved


def the_options_of_a_kit_stay_behind_the_quarantine(tree):
    text = module_of(tree).OPTIONS
    main = '#include <stdio.h>\nconst char *__asan_default_options(void);\nint main(void) { puts(__asan_default_options()); }\n'
    kept = 'const char *__kept_default_options(void) { return "a=1:b=2"; }\n'
    write(tree.path("options.c"), text)
    for more, options in [(kept, "quarantine_size_mb=1:a=1:b=2\n"), ("", "quarantine_size_mb=1:\n")]:
        write(tree.path("main.c"), main + more)
        subprocess.run(["cc", "-o", "shows", "options.c", "main.c"], cwd=tree.folder, check=True)
        ran = subprocess.run([tree.path("shows")], stdout=subprocess.PIPE, check=True)
        same("the options", ran.stdout.decode(), options)


def the_linker_renames_the_options_of_a_kit_and_of_no_archive(tree):
    unproved, linked = module_of(tree), tree.path("linked")
    write(tree.path("real"), f'#!/bin/sh\necho "$@" > {shlex.quote(linked)}\n: > program\n', 0o755)
    system = {name: shutil.which(name) for name in ("cp", "grep", "sed")}
    names = {name: tree.path(name) for name in ("begun", "kept", "options")}
    unproved.write_tool(tree.path("linker"), unproved.LINKER, real=tree.path("real"), **names, **system)
    texts = {"one": "\0__asan_default_options\0\n", "two": "!<arch>\n__asan_default_options\n", "three": "__asan_init"}
    write(tree.path("options"), "")
    for name, text in texts.items():
        write(tree.path(name), text)
    subprocess.run([tree.path("linker"), "-o", "program", *texts], cwd=tree.folder, env={}, check=True)
    found = {}
    for name in texts:
        with open(tree.path(name)) as file:
            found[name] = file.read()
    same("the objects", found, {**texts, "one": "\0__kept_default_options\0\n"})
    with open(linked) as file:
        same("what is linked", file.read(), f"-o program one two three {tree.path('options')}\n")
    same("what is kept", (tree.has("begun"), tree.has("kept")), (True, True))


def a_step_that_takes_long_is_told_again(tree):
    unproved = module_of(tree)
    unproved.AGAIN, unproved.LOOK = 0.3, 0.05
    said, kept = io.StringIO(), sys.stderr
    sys.stderr = said
    try:
        with unproved.Steps(tree.kit):
            time.sleep(0.5)
            write(os.path.join(tree.kit, "compiles"), "")
            time.sleep(0.2)
    finally:
        sys.stderr = kept
    same("the steps", [it[11:17] for it in said.getvalue().splitlines()], ["1 of 3", "1 of 3", "2 of 3"])


TESTS = [
    the_options_of_a_kit_stay_behind_the_quarantine,
    the_linker_renames_the_options_of_a_kit_and_of_no_archive,
    a_step_that_takes_long_is_told_again,
]
