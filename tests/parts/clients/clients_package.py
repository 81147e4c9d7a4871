"""Tests of the package desk_kit as it is described and installed, for clients."""

import glob
import os
import re

from clients_place import python_with
from place import TOP, Skipped, same

PAGE = "docs/PYTHON.md"
# A line of a package's text that has a name and what it is.
NAMED = re.compile(r"(?m)^  ([a-z_.]+) {2,}\S")


def read(path):
    with open(os.path.join(TOP, path), encoding="utf-8") as file:
        return file.read()


def blocks():
    """The indented blocks of the page, without their indents. Empty lines may stand in a block."""
    found = re.findall(r"(?m)^    .*\n(?:\n*    .*\n)*", read(PAGE))
    return [re.sub(r"(?m)^    ", "", block) for block in found]


def tree_over(place):
    """A tree with the package, whose ./desk names this program."""
    tree = place.copy("desk_kit")
    place.shell("tree/desk", f"[ \"$*\" = --which ] && echo proved '{place.program}'")
    return tree


def its_text_names_what_it_has(_):
    text = read("desk_kit/__init__.py").split('"""')[1]
    files = [os.path.basename(path) for path in glob.glob(os.path.join(TOP, "desk_kit", "*.*"))]
    modules = {name.removesuffix(".py") for name in files} - {"__init__"} | {"resources"}
    same("the modules", sorted(NAMED.findall(text)), sorted(modules))
    text = read("desk_kit/resources/__init__.py").split('"""')[1].partition("The modules:")[2]
    files = [os.path.basename(path) for path in glob.glob(os.path.join(TOP, "desk_kit", "resources", "*.py"))]
    same("those of resources", sorted(NAMED.findall(text)), sorted({it.removesuffix(".py") for it in files} - {"__init__"}))


def the_programs_of_the_page_print_what_they_have_to(place):
    """Behind each of them stands what it prints."""
    its = blocks()
    found = [pair for pair in zip(its, its[1:]) if pair[0].startswith("from desk_kit import Desk\n")]
    python, tree = python_with("sys"), tree_over(place)
    same("the programs", len(found), 2)
    for program, due in found:
        same("what it prints", place.succeeds(python, "-c", program, PYTHONPATH=tree), due)


def the_test_of_the_page_passes(place):
    python = python_with("pytest")
    found = [block for block in blocks() if "import pytest" in block]
    same("the tests for pytest", len(found), 1)
    place.write("test_page.py", found[0])
    words = ("-m", "pytest", "-q", "-p", "no:cacheprovider", "test_page.py")
    out = place.succeeds(python, *words, PYTHONPATH=os.pathsep.join([tree_over(place), os.environ.get("PYTHONPATH", "")]))
    same("what it says", re.sub(r" in [0-9.]+s", "", out.splitlines()[-1]), "1 passed")


def it_is_described_as_it_is(_):
    try:
        import tomllib
    except ImportError:
        raise Skipped("this Python has no tomllib; it has from 3.11 on", "python3.11") from None
    made = tomllib.loads(read("pyproject.toml"))
    project, parts = made["project"], made["tool"]["setuptools"]
    same("its name and what it wants", (project["name"], project["dependencies"]), ("desk_kit", []))
    same("its version", project["version"], re.search(r"(?m)^## ([0-9.]+)", read("CHANGELOG.md"))[1])
    kit = os.path.join(TOP, "desk_kit")
    inner = sorted(it for it in os.listdir(kit) if os.path.isfile(os.path.join(kit, it, "__init__.py")))
    others = [it for it in os.listdir(kit) if not it.endswith(".py") and it not in ("__pycache__", *inner)]
    data = {name: sorted(files) for name, files in parts["package-data"].items()}
    packages = ["desk_kit", *[f"desk_kit.{it}" for it in inner]]
    same("what it has", (parts["packages"], data), (packages, {"desk_kit": sorted(others)}))


def it_is_installed_by_pip(place):
    """What pip builds is imported from another folder, each module of it, and drives the program."""
    python = python_with("setuptools", "wheel", "pip")
    tree = place.copy("desk_kit", "pyproject.toml", "LICENSE")
    words = ("-m", "pip", "wheel", "-q", "--no-index", "--no-build-isolation", "--no-deps", "-w", "wheels", tree)
    place.succeeds(python, *words)
    wheels = glob.glob(place.path("wheels/*.whl"))
    same("what is built", [os.path.basename(it) for it in wheels], ["desk_kit-1.0.0-py3-none-any.whl"])
    names = sorted(name.removesuffix(".py") for name in os.listdir(os.path.join(TOP, "desk_kit")) if name.endswith(".py"))
    # Not those that need Tk, which an installed package may lack.
    modules = [name for name in names if name not in ("__init__", "screen_window")]
    lines = [
        f"from desk_kit import {', '.join(modules)}, Desk",
        "with Desk(PROGRAM) as desk:",
        " print(desk.ask('desk 8 8 0'), desk.image()[7], desk_kit.__file__)",
    ]
    program = f"import desk_kit; PROGRAM = {place.program!r}\n" + "\n".join(lines)
    wanted = f"ok 01010101 {wheels[0]}/desk_kit/__init__.py\n"
    same("what it prints", place.succeeds(python, "-c", program, PYTHONPATH=wheels[0]), wanted)


TESTS = [
    its_text_names_what_it_has,
    the_programs_of_the_page_print_what_they_have_to,
    the_test_of_the_page_passes,
    it_is_described_as_it_is,
    it_is_installed_by_pip,
]
