"""A report on outcomes of desk_kit.screen_tests for programs: JUnit's XML."""

import os
import re
from xml.etree import ElementTree

from desk_kit.rows import SCRIPT

# What XML has no sign for.
NO_TEXT = re.compile("[^\t\n\r\x20-\ud7ff\ue000-\ufffd\U00010000-\U0010ffff]")


def legible(text):
    """A text in which what XML has no sign for is written as an escape."""
    return NO_TEXT.sub(lambda found: found[0].encode("unicode_escape").decode("ascii"), text)


def count(outcomes):
    """The last line of a run."""
    failed = sum(it.fails() for it in outcomes)
    return f"{len(outcomes) - failed} passed, {failed} failed"


def junit_of(outcomes):
    """JUnit's XML: a suite for each folder, and in it a test case for each outcome."""
    root = ElementTree.Element("testsuites", name="desk-test", **attributes(outcomes))
    folders = {}
    for it in outcomes:
        folders.setdefault(os.path.dirname(it.path) or os.curdir, []).append(it)
    for folder, its in folders.items():
        suite = ElementTree.SubElement(root, "testsuite", name=legible(folder), **attributes(its))
        for it in its:
            add_case(suite, legible(folder), it)
    ElementTree.indent(root)
    return ElementTree.tostring(root, encoding="utf-8", xml_declaration=True) + b"\n"


def attributes(outcomes):
    """What a suite says of its cases."""
    failures, seconds = sum(it.fails() for it in outcomes), sum(it.seconds for it in outcomes)
    return {"tests": str(len(outcomes)), "failures": str(failures), "errors": "0", "time": f"{seconds:.3f}"}


def add_case(suite, folder, outcome):
    """Adds the test case of an outcome to a suite."""
    path = legible(outcome.path)
    name = os.path.basename(path).removesuffix(SCRIPT)
    seconds = f"{outcome.seconds:.3f}"
    case = ElementTree.SubElement(suite, "testcase", classname=folder, name=name, file=path, time=seconds)
    if outcome.fails():
        failure = ElementTree.SubElement(case, "failure", type="failed", message=legible(outcome.sentence()))
        failure.text = legible("\n".join(outcome.found.faults))
