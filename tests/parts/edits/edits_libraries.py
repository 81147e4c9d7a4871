"""Tests of whether a built library is of what lies there, over libraries made by hand. None starts a check."""

import os
import time

import edits_read

from edits_small import Repository
from place import same


def a_library_that_is_older_than_what_it_is_made_of_is_told(folder):
    repository = Repository(folder)
    stamp = f"{repository.folder}/crates/low/out/rlib/stamp"

    def is_outdated(name, alter=lambda: None):
        time.sleep(0.02)
        alter()
        here = os.getcwd()
        os.chdir(repository.folder)
        try:
            return edits_read.is_outdated(repository.crates()[name])
        finally:
            os.chdir(here)

    def wants(what, name, alter, wanted):
        same(f"{what} of {name}", is_outdated(name, alter), wanted)

    repository.write("crates/low/specs/Lib.antt", "")
    wants("the first library", "low", repository.build, False)
    wants("the first library", "high", lambda: repository.build("high"), False)
    wants("a changed text", "low", lambda: repository.change("low", "= 7", "= 6"), True)
    wants("the next library", "low", repository.build, False)
    wants("the library below one", "high", lambda: None, True)
    wants("a file less", "low", lambda: os.remove(f"{repository.folder}/crates/low/specs/Lib.antt"), True)
    wants("the next library", "low", repository.build, False)
    wants("another line", "low", lambda: repository.write("crates.txt", "low: itoa\nhigh: low\n"), True)
    # rt's stamp decides where there is one
    right = repository.crates()["low"].stamp()
    wants("the right stamp", "low", lambda: repository.write(os.path.relpath(stamp, repository.folder), right), False)
    wants("a text after it", "low", lambda: repository.change("low", "= 6", "= 5"), True)


TESTS = [a_library_that_is_older_than_what_it_is_made_of_is_told]
