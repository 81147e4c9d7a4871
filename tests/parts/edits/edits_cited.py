"""What an edit's check reads of the crates below, as texts: the modules that its crate cites, and what these cite in turn.

A check reads no proof and no body of a crate below, and no module that nothing leads to. So a module is one file of a crate:

- a file of specs/ or of lemmas in proofs/, without its comments; it cites what its paths `Rattle.CRATE..` name;
- a file of src/ as it is seen from above (its face): without comments, bodies, what is private of functions, tests, and
  imports. Of a struct with a model callers see the value alone, so its private fields, its view and its invariant do not
  count. It cites what its words mean by its imports, and what its paths name.

A path into what rattle makes of src/ (`specs.declared`, `specs.contracts`, `proofs.FILE`) leads to the file of src/ that it
is made of, and a name of Rust through the `pub use` lines of its crate to the file that defines it. With a file of src/ go
those of its crate that implement what it defines. What cannot be found counts as a citation of all files of its crate.

Of the edit's own crate each path counts, and of the edit itself. Nothing here reads what a kit has built, so that the kits
of one logic find the same texts. The libraries of the kit itself go by the logic.
"""

import functools
import os
import re

from edits_faces import ANTT, IMPORT, RUST, WRITTEN_IMPORT, Face, Part, Place, Written
from edits_faces import plain_paths, without_comments, written_imports
from edits_read import data_of

# What begins a path into what rattle makes of src/.
MADE = ("declared", "contracts")


class Library:
    """The files of a crate that crates above it may read, by their paths, and the names that its `pub use` lines bring."""

    def __init__(self, name, folder):
        self.name, self.folder = name, folder
        self.files, self.exports = {}, {}
        for part in ("src", "specs", "proofs"):
            for at, _, names in os.walk(f"{folder}/{part}"):
                for it in names:
                    path = os.path.relpath(f"{at}/{it}", folder)
                    if path.endswith((".rt", ".antt")) and not self.is_of_function(path):
                        kind = Face if path.endswith(".rt") else Written
                        self.files[path] = kind(name, folder, path, data_of(f"{folder}/{path}"))
        root = next((it for it in ("src/lib.rt", "src/main.rt") if it in self.files), None)
        self.root = self.files.get(root)
        if root:
            text = without_comments(data_of(f"{folder}/{root}"), RUST, (b"//", b"/*"))[0].decode()
            self.exports = dict(Place(name, folder, root).imports(text))

    def is_of_function(self, path):
        """Whether a file lies in a folder of proofs/, where the proofs of functions are; lemmas lie beside those."""
        words = path.split("/")
        return words[0] == "proofs" and len(words) > 2 and os.path.isfile(f"{self.folder}/src/{words[1]}.rt")

    def faces(self):
        return [it for path, it in sorted(self.files.items()) if path.endswith(".rt")]

    def with_beside(self, file):
        """The parts of a file of src/, and of those beside it that implement what it defines."""
        beside = [it for it in self.faces() if it.implements & file.defines] if file else []
        return [part for it in dict.fromkeys([file, *beside] if file else []) for part in it.parts]

    def file_at(self, folder, words, ending):
        """The file that the most of these words lead to from this folder on, and how many they are; None where none does."""
        for count in range(len(words), 0, -1):
            for name in ("/".join(words[:count]), "/".join((*words[:count], "mod"))):
                if f"{folder}/{name}{ending}" in self.files:
                    return self.files[f"{folder}/{name}{ending}"], count
        return None


def called(parts, words):
    """The parts, of which those that are functions with one of these names are called here."""
    return [Part(it.key, it.text, it.paths) if it.call in words else it for it in parts]


class Tree:
    """The crates of a repository, read once."""

    def __init__(self, crates):
        self.folders = {it.name: it.folder for it in crates}
        self.library = functools.lru_cache(maxsize=None)(self.read)
        self.led_to = functools.lru_cache(maxsize=None)(self.leads_to)

    def read(self, name):
        return Library(name, self.folders[name])

    @functools.cache
    def calls(self):
        """The names of all functions that are called by their names."""
        files = [it for name in self.folders for it in self.library(name).faces()]
        return {part.call for it in files for part in it.parts if part.call}

    def leads_to(self, path):
        """The parts that a path, from a crate's name on, leads to."""
        name, place, *rest = path
        library = self.library(name)
        if place == "src":
            return self.led_by_rust(library, rest)
        file = library.file_at(place, rest, ".antt")
        if file:
            return self.led_by_name(*file, rest)
        made = rest[1:] if rest[:1] and rest[0] in MADE else rest
        file = library.file_at("src", made, ".rt")
        return called(library.with_beside(file[0] if file else library.root), rest)

    def led_by_name(self, file, count, words):
        """The parts of a file of specs/ or proofs/ that the words after its own lead to: all where they tell of none."""
        name = words[count] if count < len(words) else None
        if name not in file.named and name in file.imports:
            path = file.imports[name]
            return self.led_to(path) if path[0] in self.folders else []
        return file.named.get(name, file.parts)

    def led_by_rust(self, library, words):
        """The parts that these words lead to, from the root of a crate on: its whole src/ where they lead nowhere."""
        if words and words[0] in library.exports:
            path = (*library.exports[words[0]], *words[1:])
            if path[:3] != (library.name, "src", words[0]):
                return self.led_to(path) if path[0] in self.folders else []
        file = library.file_at("src", words, ".rt")
        if file:
            return called(library.with_beside(file[0]), words)
        if library.root and words and words[0] in library.root.defines:
            return called(library.with_beside(library.root), words)
        return called([part for it in library.faces() for part in it.parts], words)

    def cited_from(self, paths, words, below):
        """All parts that these paths lead to, and what those cite in turn, in the crates below, by their keys. words: those of
        the text that calls functions.
        """
        ways = lambda its: [part for it in its if it[0] in below and len(it) > 1 for part in self.led_to(it)]
        left, found = ways(paths), {}
        while left:
            part = left.pop()
            if part.key not in found and (part.call is None or part.call in words):
                found[part.key] = part
                left += ways(part.paths)
        return found


class Citing:
    """What a text cites: what its paths lead to, and its words, of which some may call functions."""

    def __init__(self, paths=(), words=()):
        self.paths, self.words = {*paths}, {*words}

    def add(self, crate, path, text):
        """Adds those of a text that stands in this file of the crate."""
        self.words |= {*re.findall(r"\w+", text)}
        if path.endswith(".rt"):
            place = Place(crate.name, crate.folder, path)
            self.paths |= {to for _, to in place.imports(text)} | place.paths(IMPORT.sub("", text))
        else:
            self.paths |= {to for _, to in written_imports(text)} | plain_paths(WRITTEN_IMPORT.sub("", text))


def own_texts(crate):
    """The files of a crate that its check reads, by their paths, without comments and empty lines."""
    for part in ("src", "specs", "proofs"):
        for at, _, names in sorted(os.walk(f"{crate.folder}/{part}")):
            for it in sorted(names):
                kinds = (RUST, (b"//", b"/*")) if part == "src" else (ANTT, (b"--", b"{-"))
                text = without_comments(data_of(f"{at}/{it}"), *kinds)[0].decode()
                text = "\n".join(it.rstrip() for it in text.split("\n") if it.strip())
                yield os.path.relpath(f"{at}/{it}", crate.folder), text


def cited_by_crate(crate):
    """What all texts of a crate cite, the proofs of its functions too."""
    found = Citing()
    for path, text in own_texts(crate):
        found.add(crate, path, text)
    return found


def cited_by_edit(crate, text):
    """What an edit of the crate cites."""
    found, file = Citing(), re.search(r"(?m)^file: *(\S+)", text)
    found.add(crate, file[1] if file else "src/lib.rt", text)
    return found
