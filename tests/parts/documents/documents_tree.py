"""What a tree has that its documents may name: files, folders, crates, and the words of everything that is no document."""

import fnmatch
import os
import re
import subprocess

from documents_read import Document

# Folders of a walk that hold nothing of the tree; the pictures of desk-test lie in one beside a script, and not below crates, where
# a function has that name.
LEFT_OUT = {".git", "out", "__pycache__"}
PICTURES = "differences"
WORD = re.compile(r"[A-Za-z_][A-Za-z0-9_]*(?:-[A-Za-z0-9_]+)*")
# The files of this program: the words that it allows, and those of its tests, are no words of the tree.
OWN = "tests/documents"
# Words that stand in a path for any name.
ANY = {"NAME", "CRATE", "FILE", "FOLDER", "SUBJECT", "FUNCTION", "MODULE", "TYPE", "KIND", "SCRIPT", "WORD"}
IMPORT = re.compile(r"(?m)^ *(?:import|from) ([\w.]+)(?: import ([\w, ]+))?")


def names_of(top):
    """The paths of the tree's files: by git, with those that it does not know yet, or else by a walk."""
    words = ["git", f"--git-dir={os.path.join(top, '.git')}", "ls-files", "-z", "--cached", "--others", "--exclude-standard"]
    try:
        found = subprocess.run(words, cwd=top, capture_output=True, timeout=60)
    except OSError:
        found = None
    if os.path.exists(os.path.join(top, ".git")) and found and found.returncode == 0:
        names = os.fsdecode(found.stdout).split("\0")
    else:
        names = walked(top)
    return sorted(it for it in set(names) if it and os.path.isfile(os.path.join(top, it)))


def walked(top):
    for folder, inner, files in os.walk(top):
        left_out = LEFT_OUT if os.path.relpath(folder, top).startswith("crates") else {*LEFT_OUT, PICTURES}
        inner[:] = [it for it in inner if it not in left_out]
        for name in files:
            yield os.path.relpath(os.path.join(folder, name), top)


class Tree:
    """A tree of files, and the documents in it."""

    def __init__(self, top):
        self.top = top
        self.files = names_of(top)
        self.folders = {os.path.dirname(it) for it in self.files}
        for it in [*self.folders]:
            while it:
                it = os.path.dirname(it)
                self.folders.add(it)
        self.paths = {*self.files, *self.folders} - {""}
        self.documents = {it: Document(it, self.text_of(it)) for it in self.files if it.endswith(".md")}
        self.words = set()
        for it in self.files:
            self.words.update(WORD.findall(it))
            if it not in self.documents and not it.startswith(OWN):
                self.words.update(self.words_in(it))
        self.words.update([part for word in self.words if "-" in word for part in word.split("-")])
        self.endings = {}
        for path in self.paths:
            parts = path.split("/")
            for count in range(1, len(parts) + 1):
                self.endings.setdefault("/".join(parts[-count:]), path)

    def text_of(self, path):
        with open(os.path.join(self.top, path), encoding="utf-8", errors="replace") as file:
            return file.read()

    def words_in(self, path):
        """The words of a file; one with a zero byte is no text."""
        text = self.text_of(path)
        return [] if "\0" in text else WORD.findall(text)

    def crates(self):
        """The crates of crates.txt, each with its line."""
        if "crates.txt" not in self.files:
            return []
        lines = enumerate(self.text_of("crates.txt").split("\n"), 1)
        return [(number, line.partition(":")[0].split()[0]) for number, line in lines if ":" in line and line[:1] != "#"]

    def has_path(self, path):
        """Whether some file or folder has this path, or one that ends so, with its ending or without. '*' stands for any
        characters, and so does '..' at the begin.
        """
        path = re.sub(r"^\.\.(?=\w)", "*", path.removeprefix("./").rstrip("/"))
        crate, out, _ = f"/{path}/".partition("/out/")
        if out:
            return not crate or self.has_path(crate[1:])
        if "*" in path or any(part.partition(".")[0] in ANY for part in path.split("/")):
            parts = [re.sub(r"^[A-Z]+(?=\.|$)", "*", it) if it.partition(".")[0] in ANY else it for it in path.split("/")]
            return any(fnmatch.fnmatch(it, "/".join(parts)) for it in self.endings)
        return any(f"{path}{ending}" in self.endings for ending in ("", ".rt", ".antt", ".py", ".desk", ".edit"))

    def program_text(self, path, more):
        """The text of a program, with those of the modules beside it that it imports, and of these further files."""
        texts, todo = {}, [path]
        while todo:
            path = todo.pop()
            if path in texts or path not in self.files:
                continue
            texts[path] = self.text_of(path)
            for module, names in IMPORT.findall(texts[path]):
                inner = [f"{module}.{name.strip()}" for name in names.split(",")] if names else []
                for it in [module, *inner]:
                    name = it.replace(".", "/") + ".py"
                    todo += [name, os.path.join(os.path.dirname(path), name)]
        for it in self.files:
            if it.startswith(more):
                texts[it] = self.text_of(it)
        return "\n".join(texts.values())
