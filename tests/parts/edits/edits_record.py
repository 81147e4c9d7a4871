"""At which texts each must-fail edit was seen refused, and which are to be tried again."""

import collections
import fcntl
import functools
import os
import re
import tempfile
import time

from edits_cited import Tree, cited_by_crate, cited_by_edit, own_texts
from edits_read import data_of, rt, sum_of

# Raised by hand where the judgement of the program edits changes, so that each edit is tried again in time.
JUDGEMENT = 1
PARTS = ("src", "specs", "proofs")

# Why an edit is to be tried: it is new or was itself changed; its crate was, since it was seen refused, or what that cites of
# the crates below, and the edit changes more than the body of a function; its crate was; or only what that cites was. The
# first are always tried, the others while time is left, in this order.
NEW, MORE, OWN, CITED = range(4)
KINDS = ("new or changed", "of more than a body", "of a changed crate", "over changed text below")
WAITING = (MORE, OWN, CITED)

# The sums of an edit, of its crate as a check reads it, and of what that cites of the crates below.
Sums = collections.namedtuple("Sums", "edit own cited")
# What is recorded of an edit: the sums at which it was seen refused; since when it waits, and one sum of those at which it was
# compiled last, or '' and '' where it does not wait or was not compiled.
Line = collections.namedtuple("Line", "sums since compiled", defaults=("", ""))


def name_of(crate, path):
    return f"{crate.name}/{os.path.basename(path)}"


def short_sum(*parts):
    return sum_of(*parts)[:16]


def one_sum(sums):
    """One sum of the sums of an edit."""
    return short_sum(*sums)


def logic():
    """The logic of the kit here: what it does not prove, another kit of the same logic does not prove either."""
    found = re.search(r"\blogic (\S+)", data_of(f"{rt.KIT}/KIT-ID").decode())
    return found[1] if found else data_of(f"{rt.KIT}/KIT-ID").decode().strip()


def stamp_of(crates):
    """What tells whether a file of these crates changed: where each lies, how long it is and when it was written."""
    walked = [it for crate in crates for part in PARTS for it in os.walk(f"{crate.folder}/{part}")]
    found = [(path, os.stat(path)) for at, _, files in walked for path in (f"{at}/{it}" for it in files)]
    return sorted((path, it.st_size, it.st_mtime_ns) for path, it in found)


class Texts:
    """The texts of the crates as they stand, read once, and the sums of edits over them."""

    def __init__(self, crates):
        self.crates, self.tree = crates, Tree(crates)
        self.own = functools.lru_cache(maxsize=None)(self.sum_of_crate)
        self.cited = functools.lru_cache(maxsize=None)(self.sum_of_cited)
        self.citing = functools.lru_cache(maxsize=None)(cited_by_crate)
        self.stamp = functools.lru_cache(maxsize=None)(lambda crate: stamp_of([crate, *crate.below()]))

    def sums_of(self, crate, path):
        """The sums of an edit of the crate, wherever the repository lies."""
        self.stamp(crate)
        text = data_of(path)
        crates, edit = self.citing(crate), cited_by_edit(crate, text.decode(errors="replace"))
        paths = {it for it in edit.paths - crates.paths if it[0] in self.tree.folders}
        cited = self.cited(crate, frozenset(paths), frozenset((edit.words - crates.words) & self.tree.calls()))
        return Sums(short_sum(name_of(crate, path), text), self.own(crate), cited)

    def sum_of_crate(self, crate):
        files = [(path, sum_of(text)) for path, text in own_texts(crate)]
        return short_sum(JUDGEMENT, logic(), crate.name, sorted(crate.said.items()), files)

    def sum_of_cited(self, crate, paths, words):
        its = self.citing(crate)
        found = self.tree.cited_from(its.paths | paths, its.words | words, {it.name for it in crate.below()})
        return short_sum(sorted((key, sum_of(it.text)) for key, it in found.items()))

    def are_still(self, sums, crate, path):
        """Whether an edit has these sums over what lies there now."""
        if self.stamp(crate) == stamp_of([crate, *crate.below()]):
            return sums.edit == short_sum(name_of(crate, path), data_of(path))
        return sums == Texts(self.crates).sums_of(crate, path)


class Record:
    """The file of the sums at which edits were seen refused, since when each waits to be tried again, if it does, and at which
    sums it was compiled meanwhile. Each change is written whole, at once, while others wait.
    """

    HEAD = (
        "# Written by tests/edits alone. A line: sums of the edit, of its crate, and of what that cites of the crates below, as they\n"
        "# were when it was last seen refused; since when it waits to be tried again, if one of these changed; a sum of the three as\n"
        "# they were when it was compiled, if that is as they are now; and its name.\n"
        "# An edit that waits was seen refused over earlier texts, and is tried over those of today as time allows.\n"
    )
    SUM = "([0-9a-f]{16})"
    LINE = re.compile(rf"(?m)^{SUM} {SUM} {SUM} (-|[0-9T:-]{{16}})(?: (-|[0-9a-f]{{16}}))? ([\w./-]+)$")

    def __init__(self, file):
        self.file, self.folder = file, os.path.dirname(file)

    def lines(self):
        """The lines, by the names of the edits."""
        try:
            text = data_of(self.file).decode(errors="replace")
        except FileNotFoundError:
            return {}
        found = self.LINE.findall(text)
        return {name: Line(Sums(*sums), since.strip("-"), compiled.strip("-")) for *sums, since, compiled, name in found}

    def change(self, alter):
        """Alters the lines."""
        lock = os.open(self.folder, os.O_RDONLY)
        try:
            fcntl.flock(lock, fcntl.LOCK_EX)
            known = self.lines()
            alter(known)
            rows = [f"{' '.join(it.sums)} {it.since or '-'} {it.compiled or '-'} {name}\n" for name, it in sorted(known.items())]
            with tempfile.NamedTemporaryFile("w", prefix="edits.seen.", dir=self.folder, delete=False) as new:
                new.write(self.HEAD + "".join(rows))
            os.chmod(new.name, 0o644)
            os.replace(new.name, self.file)
        finally:
            os.close(lock)

    def keep(self, name, sums):
        self.change(lambda known: known.update({name: Line(sums)}))

    def keep_compiled(self, sums):
        """Records that these edits compile, by their names, each at the sums of today."""

        def alter(known):
            for name in sums.keys() & known.keys():
                known[name] = known[name]._replace(compiled=one_sum(sums[name]))

        self.change(alter)

    def drop(self, name):
        self.change(lambda known: known.pop(name, None))

    def settle(self, sums, names):
        """Drops what is of no edit of these names, and marks which of the edits with these sums wait from now on."""
        now = time.strftime("%Y-%m-%dT%H:%M", time.gmtime())

        def alter(known):
            for name in [it for it in known if it not in names]:
                del known[name]
            for name in sums.keys() & known.keys():
                seen, since, compiled = known[name]
                if seen == sums[name]:
                    known[name] = Line(seen)
                else:
                    known[name] = Line(seen, since or now, compiled if compiled == one_sum(sums[name]) else "")

        self.change(alter)


def kind_of(seen, sums):
    """Why an edit that was last seen refused at the first sums, or never, is to be tried at these; None where it is not."""
    if seen is None or seen.edit != sums.edit:
        return NEW
    if seen.own != sums.own:
        return OWN
    return CITED if seen.cited != sums.cited else None
