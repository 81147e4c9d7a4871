"""Tests of what the program edits takes an edit's check to read of the crates below. None starts a check."""

import os

import edits_record

from edits_small import Repository
from place import same

# A crate with what a crate above may cite and with what it may not, and one that stands between.
FILES = {
    "crates.txt": "low:\nmiddle: low\nhigh: low middle\n",
    "crates/low/src/lib.rt": """//! Numbers.
mod kept;
pub mod laws;
mod other;
mod shown;

pub use kept::{Kept, Open};
pub use other::other as another;
""",
    "crates/low/src/kept.rt": """ghost use Rattle.low.specs.Shown.{least, most};
ghost use Rattle.low.specs.Hidden.{lower};

use crate::other::helper;

pub struct Kept {
    items: u32,
}

impl Model for Kept {
    ghost use Rattle.low.specs.Hidden.{view_of};

    ghost Value = { ℕ };

    ghost view = { λ k. view_of k.items };

    ghost invariant = { λ k. k.items ≤ 7 };
}

pub struct Open {
    items: u64,
}

impl Kept {
    /// The size.
    #[tactic(auto, using(crate::proofs::Lemmas::small))]
    pub fn size(&self) -> u32
        ensures { least ≤ result }
    {
        helper(self.items)
    }

    pub fn never_called(&self) -> u32
        ensures { result ≤ most }
    {
        7
    }

    fn private(&self) -> u32
        ensures { lower ≤ result }
    {
        3
    }
}

#[cfg(test)]
mod tests {
    fn tested() {}
}
""",
    "crates/low/src/shown.rt": "impl PartialEq for Kept {\n    fn eq(&self, other: &Kept) -> bool {\n        true\n    }\n}\n",
    "crates/low/src/other.rt": "pub fn other() -> u32\n    ensures { result ≤ 8 }\n{\n    8\n}\n\npub fn helper(n: u32) -> u32 {\n    n\n}\n",
    "crates/low/src/laws.rt": "ghost use Rattle.low.specs.Hidden.{IsLaw};\n\npub fn law()\n    ensures { IsLaw }\n{\n}\n",
    "crates/low/specs/Shown.antt": """-- Shown.
use Rattle.low.specs.Hidden.{lower as bottom, unused}

-- the least
abbrev pub least : ℕ
least = bottom

abbrev pub most : ℕ
most = 9

pub record Pair : Type 0 where
  pub first : ℕ
""",
    "crates/low/specs/Hidden.antt": """abbrev pub lower : ℕ
lower = 3

abbrev pub view_of : ℕ → ℕ
view_of n = n

abbrev pub unused : ℕ
unused = 4

abbrev pub IsLaw : Type 0
IsLaw = Unit
""",
    "crates/low/proofs/Lemmas.antt": "pub small : 1 ≤ 2\nsmall = search\n\npub smaller : 0 ≤ 2\nsmaller = search\n",
    "crates/low/proofs/kept/Kept/size/Answers.antt": "answer = refl\n",
    "crates/middle/src/lib.rt": "ghost use Rattle.low.specs.declared.kept.Open.{Open};\n\npub use low::Kept;\n\npub fn opened() -> low::Open {\n    1\n}\n",
    "crates/high/src/lib.rt": "use middle::{Kept, opened};\n\nfn third(k: &Kept) -> u32 {\n    k.size() + opened()\n}\n",
    "crates/high/proofs/third/Answers.antt": "use Rattle.low.proofs.Lemmas.{small}\nanswer = small\n",
}
# What may change of these files, and whether an edit of high cites it.
CHANGES = [
    ("a comment", "kept.rt", "/// The size.", "/// A size.", False),
    ("how a proof is looked for", "kept.rt", "Lemmas::small))", "Lemmas::smaller))", False),
    ("a body", "kept.rt", "helper(self.items)", "self.items", False),
    ("a clause", "kept.rt", "least ≤ result", "least < result", True),
    ("a function that nobody calls", "kept.rt", "result ≤ most", "result < most", False),
    ("its name, of which an edit may be", "kept.rt", "never_called", "size_again", False),
    ("a private function", "kept.rt", "lower ≤ result", "lower < result", False),
    ("a private field behind a model", "kept.rt", "    items: u32,", "    items: u16,", False),
    ("a private field without one", "kept.rt", "    items: u64,", "    items: u16,", True),
    ("the value of a model", "kept.rt", "Value = { ℕ }", "Value = { ℤ }", True),
    ("its view", "kept.rt", "view_of k.items", "view_of (k.items + 1)", False),
    ("its invariant", "kept.rt", "k.items ≤ 7", "k.items ≤ 8", False),
    ("a test", "kept.rt", "tested()", "tested_too()", False),
    ("a method of a trait", "shown.rt", "other: &Kept", "it: &Kept", True),
    ("a function of another file", "other.rt", "result ≤ 8", "result ≤ 9", False),
    ("a law", "laws.rt", "IsLaw }", "IsLaw × IsLaw }", False),
    ("a definition", "Shown.antt", "least = bottom", "least = bottom + 1", True),
    ("a comment beside it", "Shown.antt", "-- the least", "-- the smallest", False),
    ("a definition beside it", "Shown.antt", "most = 9", "most = 10", False),
    ("a record beside it", "Shown.antt", "pub first : ℕ", "pub first : ℤ", False),
    ("what a definition names otherwise", "Hidden.antt", "lower = 3", "lower = 2", True),
    ("what stands for a view", "Hidden.antt", "view_of n = n", "view_of n = n + 1", False),
    ("what is brought and not named", "Hidden.antt", "unused = 4", "unused = 5", False),
    ("what a law says", "Hidden.antt", "IsLaw = Unit", "IsLaw = Unit × Unit", False),
    ("a lemma", "Lemmas.antt", "small : 1 ≤ 2", "small : 1 ≤ 3", True),
    ("a lemma beside it", "Lemmas.antt", "smaller : 0 ≤ 2", "smaller : 0 ≤ 3", False),
    ("an answer", "size/Answers.antt", "answer = refl", "answer = search", False),
    ("what a crate between brings", "middle/src/lib.rt", "opened() -> low::Open", "opened() -> low::Kept", True),
]
EDIT = "crates/high/must-fail/wrong.edit"


def made(folder):
    """A repository of these files, with an edit of high."""
    repository = Repository(folder)
    for path, text in FILES.items():
        repository.write(path, text)
    repository.write(EDIT, "file: src/lib.rt\nold: + opened()\nnew: + 1\n")
    return repository


def changed(repository, name, old, new):
    """Makes a change in the one file whose path ends so."""
    path = next(it for it in FILES if it.endswith(f"/{name}"))
    crate, _, file = path.removeprefix("crates/").partition("/")
    repository.change(crate, old, new, file)


def a_change_is_seen_where_it_is_cited(folder):
    repository = made(folder)
    first = repository.sums("high/wrong")
    for what, name, old, new, is_cited in CHANGES:
        changed(repository, name, old, new)
        found = repository.sums("high/wrong")
        same(f"whether {what} is cited", [a != b for a, b in zip(first, found)], [False, False, is_cited])
        changed(repository, name, new, old)
    same("what is back", repository.sums("high/wrong"), first)


def an_edit_cites_what_it_names_itself(folder):
    repository = made(folder)
    for new, name, old, other in [
        ("+ k.never_called()", "kept.rt", "result ≤ most", "result < most"),
        ("+ low::another()", "other.rt", "result ≤ 8", "result ≤ 9"),
        ("+ low::laws::law()", "laws.rt", "IsLaw }", "IsLaw × IsLaw }"),
    ]:
        repository.write(EDIT, f"file: src/lib.rt\nold: + opened()\nnew: {new}\n")
        first = repository.sums("high/wrong")
        changed(repository, name, old, other)
        same(f"whether {new} is seen", repository.sums("high/wrong").cited == first.cited, False)
        changed(repository, name, other, old)


def what_leads_nowhere_cites_a_whole_crate(folder):
    repository = made(folder)

    def is_seen():
        """Whether a type more is, in a file that nothing leads to."""
        first = repository.sums("high/wrong")
        changed(repository, "other.rt", "pub fn other", "pub struct More {}\n\npub fn other")
        found = repository.sums("high/wrong")
        changed(repository, "other.rt", "pub struct More {}\n\npub fn other", "pub fn other")
        return found.cited != first.cited

    same("whether it is seen", is_seen(), False)
    changed(repository, "high/src/lib.rt", "use middle::{Kept, opened};", "use middle::{Kept, opened};\nuse low::unheard_of;")
    same("whether it is with a name that is not found", is_seen(), True)


def a_repository_has_its_sums_wherever_it_lies(folder):
    places = [made(os.path.join(folder, it)) for it in ("here", "there")]
    same("the sums there", places[1].sums("high/wrong"), places[0].sums("high/wrong"))
    same("how long they are", {len(it) for it in places[0].sums("high/wrong")}, {len(edits_record.short_sum())})


TESTS = [
    a_change_is_seen_where_it_is_cited,
    an_edit_cites_what_it_names_itself,
    what_leads_nowhere_cites_a_whole_crate,
    a_repository_has_its_sums_wherever_it_lies,
]
