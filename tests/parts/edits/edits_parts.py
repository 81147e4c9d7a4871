"""Tests of the parts of the program edits. None starts a check."""

import contextlib
import os
import re
import sys
import threading
import time

import edits_checks
import edits_read
import edits_record
import edits_waiting

from desk_kit.answers import Fault
from edits_small import LOW, Repository
from place import same

# What no check is to read: the places of functions are found in it.
PLACES = """mod deep;

pub struct Kept(u32);

pub trait Sized {
    fn size(&self) -> u32;

    fn more(&self) -> u32 {
        self.size() + 1
    }
}

impl<T: Drop> Sized for Thing<T> {
    fn size(&self) -> u32 {
        // fn other() {}
        3
    }
}

impl<T: Drop> From<Other<T>> for Thing<T> {
    fn from(it: Other<T>) -> Thing<T> {
        Thing(40)
    }
}

impl<T> From<Third<T>> for Thing<T> {
    fn from(it: Third<T>) -> Thing<T> {
        Thing(50)
    }
}

const fn five() -> u32 {
    5
}

fn nothing() {}

fn holds_one() -> u32 {
    const ONE: u32 = 11;
    ONE
}
"""
DEEP = """pub fn inner() -> u32 {
    60
}

impl Thing {
    fn own() -> u32 {
        70
    }
}

impl Kept {
    fn kept() -> u32 {
        90
    }
}

impl<'a, T: Drop> Held<'a, T, Kept> {
    fn held() -> u32 {
        95
    }
}
"""
NAMES = "Sized::more ThingSized::size ThingFromOther::from ThingFromThird::from five holds_one".split()
NAMES += ["deep::inner", "deep::Thing::own", "Kept::kept", "deep::Held+Kept::held"]
# Edits of these, the function or module that each is of, and whether it changes its body alone.
PLACED = [
    ("src/lib.rt", "        3", "        4", "ThingSized::size", True),
    ("src/lib.rt", "self.size() + 1", "self.size()", "Sized::more", True),
    ("src/lib.rt", "Thing(40)", "Thing(41)", "ThingFromOther::from", True),
    ("src/lib.rt", "Thing(50)", "Thing(51)", "ThingFromThird::from", True),
    ("src/deep.rt", "    60", "    61", "deep::inner", True),
    ("src/deep.rt", "    70", "    71", "deep::Thing::own", True),
    # a method goes by the module of its type
    ("src/deep.rt", "    90", "    91", "Kept::kept", True),
    # but where that is of another one
    ("src/deep.rt", "    95", "    96", "deep::Held+Kept::held", True),
    # what stands in no body
    ("src/lib.rt", "fn size(&self) -> u32;", "fn size(&self) -> u64;", None, False),
    ("src/lib.rt", "nothing() {}", "nothing() { 1 }", None, False),
    ("src/deep.rt", "inner()", "outer()", "deep", False),
    # what may reach past a body
    ("src/lib.rt", "fn five() -> u32 {", "fn five() -> u32 { return 6;", "five", False),
    ("src/lib.rt", "= 11", "= 12", "holds_one", False),
    ("src/lib.rt", "Thing(40)", "Thing(40) } fn other() { 1", "ThingFromOther::from", False),
    ("src/lib.rt", "Thing(40)", "Thing(40) } } { { 1", "ThingFromOther::from", False),
    ("src/lib.rt", "Thing(40)", "#[cycle(a)] Thing(40)", "ThingFromOther::from", False),
    ("src/lib.rt", "Thing(40)", "(move || requires { a } { 1 })()", "ThingFromOther::from", False),
]


def a_sum_is_of_all_that_a_check_reads(folder):
    def low_and_high(name, alter=lambda it: None):
        repository = Repository(os.path.join(folder, name))
        repository.edit("low/wrong", "n + 1", "n + 2")
        repository.edit("high/wrong", "n + 2", "n + 3")
        alter(repository)
        return repository.sums("low/wrong"), repository.sums("high/wrong")

    def wants(name, alter, is_low, is_high):
        """Which of the sums of the edit, of its crate and of what that cites change, of low's and of high's edit."""
        found = low_and_high(name, alter)
        differ = ["".join("0" if a == b else "1" for a, b in zip(*its)) for its in zip((low, high), found)]
        same(f"which sums change: {name}", differ, [is_low, is_high])

    low, high = low_and_high("as it is")
    wants("elsewhere", lambda it: None, "000", "000")
    wants("edit", lambda it: it.edit("low/wrong", "n + 1", "n + 3"), "100", "000")
    wants("another edit", lambda it: it.edit("low/right", "n + 1", "1 + n"), "000", "000")
    wants("code below", lambda it: it.change("low", "    n + 1", "    1 + n"), "010", "000")
    wants("comment", lambda it: it.change("low", "Numbers", "Some numbers"), "000", "000")
    wants("clause below", lambda it: it.change("low", "result ≡ n + 1", "n + 1 ≡ result"), "010", "001")
    wants("code above", lambda it: it.change("high", "n + 3", "3 + n"), "000", "010")
    wants("spec", lambda it: it.write("crates/low/specs/Lib.antt", ""), "010", "000")
    wants("proof", lambda it: it.write("crates/high/proofs/Lib.antt", ""), "000", "010")
    wants("built", lambda it: it.build(), "000", "000")
    wants("listed", lambda it: it.write("crates.txt", "low: itoa\nhigh: low\n"), "010", "000")
    wants("listed above", lambda it: it.write("crates.txt", "low:\nhigh: low itoa\n"), "000", "010")


def a_sum_is_of_the_name_the_judgement_and_the_logic(folder):
    repository = Repository(folder)
    repository.edit("low/wrong", "n + 1", "n + 2")
    repository.edit("low/copy", "n + 1", "n + 2")
    first, kit, judgement = repository.sums("low/wrong"), edits_read.rt.KIT, edits_record.JUDGEMENT
    same("which differ by the name", [a == b for a, b in zip(first, repository.sums("low/copy"))], [False, True, True])
    changed = first._replace(own="")
    try:
        edits_record.JUDGEMENT += 1
        same("another judgement", repository.sums("low/wrong")._replace(own=""), changed)
        same("is seen", repository.sums("low/wrong") == first, False)
        edits_record.JUDGEMENT, edits_read.rt.KIT = judgement, folder
        for said, is_same in [(f"another-kit logic {logic_of(kit)}", True), (f"{name_of(kit)} logic 123", False)]:
            repository.write("KIT-ID", f"{said}\n")
            same(f"a kit of the line {said}", repository.sums("low/wrong") == first, is_same)
    finally:
        edits_record.JUDGEMENT, edits_read.rt.KIT = judgement, kit


def name_of(kit):
    return edits_read.data_of(f"{kit}/KIT-ID").decode().split()[0]


def logic_of(kit):
    return edits_read.data_of(f"{kit}/KIT-ID").decode().split()[-1]


def a_record_keeps_what_it_is_told(folder):
    record, other = edits_record.Record(f"{folder}/edits.seen"), edits_record.Record(f"{folder}/edits.seen")
    same("no file", record.lines(), {})
    made = lambda it: edits_record.Sums(*(edits_record.short_sum(it, part) for part in range(3)))
    sums = {f"low/{it}.edit": made(it) for it in range(8)}
    threads = [threading.Thread(target=edits_record.Record(record.file).keep, args=it) for it in sums.items()]
    for it in threads:
        it.start()
    for it in threads:
        it.join()
    same("eight at once", record.lines(), {name: edits_record.Line(it) for name, it in sums.items()})
    other.drop("low/3.edit")
    with open(record.file, "a", encoding="utf-8") as file:
        file.write("<<<<<<< HEAD\n1234 - low/9.edit\nhello\n")
    record.settle({"low/5.edit": sums["low/5.edit"], "low/6.edit": sums["low/0.edit"]}, ["low/5.edit", "low/6.edit"])
    (five, waits_not, _), (six, since, _) = (other.lines()[f"low/{it}.edit"] for it in (5, 6))
    same("what is left", (len(other.lines()), five, six), (2, sums["low/5.edit"], sums["low/6.edit"]))
    same("which waits", (waits_not, bool(re.fullmatch(r"\d{4}-\d\d-\d\dT\d\d:\d\d", since))), ("", True))
    waits = edits_record.Line(six, "2001-02-03T04:05")
    record.change(lambda known: known.update({"low/6.edit": waits}))
    record.keep_compiled({"low/6.edit": sums["low/0.edit"], "low/7.edit": six})
    compiled = waits._replace(compiled=edits_record.one_sum(sums["low/0.edit"]))
    same("which is compiled", other.lines()["low/6.edit"], compiled)
    record.settle({"low/6.edit": sums["low/0.edit"]}, ["low/6.edit"])
    same("which waits on", other.lines(), {"low/6.edit": compiled})
    record.settle({"low/6.edit": sums["low/1.edit"]}, ["low/6.edit"])
    same("which waits on, at other sums", other.lines(), {"low/6.edit": waits})
    record.settle({"low/6.edit": six}, ["low/6.edit"])
    same("which waits no longer", other.lines(), {"low/6.edit": edits_record.Line(six)})
    same("files", os.listdir(folder), ["edits.seen"])


def an_edit_is_new_or_its_crate_or_what_that_cites_changed(_):
    seen = edits_record.Sums("a", "b", "c")
    for sums, wanted in [
        (seen, None),
        (seen._replace(cited="d"), edits_record.CITED),
        (seen._replace(own="d"), edits_record.OWN),
        (edits_record.Sums("a", "d", "d"), edits_record.OWN),
        (seen._replace(edit="d"), edits_record.NEW),
        (edits_record.Sums("d", "d", "d"), edits_record.NEW),
    ]:
        same(f"at {sums}", edits_record.kind_of(seen, sums), wanted)
    same("never seen", edits_record.kind_of(None, seen), edits_record.NEW)


def what_waits_goes_in_order_while_time_is_left(folder):
    repository = Repository(folder)
    low, high = (repository.crates()[it] for it in ("low", "high"))
    todo = {
        (edits_record.CITED, "2001-01-01T00:00", high): ["a"],
        (edits_record.OWN, "2002-02-02T00:00", high): ["b"],
        (edits_record.OWN, "2001-01-01T00:00", high): ["c"],
        (edits_record.OWN, "2002-02-02T00:00", low): ["d"],
        (edits_record.MORE, "", high): ["e"],
        (edits_record.NEW, "", high): ["f"],
    }

    def begun(end):
        run, found = edits_checks.Run({}, None, None, 1, folder, end=end), []
        run.begin = lambda batch: found.extend(batch.paths)
        run.go(todo)
        return "".join(found)

    same("with time", begun(None), "fecdba")
    same("with time left", begun(time.monotonic() + 600), "fecdba")
    same("without", begun(time.monotonic()), "f")


def what_waits_is_compiled_in_groups_of_different_bodies(folder):
    repository = Repository(folder)
    new = {"next-a": "    n + 2", "next-b": "    n + 3", "next-c": "    n + 4", "most-a": "    MOST - 1", "most-b": "    MOST - 2"}
    for name, text in new.items():
        repository.edit(f"low/{name}", {"next": "    n + 1", "most": "    MOST"}[name[:4]], text)
    edits = [repository.read(f"low/{it}", None) for it in new]
    groups = [[it.name for it in group] for group in edits_waiting.apart(edits)]
    names = lambda *its: [f"low/{it}.edit" for it in its]
    same("the groups", groups, [names("next-a", "most-a"), names("next-b", "most-b"), names("next-c")])


def an_edit_that_cannot_be_made_is_told(folder):
    repository = Repository(folder)
    for name, old, new, why in [
        ("absent", "n + 5", "n + 6", "0 times"),
        ("twice", "result ≡ n", "result ≡ 1", "3 times"),
        ("nothing", "n * 2 }", "n * 2 }", "changes nothing"),
        ("back", "n + 1\nnew: n + 9\nold: n + 9", "n + 1", "2 times"),
        ("none", "MOST\nold: n", "x", "times"),
    ]:
        repository.edit(f"low/{name}", old, new)
        found = repository.read(f"low/{name}")
        if why not in (found.why or "") or found.body:
            raise Fault(f"{name}: {found.why!r} in place of what has {why!r}")


def an_edit_lies_in_one_body_or_is_tried_alone(folder):
    repository = Repository(folder)
    repository.write("crates/low/src/lib.rt", PLACES)
    repository.write("crates/low/src/deep.rt", DEEP)
    for file, old, new, only, is_body in PLACED:
        repository.edit("low/placed", old, new, file)
        found = repository.read("low/placed", NAMES)
        same(f"{old} to {new}", (found.why, found.only, bool(found.body)), (None, only, is_body))
    repository.edit("low/hint", "        3", "        4", more="only: five\n")
    found = repository.read("low/hint", NAMES)
    same("with a line only:", (found.only, found.body), ("five", None))


def the_text_tells_the_names_of_functions(folder):
    repository = Repository(folder)
    repository.write("crates/low/src/lib.rt", PLACES)
    repository.write("crates/low/src/deep.rt", DEEP)
    found = edits_read.functions_in(repository.crates()["low"])
    same("the names", sorted(it.name for rows in found.values() for it in rows), sorted(NAMES))


def edits_of_bodies_go_together_and_apart(folder):
    repository = Repository(folder)
    names = ["next", "after_next", "most", "twice"]
    repository.edit("low/a", "next(next(n))", "next(n)")
    repository.edit("low/b", "    n + 1", "    n + 1 + 1")
    repository.edit("low/c", "    n + 1", "    n")
    repository.edit("low/d", "    n * 2", "    n")
    repository.edit("low/e", "next(next(n))", "next(n) + 2")
    crate = repository.crates()["low"]
    functions = edits_read.functions_in(crate, names)
    found = [edits_read.Edit(crate, it, functions) for it in edits_read.rt.edits_of(crate)[0]]
    groups = edits_read.grouped(found, functions)
    letters = ["".join(it.name[4] for it in group) for group in groups]
    same("the groups", letters, ["ad", "b", "c", "e"])
    text = edits_read.combined(crate, [found[1], found[3]])["src/lib.rt"]
    same("two edits made", text, LOW.replace("    n + 1", "    n + 1 + 1").replace("    n * 2", "    n"))


OWN_GOAL = "fn low::next: no proof: expected answers in ./proofs/next/Answers.antt; `search` did not prove `returns`"
OWN_ANSWER = "./proofs/next/Answers.antt:3:9: error: `returns`: `search`: no proof of `a` was found"
GONE = "./proofs/next/Answers.antt:3:9: error: `returns`: record `R` has no field `most`"
CHANGED = "proofs/next/Invariants.antt"
CALLS = f"{OWN_GOAL}; it calls `low::most`, which is not proved"
FORM = (
    "./proofs/next/Answers.antt: error: rattle does not read `Answers.antt` of `low::next`, since the borrow checker does not "
    "cover it yet (a struct with an `impl Model` is borrowed whole)"
)


def only_goals_and_answers_of_its_own_refuse_a_function(_):
    crate, end = type("Named", (), {"name": "low"}), "only=2 proved=1"
    for rows, wanted in [
        ([OWN_GOAL, "fn low::most: proved", end], ["next"]),
        ([OWN_ANSWER, "fn low::next: not proved", end], ["next"]),
        (["fn low::next: not proved", end], []),
        (["fn low::next: could not tell", end], []),
        ([GONE, "fn low::next: not proved", end], []),
        ([GONE, OWN_GOAL, end], []),
        ([GONE, OWN_ANSWER, "fn low::next: not proved", end], ["next"]),
        ([GONE.replace("Answers", "Invariants"), OWN_ANSWER, "fn low::next: not proved", end], []),
        ([CALLS, "fn low::most: not proved", end], []),
        ([CALLS.replace("it calls", "it passes the block"), end], []),
        ([CALLS.replace("which is", "`low::twice`, which are"), end], []),
        ([OWN_GOAL, "proofs/Lemmas.antt:1:1: error: `lemma`: no", end], []),
        ([OWN_GOAL, "./proofs/most/Answers.antt:1:1: error: `lemma`: no", end], []),
        ([OWN_GOAL, "src/lib.rt:1:1: error[unknown-name]: cannot find value `x`", end], []),
        ([OWN_GOAL, "src/lib.rt:1:1: error: `next`: `x` is not in scope", end], []),
        ([f"{CHANGED}:1:1: error: expected a term", OWN_GOAL, end], []),
        ([FORM, OWN_GOAL, end], []),
        ([OWN_GOAL], []),
        ([OWN_GOAL, "logic=not-proved functions=2"], []),
        ([OWN_GOAL.replace("low::", "other::"), end], []),
    ]:
        found = edits_read.reasons(crate, 1, "\n".join([*rows, ""]), {"src/lib.rt": "", CHANGED: ""})
        same(f"refused by {rows}", [*found], wanted)
    for status in (0, 2, 3, -9):
        same(f"refused at the status {status}", edits_read.reasons(crate, status, f"{OWN_GOAL}\n{end}\n", {}), {})


def what_changes_while_it_is_checked_is_not_recorded(folder):
    repository = Repository(folder)
    repository.edit("low/wrong", "n + 1", "n + 2")
    crates, name = repository.crates(), "low/wrong.edit"
    texts, record = edits_record.Texts(list(crates.values())), edits_record.Record(f"{folder}/tests/edits.seen")
    sums = {name: texts.sums_of(crates["low"], f"{folder}/crates/low/must-fail/wrong.edit")}
    run = edits_checks.Run(sums, texts, record, 1, folder)
    batch = edits_checks.Batch((0,), crates["low"], [name] * 4, folder)

    def told(what, is_kept, alter=lambda: None):
        run.refused.clear()
        alter()
        run.tell(batch, name, True, "")
        same(what, (repository.record(), run.refused), ({name: sums[name]}, {name}) if is_kept else ({}, set()))

    with open(os.devnull, "w", encoding="utf-8") as nowhere, contextlib.redirect_stdout(nowhere):
        told("as it was", True)
        told("written anew", True, lambda: repository.change("low", "MOST: u32 = 7", "MOST: u32 = 7"))
        told("once changed", False, lambda: repository.change("low", "MOST: u32 = 7", "MOST: u32 = 6"))
        told("once back, and the edit changed", False, lambda: repository.edit("low/wrong", "n + 1", "n + 3"))


def a_call_that_fails_holds_up_no_other(_):
    lanes, done = edits_checks.Lanes(2), []
    lanes.add(1, done.append, 1)
    lanes.add(0, lambda: sys.exit("no"))
    lanes.add(0, lambda: lanes.add(2, done.append, 2))
    lanes.add(0, lambda: [][0])
    with open(os.devnull, "w", encoding="utf-8") as nowhere, contextlib.redirect_stderr(nowhere):
        lanes.run()
    same("what was done", (sorted(done), lanes.is_broken), ([1, 2], True))


TESTS = [
    a_sum_is_of_all_that_a_check_reads,
    a_sum_is_of_the_name_the_judgement_and_the_logic,
    a_record_keeps_what_it_is_told,
    an_edit_is_new_or_its_crate_or_what_that_cites_changed,
    what_waits_goes_in_order_while_time_is_left,
    what_waits_is_compiled_in_groups_of_different_bodies,
    an_edit_that_cannot_be_made_is_told,
    an_edit_lies_in_one_body_or_is_tried_alone,
    the_text_tells_the_names_of_functions,
    edits_of_bodies_go_together_and_apart,
    only_goals_and_answers_of_its_own_refuse_a_function,
    what_changes_while_it_is_checked_is_not_recorded,
    a_call_that_fails_holds_up_no_other,
]
