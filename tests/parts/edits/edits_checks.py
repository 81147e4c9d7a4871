"""The checks by which edits are tried, side by side, while time is left."""

import itertools
import os
import queue
import re
import shutil
import tempfile
import threading
import time
import traceback

import edits_read
from edits_read import rt
from edits_record import WAITING, name_of

ONE_JOB = ("--jobs", "1")


class Lanes:
    """Runs calls side by side, each of which may add others: first those with the least rank, and those past the end of
    the time not at all.

    is_late    whether it is too late to begin a call of this rank
    is_broken  whether a call failed, so that what it was to tell is not told
    """

    def __init__(self, number, is_late=lambda rank: False):
        self.number, self.is_late, self.is_broken = number, is_late, False
        self.left, self.count = queue.PriorityQueue(), itertools.count()

    def add(self, rank, call, *words):
        self.left.put((rank, next(self.count), call, words))

    def work(self):
        while True:
            rank, _, call, words = self.left.get()
            try:
                if not self.is_late(rank):
                    call(*words)
            except BaseException:
                traceback.print_exc()
                self.is_broken = True
            self.left.task_done()

    def run(self):
        for _ in range(self.number):
            threading.Thread(target=self.work, daemon=True).start()
        self.left.join()


def copied(kept, to):
    """Copies what a check kept. rattle writes each checked module anew, so links serve for those, and for no other."""

    def copy(old, new):
        try:
            return os.link(old, new) if old.endswith(".oantt") else shutil.copy2(old, new)
        except OSError:
            return shutil.copy2(old, new)

    return shutil.copytree(kept, to, copy_function=copy)


def check(crate, texts, functions, kept):
    """Checks these functions, or all, of the crate with these texts, over a copy of what was kept."""
    only = [word for it in functions for word in ("--only", it)]
    with tempfile.TemporaryDirectory(prefix="edits-kept-") as room:
        return rt.checked(crate, texts, [*ONE_JOB, *only], copied(kept, f"{room}/kept"))


def proved_in(crate, ran):
    """The names of the crate's functions that a check proved."""
    return {*re.findall(rf"(?m)^fn {crate.name}::(\S+): proved\b", ran.stdout)}


def judged(edit, kept=None):
    """Whether rt must-fail's own check of the crate with the edit refuses it, and what it says. Some kits tell whether by
    a truth value, and others by a word for how the check ended."""
    told, text = rt.must_fail(edit.crate, edit.path, ONE_JOB, kept)
    refused = (True,) if isinstance(told, bool) else (rt.REFUSED, rt.AT_LIMIT)
    return told in refused, text


class Batch:
    """Edits of one crate that are to be tried for one reason, and the folder of what their first check keeps.

    rank  why, since when they wait, and a number, less where the crate is larger: the least is the first to be tried
    """

    def __init__(self, rank, crate, paths, room):
        self.rank, self.crate, self.paths, self.left = rank, crate, paths, len(paths)
        self.kept = f"{room}/{crate.name}-{'-'.join(map(str, rank)).replace(':', '')}"


class Run:
    """One run over batches of edits, of which those that may wait are begun while time is left.

    sums     those of each edit, by its name
    end      when the time is over, by time.monotonic(), or None
    refused  the names of the edits that were refused; told: of all that something was told of
    """

    def __init__(self, sums, texts, record, lanes, room, is_built=False, end=None):
        self.sums, self.texts, self.record, self.room, self.is_built = sums, texts, record, room, is_built
        is_late = lambda rank: end is not None and rank[0] in WAITING and time.monotonic() >= end
        self.lanes, self.refused, self.told, self.printing = Lanes(lanes, is_late), set(), set(), threading.Lock()

    def go(self, todo):
        """Tries edits: for each reason, time since when they wait, and crate a list of paths."""
        for (kind, since, crate), paths in todo.items():
            batch = Batch((kind, since, -crate.count(rb"\n")), crate, paths, self.room)
            self.add(batch, 0, self.begin, batch)
        self.lanes.run()

    def add(self, batch, stage, call, *words):
        self.lanes.add((*batch.rank, stage), call, *words)

    def tell(self, batch, name, is_refused, text):
        """Records and then prints the end of an edit."""
        with self.printing:
            path = f"{batch.crate.folder}/must-fail/{os.path.basename(name)}"
            if is_refused and not self.texts.are_still(self.sums[name], batch.crate, path):
                is_refused, text = False, f"must-fail {name}: NOT COUNTED: what was to be checked changed meanwhile"
            if is_refused:
                self.record.keep(name, self.sums[name])
                self.refused.add(name)
            else:
                self.record.drop(name)
            self.told.add(name)
            print(text, flush=True)
            batch.left -= 1
            if not batch.left:
                shutil.rmtree(batch.kept, ignore_errors=True)

    def refuse(self, batch, edit, function, why):
        text = f"must-fail {edit.name}: refused, as it must be ({function}): {why[:160]}"
        self.tell(batch, edit.name, True, text)

    def fail(self, batch, edit, why):
        self.tell(batch, edit.name, False, f"must-fail {edit.name}: BAD EDIT: {why}")

    def begin(self, batch):
        """Checks what stands, and adds the checks of the batch's edits."""
        functions = self.changed_part(batch) if self.is_built else None
        if functions is None:
            functions = self.whole_crate(batch)
        if functions is None:
            return
        edits = [edits_read.Edit(batch.crate, it, functions) for it in batch.paths]
        for it in edits:
            if it.why:
                self.fail(batch, it, it.why)
            elif not it.body:
                self.add(batch, 2, self.alone, batch, it)
        self.add_groups(batch, [it for it in edits if it.body], functions)

    def changed_part(self, batch):
        """Checks the functions that edits change, by their names in the text, and returns all that the text has; None
        where not each of them was proved. Where no edit changes one nothing is checked, and nothing kept.
        """
        os.makedirs(batch.kept, exist_ok=True)
        functions = edits_read.functions_in(batch.crate)
        edits = [edits_read.Edit(batch.crate, it, functions) for it in batch.paths]
        names = [it.name for rows in functions.values() for it in rows]
        wanted = {it.only for it in edits if it.body}
        if any(names.count(it) > 1 for it in wanted):
            return None
        only = [word for it in sorted(wanted) for word in ("--only", it)]
        ran = rt.checked(batch.crate, {}, [*ONE_JOB, *only], batch.kept) if only else None
        return functions if not only or ran.returncode == 0 and wanted <= proved_in(batch.crate, ran) else None

    def whole_crate(self, batch):
        """Checks the crate, and returns its functions; None where it is not proved, and its edits have failed."""
        crate = batch.crate
        ran = rt.checked(crate, {}, ONE_JOB, batch.kept)
        if ran.returncode == 0 and re.search(r"(?m)^logic=proved .*\Z", ran.stdout.rstrip("\n")):
            return edits_read.functions_in(crate, proved_in(crate, ran))
        why = f"{crate.name} is not proved as it stands: {(ran.stdout.strip() or '?').splitlines()[-1][:200]}"
        for it in batch.paths:
            self.tell(batch, name_of(crate, it), False, f"must-fail {name_of(crate, it)}: NOT TRIED: {why}")
        return None

    def add_groups(self, batch, edits, functions):
        for group in edits_read.grouped(edits, functions):
            if len(group) > 1:
                self.add(batch, 1, self.together, batch, group, functions)
            else:
                self.add(batch, 2, self.alone, batch, group[0])

    def together(self, batch, edits, functions):
        crate, texts = batch.crate, edits_read.combined(batch.crate, edits)
        ran = check(crate, texts, [it.only for it in edits], batch.kept)
        said = edits_read.reasons(crate, ran.returncode, ran.stdout, texts)
        for it in edits:
            if it.only in said:
                self.refuse(batch, it, f"with others, {it.only}", said[it.only])
        rest = [it for it in edits if it.only not in said]
        if said:
            self.add_groups(batch, rest, functions)
        else:
            for it in rest:
                self.add(batch, 2, self.alone, batch, it)

    def alone(self, batch, edit):
        is_proved = False
        if edit.only:
            ran = check(edit.crate, edit.texts, [edit.only], batch.kept)
            bad = edits_read.unread(ran.stdout, edit.texts)
            said = edits_read.reasons(edit.crate, ran.returncode, ran.stdout, edit.texts)
            if bad:
                self.fail(batch, edit, f"the edited text cannot be read, so no contract was tried: {bad[:200]}")
                return
            if said:
                self.refuse(batch, edit, *[*said.items()][0])
                return
            is_proved = edit.body and ran.returncode == 0
        self.whole(batch, edit, None if is_proved else batch.kept)

    def whole(self, batch, edit, kept):
        is_refused, text = False, ""
        if kept:
            with tempfile.TemporaryDirectory(prefix="edits-kept-") as room:
                is_refused, text = judged(edit, copied(kept, f"{room}/kept"))
        if not is_refused:
            is_refused, text = judged(edit)
        text = text.replace("refused, as it must be", "refused, as it must be (whole)", 1)
        self.tell(batch, edit.name, is_refused, text)
