"""Whether edits that wait to be tried can still be made, and compile: a change around one may take away what it names. No
proof is begun, so one check of a few seconds tells it of many edits.
"""

import collections
import time

import edits_read
from edits_checks import ONE_JOB, Lanes
from edits_read import rt


def apart(edits):
    """Parts edits of bodies into groups in which no two change one function."""
    groups, seen = [], collections.Counter()
    for it in edits:
        file, function, _ = it.body
        at = seen[file, function.begins]
        seen[file, function.begins] += 1
        if at == len(groups):
            groups.append([])
        groups[at].append(it)
    return groups


def refusal(crate, texts):
    """What the compiler has against a crate with these texts, or ''."""
    # (no function has this name, so nothing is proved)
    ran = rt.checked(crate, texts, [*ONE_JOB, "--only", ""], None)
    last = ran.stdout.rstrip("\n").split("\n")[-1]
    if ran.returncode == 0 and last == "only=0 proved=0":
        return ""
    return edits_read.unread(ran.stdout, texts) or f"status {ran.returncode}: {last}"


class Reading:
    """One run over edits of bodies, which begins no check past the end of the time, where that has one.

    read  the names of those that compile, each of which is recorded
    bad   why each of the others does not, by its name. Those for which no time was left are neither.
    """

    def __init__(self, sums, record, lanes, end=None):
        is_late = lambda rank: end is not None and time.monotonic() >= end
        self.sums, self.record, self.lanes, self.read, self.bad = sums, record, Lanes(lanes, is_late), set(), {}

    def go(self, waiting):
        """Reads edits: for each crate a list of paths."""
        names = set()
        for crate, paths in waiting.items():
            functions = edits_read.functions_in(crate)
            edits = [edits_read.Edit(crate, it, functions) for it in paths]
            names |= {it.name for it in edits}
            for group in apart(edits):
                self.lanes.add(-len(group), self.compile, crate, group)
        self.lanes.run()
        if self.lanes.is_broken:
            self.bad = {it: "it was not read" for it in names - self.read} | self.bad

    def compile(self, crate, edits):
        said = refusal(crate, edits_read.combined(crate, edits))
        if not said:
            names = {it.name for it in edits}
            self.record.keep_compiled({it: self.sums[it] for it in names})
            self.read |= names
        elif len(edits) == 1:
            self.bad[edits[0].name] = f"the edited text cannot be read: {said[:200]}"
        else:
            for it in edits:
                self.lanes.add(0, self.compile, crate, [it])
