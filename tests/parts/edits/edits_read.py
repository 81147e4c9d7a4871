"""What a must-fail edit changes, and what a check says of it: the parts of the program edits that start no check."""

import collections
import hashlib
import importlib.machinery
import importlib.util
import os
import re
import shutil
import sys

MOST_TOGETHER = 8


def load_rt():
    """The command rt as a module: its own functions read an edit and judge it."""
    path = shutil.which("rt")
    if not path:
        sys.exit("edits: there is no command 'rt' here: put the folder bin of the Rattle kit on the PATH")
    loader = importlib.machinery.SourceFileLoader("rt_itself", os.path.realpath(path))
    made = importlib.util.module_from_spec(importlib.util.spec_from_loader("rt_itself", loader))
    loader.exec_module(made)
    return made


rt = load_rt()
rtlib = rt.rtlib

def is_outdated(library):
    """Whether something that a built library, a Crate of rt, is made of has changed since.

    rt's own stamp tells, but rt ci leaves none. Then times do: of when the library was put there, and of the last change
    to each text and folder, which no program can set back.
    """
    if os.path.isfile(f"{os.path.dirname(library.rlib)}/stamp"):
        return not library.is_built()
    folders = [f"{library.folder}/{it}" for it in ("src", "specs", "proofs")]
    walked = [(at, files) for it in folders for at, _, files in os.walk(it)]
    texts = [f"{at}/{it}" for at, files in walked for it in (".", *files)]
    changed = [os.stat(it).st_ctime_ns for it in ("crates.txt", *texts)]
    below = [os.stat(it.rlib).st_mtime_ns for it in library.deps]
    return max([*changed, *below]) > os.stat(library.rlib).st_mtime_ns


# Where functions stand. Texts are bytes here: where comments and strings are blanked, each byte keeps its place.

HEAD = re.compile(rb"(?m)^( *)((?:pub(?:\([^)]*\))? |const |unsafe |extern +)*)fn (\w+)")
KIND = re.compile(rb"(?m)^(?:pub(?:\([^)]*\))? )?(?:struct|enum) (\w+)")
OWNER = re.compile(rb"(?m)^(?:pub(?:\([^)]*\))? )?(?:unsafe )?(impl|trait)\b([^{;]*)\{")
# A body that has one of these may say something outside itself, and a change that has one may.
ITEM = re.compile(rb"\b(fn|impl|mod|use|struct|enum|trait|type|const|static|extern|macro_rules)\b")
REACHES = re.compile(ITEM.pattern + rb"|\b(ghost|requires|ensures)\b|#")

# A function of a source file: its path in the crate (None where the text does not tell), the last word of that, where
# it starts, where its body begins and ends, what the body may call, whether its proof may be another function's too,
# whether it is seen from outside the crate, whether it is a trait's, and whether its body may stand in a type.
Function = collections.namedtuple("Function", "name last starts begins ends calls is_shared is_seen is_of_trait is_const")


def data_of(path):
    with open(path, "rb") as file:
        return file.read()


def sum_of(*parts):
    return hashlib.sha256(repr(parts).encode()).hexdigest()


def braces(text):
    """For the place of each closing brace that of its opening one, or None where they do not fit."""
    pairs, left = {}, []
    for it in re.finditer(rb"[{}]", text):
        if it[0] == b"{":
            left.append(it.start())
        elif left:
            pairs[it.start()] = left.pop()
        else:
            return None
    return None if left else pairs


def words_of_impl(head):
    """The type of an impl's head, its trait or '', and the words of the trait's arguments but for type parameters. Without
    a trait the type comes with the words of its own arguments, as Kept+Thing of Kept<Thing>.
    """
    depth, at = 0, 0
    if head.startswith("<"):
        for at, sign in enumerate(head):
            depth += (sign == "<") - (sign == ">" and head[at - 1] != "-")
            if not depth:
                break
        at += 1
    parameters, rest = re.findall(r"[<,]\s*(?:const )?(\w+)", head[:at]), head[at:].partition(" where ")[0]
    trait, _, kind = rest.rpartition(" for ")
    kind, _, arguments = kind.partition("<")
    kind = re.findall(r"\w+", kind)[-1:]
    kind += [] if trait else [it for it in re.findall(r"(?<!')\b\w+", arguments) if it not in parameters]
    words = re.findall(r"\w+", trait.partition("<")[2])
    trait = re.findall(r"\w+", trait.partition("<")[0])[-1:]
    return "+".join(kind), "".join(trait), "".join(it for it in words if it not in parameters)


def path_of(module, owner, last, names, homes):
    """The one name among those that rattle prints of a function that stands so, or None; without names, what it has to
    be by the text. homes: the module of each type, by which the functions of an impl without a trait go, but where the type
    has arguments.
    """
    within = lambda it: f"{it}::" if it else ""
    here = within(module)
    if not owner:
        return here + last if names is None or here + last in names else None
    if owner[1] == b"trait":
        kind, trait, words = re.match(r"\s*(\w+)", owner[2].decode())[1], "", ""
    else:
        kind, trait, words = words_of_impl(owner[2].decode().strip())
    if names is None or not trait:
        home = here if trait else within(homes.get(kind, module))
        name = f"{home}{kind}{trait}{words}::{last}"
        return name if names is None or name in names else None
    found = [it for it in names if re.fullmatch(rf"{here}{kind}{trait}\w*::{last}", it)]
    exact = [it for it in found if it == f"{here}{kind}{trait}{words}::{last}"]
    return (exact or found)[0] if len(exact or found) == 1 else None


def functions_in(crate, names=None):
    """For each source file of a crate its functions, with those of these names that are theirs, or with the names that
    the text gives. What is not laid out as rt fmt does it is left out.
    """
    found = {}
    files = [(os.path.relpath(it, crate.folder), it, text.encode()) for it, text in rtlib.blanked(crate.folder).items()]
    files = [it for it in files if it[0].endswith(".rt")]
    homes = {kind.decode(): module_of(file) for file, _, code in files for kind in KIND.findall(code)}
    for file, path, code in files:
        pairs = braces(code)
        if len(code) == len(data_of(path)) and pairs and b"macro_rules" not in code:
            found[file] = [*functions_of(code, pairs, module_of(file), names, homes)]
    return found


def module_of(file):
    """The module that a source file is; of the crate's own file ''."""
    return "::".join(it for it in file[4:-3].split("/") if it not in ("lib", "main", "mod"))


def functions_of(code, pairs, module, names, homes):
    heads, owners = [*HEAD.finditer(code)], [*OWNER.finditer(code)]
    for at, head in enumerate(heads):
        indent, last = head[1], head[3].decode()
        end = re.compile(rb"(?m)^%s\}$" % indent).search(code, head.end())
        beyond = next((it.start() for it in heads[at + 1 :] if len(it[1]) <= len(indent)), len(code))
        if not end or not head.end() < pairs[end.end() - 1] < beyond:
            continue
        begins, ends = pairs[end.end() - 1] + 1, end.end() - 1
        owner = next((it for it in reversed(owners) if it.start() < head.start()), None) if indent else None
        body, attributes = code[begins:ends], code[: head.start()].rpartition(b"\n\n")[2]
        # functions of a cycle of calls have one proof, and what a const fn gives can stand in a type
        is_const = b"const" in head[2]
        is_shared = is_const or b"cycle" in attributes or bool(ITEM.search(body))
        is_of_trait = bool(owner) and (owner[1] == b"trait" or b" for " in owner[2])
        is_seen = head[2].startswith(b"pub ") or is_of_trait
        calls = {it.decode() for it in re.findall(rb"(\w+)(?:::<[^()]*>)?\(", body)}
        name = path_of(module, owner, last, names, homes)
        yield Function(name, last, head.start(), begins, ends, calls, is_shared, is_seen, is_of_trait, is_const)


# Edits


def difference(old, new):
    """Where two texts begin to differ, and where they end to in each. No word is cut."""
    start = len(os.path.commonprefix([old, new]))
    rest = len(os.path.commonprefix([old[start:][::-1], new[start:][::-1]]))
    while start and re.match(rb"\w", old[start - 1 : start]):
        start -= 1
    while rest and re.match(rb"\w", old[len(old) - rest :]):
        rest -= 1
    return start, len(old) - rest, len(new) - rest


class Edit:
    """An edit of a crate.

    texts  the files that it changes, as they are with it; why: what is wrong with it, if something is
    only   the function, type or module to check in place of the crate, or None
    body   where it changes one body and nothing else: the file, the function, and the new body; else None
    """

    def __init__(self, crate, path, functions):
        self.crate, self.path, self.name = crate, path, f"{crate.name}/{os.path.basename(path)}"
        self.only = self.body = None
        self.texts, self.why = rt.read_edit(path, crate.folder)
        if self.why:
            return
        pairs = [(it, data_of(f"{crate.folder}/{it}"), text.encode()) for it, text in self.texts.items()]
        pairs = [it for it in pairs if it[1] != it[2]]
        if not pairs:
            self.why = "it changes nothing"
        if len(pairs) == 1 and pairs[0][0] in functions:
            self.find(*pairs[0], functions[pairs[0][0]])
        hint = re.search(rb"(?m)^only: *(\S+) *$", data_of(path))
        if hint:
            self.only, self.body = hint[1].decode(), None

    def find(self, file, old, new, functions):
        """Finds the function in whose body the edit lies."""
        start, end, end_of_new = difference(old, new)
        self.only = module_of(file) or None
        around = [it for it in functions if it.begins <= start and end <= it.ends]
        function = max(around, key=lambda it: it.begins, default=None)
        if not function or not function.name:
            return
        self.only = function.name
        body = new[function.begins : len(new) - (len(old) - function.ends)]
        reaches = REACHES.search(old[start:end]) or REACHES.search(new[start:end_of_new])
        if not reaches and not function.is_shared and braces(body) is not None:
            self.body = file, function, body


def combined(crate, edits):
    """The texts of the crate with the new bodies of all these edits."""
    texts = {}
    for file, function, body in sorted((it.body for it in edits), key=lambda it: -it[1].begins):
        text = texts.get(file) or data_of(f"{crate.folder}/{file}")
        texts[file] = text[: function.begins] + body + text[function.ends :]
    return {file: text.decode() for file, text in texts.items()}


def led_to(functions):
    """For the last word of each function's name those of all that its body may lead to, as far as the text tells.

    Nothing rests on it but how long a run takes: an edit whose function leads to one that is not proved is not decided
    beside it.
    """
    calls = collections.defaultdict(set)
    for it in (function for rows in functions.values() for function in rows):
        calls[it.last] |= it.calls
    found = {}
    for name in [*calls]:
        left, seen = [name], set()
        while left:
            more = {it for it in calls.get(left.pop(), ()) if it in calls} - seen
            seen |= more
            left += more
        found[name] = seen
    return found


def grouped(edits, functions):
    """Parts edits of bodies into groups in which no two change one function, and no function leads to another."""
    below, groups = led_to(functions), []
    last = lambda it: it.body[1].last
    meet = lambda a, b: last(a) == last(b) or last(b) in below[last(a)] or last(a) in below[last(b)]
    for it in edits:
        fits = (group for group in groups if len(group) < MOST_TOGETHER and not any(meet(it, other) for other in group))
        group = next(fits, None)
        if group is None:
            groups.append([it])
        else:
            group.append(it)
    return groups


# What a check says

ERROR = re.compile(r"(?:\./)?(\S+?):\d+:\d+: error")
# as rt must-fail has it: a proof file names what the edit took away, or stands on one that does
NAMES_IT = re.compile(r"(\./)?proofs/.*(has no field|is not in scope|has no `|was not admitted)")


# a form that rattle does not prove, whatever the contract is
UNCOVERED = re.compile(r": error: rattle does not read .*, since the borrow checker does not cover it")


def unread(said, changed):
    """The line by which a check says that it cannot read the changed texts, or does not prove their form, or ''."""
    lines = said.rstrip("\n").split("\n")
    found = next((it for it in lines if rt.unread(it, changed) or UNCOVERED.search(it)), "")
    if found or re.match(r"(only|logic)=", lines[-1]):
        return found
    # the front end refused it, so that antt was not asked
    return next((it for it in lines if re.match(r"(?:\./)?src/\S+:\d+:\d+: error\[", it)), "")


def reasons(crate, status, said, changed):
    """What a check of some functions has against each of them for a goal or an answer of its own, by its name.

    There is none where the check did not come to its end, or refused something that is no function's own. Nor has a
    function one that calls or passes on what is not proved, or of which the check says only that its proof files name
    what is not there any more.
    """
    lines = said.rstrip("\n").split("\n")
    is_whole = status == 1 and re.fullmatch(r"only=\d+ proved=\d+", lines[-1])
    if not is_whole or unread(said, changed) or rtlib.STALE.search(said):
        return {}
    rows = [re.match(rf"fn {re.escape(crate.name)}::(\S+): (.*)", it) for it in lines]
    rows, found = [it for it in rows if it], {}
    errors = {it[1]: [] for it in rows}
    for line in lines:
        file = ERROR.match(line)
        # the proof of a::f stands in proofs/a/f
        name = "::".join(file[1].split("/")[1:-1]) if file and file[1].startswith("proofs/") else None
        if file and name not in errors:
            return {}
        if file:
            errors[name].append(line)
    for row in rows:
        is_open = re.match(r"(not proved|no proof)\b", row[2]) and not re.search(r"which (is|are) not proved", row[2])
        why = reason(errors[row[1]], row[2])
        if is_open and why:
            found[row[1]] = why
    return found


def reason(errors, row):
    """What a check has against a function, of which it told these errors and this row."""
    gone = [it for it in errors if NAMES_IT.match(it)]
    answers = [it for it in errors if it not in gone]
    goal = re.search(r"`search` did not prove .*", row)
    # each answer stands for itself; but that a name is gone may be why a goal has none, or why an invariant fails
    if any("/Answers.antt:" not in it for it in gone):
        return ""
    return answers[0] if answers else goal[0] if goal and not gone else ""
