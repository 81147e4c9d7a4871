"""What is asked of documents: each of these functions yields the faults that it finds, as (file, line, what)."""

import os
import re

from documents_read import count_words, split_target

MOST_WORDS = 120
MOST_OF_README = 900
MOST_OF_A_CRATE = 150
# The file of the packages with which all tests run.
PACKAGES = ".ci/packages"
# The documents that need no link to them.
FIRST = {"README.md", "CHANGELOG.md"}

NAME = re.compile(r"[A-Za-z_.*][A-Za-z0-9_.*/:-]*[A-Za-z0-9_*/]|[A-Za-z]")
# What is a name also in the midst of other signs.
RUST = re.compile(r"(?ms)^```rust\n(.*?)^```$")
INNER = re.compile(r"\w+(?:::\w+)+|[A-Za-z]\w*_\w+|[A-Z][a-z]+[A-Z]\w*")
# A name, and a link to the file in which it stands.
PLACED = re.compile(r"`([A-Za-z_][\w:]*)` in \[[^\]]*\]\(([^()\s]+)\)")
# Where a command begins that the tree has to have, and what of its words have to be files.
COMMAND = re.compile(r"(?:\./|tests/|examples/|docs/gallery/)[^\s;|&>()`]+")
ARGUMENT = re.compile(r"(?:\./|tests/|examples/|docs/|crates/)[A-Za-z0-9_./*-]+")
OPTION = re.compile(r"--?[A-Za-z][A-Za-z0-9-]*")
# Programs that hand options on, with the files that know them.
KNOW_MORE = {"desk": ("crates/script_runner/src/", "crates/desk/src/")}
# Options that every program may have.
EVERYWHERE = {"-h", "--help"}
# The line of README.md that says how much is proved, and what is a function.
FIGURES = re.compile(r"\b([\d,]+) functions, ([\d,]+) laws among them, and ([\d,]+) lines of proofs")
FUNCTION = re.compile(r"(?m)^ *(?:pub(?:\(\w+\))? )?(?:(?:const|unsafe) )*fn ")
ENDINGS = r"rt|antt|py|md|desk|out|png|txt|c|edit|toml|json|pbm|font|seen|args|err|hex|name|status"

# Words that documents may name though the tree does not have them, each with why.
ALLOWED = (
    r"rattle-kit-\w+",  # the kits of Rattle, as their folders are called
    r"audit|axioms",  # commands of the kit that no program of the tree calls
    r"apt-get|cargo|clang|grep|rustc|strace|ulimit",  # programs of the system
)
# Where files lie that documents may name, though they are not of the tree.
ALLOWED_PATHS = (
    "/usr/bin/",  # programs of the system
    "screens/", "a/b",  # a folder of the reader's own, in docs/TESTING.md
)


def long_blocks(document):
    for it in document.prose():
        count = count_words(it.text)
        if it.kind != "heading" and count > MOST_WORDS:
            kind = {"item": "list item", "cell": "table cell"}.get(it.kind, it.kind)
            yield document.path, it.line, f"a {kind} of {count} words; {MOST_WORDS} is the most"


def long_documents(document):
    is_of_crate = re.fullmatch(r"crates/[^/]+/README\.md", document.path)
    most = MOST_OF_README if document.path == "README.md" else MOST_OF_A_CRATE if is_of_crate else None
    if most and document.words() > most:
        yield document.path, 1, f"{document.words()} words; {most} is the most here"


def target_of(document, path):
    """The path in the tree to which a link of this document leads; '' is its top."""
    if not path:
        return document.path
    start = "" if path.startswith("/") else os.path.dirname(document.path)
    found = os.path.normpath(os.path.join(start, path.lstrip("/")))
    return "" if found == "." else found


def is_outside(target):
    return re.match(r"[a-zA-Z][a-zA-Z0-9+.-]*:|//", target)


def dead_links(tree, document):
    for line, target in document.links():
        if is_outside(target):
            continue
        path, anchor = split_target(target)
        found = target_of(document, path)
        if found not in tree.paths and found != "":
            yield document.path, line, f"the link {target} leads to no file"
        elif anchor and not has_anchor(tree, found, anchor):
            yield document.path, line, f"the link {target} leads to an anchor that {found} does not have"


def has_anchor(tree, path, anchor):
    path = path if path in tree.files else os.path.join(path, "README.md")
    if path in tree.documents:
        return anchor in tree.documents[path].anchors()
    lines = re.fullmatch(r"L(\d+)(?:-L(\d+))?", anchor)
    count = tree.text_of(path).count("\n") if path in tree.files else 0
    return bool(lines) and all(1 <= int(it) <= count for it in lines.groups() if it)


def unknown_names(tree, document):
    """Names in backquotes of which the tree knows nothing. A path has to be there; of a name in parts each part has to."""
    for line, span in document.spans():
        name = re.sub(r"(?<=\w)\(\)$", "", span)
        if COMMAND.match(name):
            continue
        if NAME.fullmatch(name) and ("/" in name or re.fullmatch(rf"[\w.*-]+\.({ENDINGS})", name)):
            if not tree.has_path(name) and not name.startswith(ALLOWED_PATHS):
                yield document.path, line, f"`{span}` names no file or folder"
            continue
        names = [name] if NAME.fullmatch(name) else INNER.findall(name)
        parts = [part for it in names for part in re.split(r"::|\.|:|\*", it)]
        for it in parts:
            if not is_known(tree, it):
                yield document.path, line, f"`{span}` names {it}, which stands nowhere in the tree"
                break


def is_known(tree, word):
    is_allowed = any(re.fullmatch(it, word) for it in ALLOWED)
    return word in tree.words or is_allowed or not re.match(r"[A-Za-z_]", word)


def commands_of(document):
    """The commands that the document shows, each with its line: those of its code, and those in backquotes."""
    for line, text in [*document.code(), *document.spans()]:
        for part in re.split(r"\s(?:\||\|\||&&|;)\s", text):
            part = re.sub(r"^\s*\$ |(?:^|\s)#.*", "", part).strip()
            if COMMAND.match(part):
                yield line, part


def wrong_commands(tree, document):
    for line, command in commands_of(document):
        path = COMMAND.match(command)[0].removeprefix("./").rstrip("/,.:")
        if path not in tree.paths and not tree.has_path(path):
            yield document.path, line, f"the command {command} names {path}, which is no file of the tree"
            continue
        words = [it.strip("[],:") for it in re.sub(r"\d?>+ *\S+", "", command).split()[1:]]
        for it in words:
            if ARGUMENT.fullmatch(it) and not tree.has_path(it):
                yield document.path, line, f"the command {command} names {it}, which is no file of the tree"
        for option in unknown_options(tree, path, words):
            yield document.path, line, f"the command {command} has the option {option}, which {path} does not know"


def unknown_options(tree, path, words):
    """The options among these words of a command that the text of its program, a file of the tree, does not have."""
    options = {it[0] for it in map(OPTION.match, words) if it} - EVERYWHERE
    if options and path in tree.files:
        text = tree.program_text(path, KNOW_MORE.get(path, ()))
        yield from sorted(it for it in options if not knows(text, it))


def knows(text, option):
    """Whether the text of a program has this option; one that Rust reads stands there without its dashes."""
    return bool(re.search(rf"(?<![\w-]){re.escape(option)}(?![\w-])", text)) or f'"{option.lstrip("-")}"' in text


def misplaced_names(tree, document):
    """Names of which a document says in which file they stand, and that do not stand there."""
    for it in PLACED.finditer(document.text):
        name, path = it[1].rpartition("::")[2], target_of(document, split_target(it[2])[0])
        if path in tree.files and not re.search(rf"\b{re.escape(name)}\b", tree.text_of(path)):
            yield document.path, document.text.count("\n", 0, it.start()) + 1, f"`{it[1]}` does not stand in {path}"


def crates_without_readme(tree):
    for line, name in tree.crates():
        if f"crates/{name}/README.md" not in tree.files:
            yield "crates.txt", line, f"the crate {name} has no crates/{name}/README.md"


def linked_by(tree, document):
    """The documents to which this one has a link; a folder stands for its README.md."""
    for _, target in document.links():
        if not is_outside(target):
            found = target_of(document, split_target(target)[0])
            yield found if found in tree.files else os.path.normpath(os.path.join(found, "README.md"))


def lonely_documents(tree):
    linked = {it for path, document in tree.documents.items() for it in linked_by(tree, document) if it != path}
    for path in sorted({*tree.documents} - linked - FIRST):
        yield path, 1, "no other document has a link to this one"


def untested_code(tree):
    """Code of the library in README.md that stands in no file: what is shown there is tested text."""
    text = tree.documents["README.md"].text if "README.md" in tree.documents else ""
    files = [tree.text_of(path) for path in tree.files if path.endswith(".rt")]
    for it in RUST.finditer(text):
        if not any(it[1] in file for file in files):
            yield "README.md", text.count("\n", 0, it.start()) + 1, "this code stands in no file of the tree"


def figures_of(tree):
    """How many functions the crates have, how many of them are laws, and how many lines their proofs have."""
    functions, laws, lines = 0, 0, 0
    for path in tree.files:
        if re.match(r"crates/[^/]+/src/.*\.rt$", path):
            count = len(FUNCTION.findall(tree.text_of(path)))
            functions += count
            laws += count if path.endswith("laws.rt") else 0
        elif re.match(r"crates/[^/]+/proofs/.*\.antt$", path):
            lines += tree.text_of(path).count("\n")
    return functions, laws, lines


def rounded(number):
    """A number with two digits, and noughts for the others, as a document has it that need not change with each proof."""
    unit = 10 ** max(0, len(str(number)) - 2)
    return f"{number // unit * unit:,}"


def wrong_figures(tree):
    """The figures of README.md, where it has some, that are not those of the tree, rounded down."""
    text = tree.documents["README.md"].text if "README.md" in tree.documents else ""
    for found in FIGURES.finditer(text):
        for said, number in zip(found.groups(), figures_of(tree)):
            if said != rounded(number):
                line = text.count("\n", 0, found.start()) + 1
                yield "README.md", line, f"the figure {said} is {rounded(number)} now: tests/documents --figures counts {number}"


def unnamed_packages(tree):
    """The packages with which a merge is tried, where no command in README.md ends with them, in their order."""
    names = [it for it in tree.text_of(PACKAGES).split("\n") if it and not it.startswith("#")] if PACKAGES in tree.files else []
    if names and f" {' '.join(names)}`" not in tree.documents["README.md"].text:
        yield "README.md", 1, f"no command here ends with the packages of {PACKAGES}: {' '.join(names)}"


def faults_of(tree):
    """Every fault of the documents of this tree, in the order of the files and their lines."""
    faults = [*crates_without_readme(tree), *lonely_documents(tree), *untested_code(tree)]
    faults += [*unnamed_packages(tree), *wrong_figures(tree)]
    for document in tree.documents.values():
        faults += [*long_blocks(document), *long_documents(document)]
        faults += [*misplaced_names(tree, document)]
        faults += [*dead_links(tree, document), *unknown_names(tree, document), *wrong_commands(tree, document)]
    return sorted(set(faults))
