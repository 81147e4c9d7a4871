"""What crates above see of a file of a crate, as texts, and where its words lead to."""

import os
import re

from edits_read import KIND, braces, functions_of

# Comments, and what may hold the same signs: strings and characters. The next are of files of
# src/, and from WRITTEN_IMPORT on of files of specs/ and proofs/, in which a block is a definition or a lemma.
RUST = re.compile(rb"""//[^\n]*|/\*.*?\*/|b?r(#*)".*?"\1|b?"(?:\\.|[^"\\])*"|b?'(?:\\[^\n]+?|[^'\\\n])'""", re.S)
ANTT = re.compile(rb'"(?:\\.|[^"\\\n])*"|(?<!\S)--[^\n]*|\{-.*?-\}', re.S)
TACTICS = re.compile(rb"#\[tactic\((?:[^()]|\([^()]*\))*\)\]")
TESTS = re.compile(rb"(?m)^#\[cfg\(test\)\]\s*(?:pub )?mod \w+ \{")
MODEL = re.compile(rb"(?m)^impl\b[^{;]*\bModel for (\w+)[^{;]*\{")
OF_FIELDS = re.compile(rb"(?m)^ *ghost (?:view|invariant) = \{")
IMPORT = re.compile(r"(?m)^[ \t]*(?:pub(?:\([^)]*\))? )?(ghost )?use ([^;]+);")
DEFINED = re.compile(r"\b(?:struct|enum|union|trait|type|const|static|fn) (\w+)")
IMPLEMENTED = re.compile(r"(?m)^(?:unsafe )?impl\b([^{;]*)\{")
EMPTY = re.compile(r"(?m)^impl\b(?:(?! for )[^{;])*\{\s*\}")
WRITTEN_IMPORT = re.compile(r"(?m)^(?:pub )?use ([^\n]+(?:\n +[^\n]+)*)")
WORDS_BEFORE = r"((?:(?:abbrev|unfoldable|opaque|pub|record|data)\s+)*)"
HEAD_OF_BLOCK = re.compile(rf"{WORDS_BEFORE}([^\s:({{]+)?")
MEMBER = re.compile(rf"(?m)^ +{WORDS_BEFORE}([^\s:(){{}}]+)(?: [^:=→]*)? :")
WORD = re.compile(r"[^\s(){}\[\],;.:<>&!?=*+|/\"⟦⟧«»]+")
GHOST_PATH = re.compile(r"\bRattle\.(\w+)\.([\w.]+)")
RUST_PATH = re.compile(r"(?<![\w:])(\w+)((?:::\w+)+)")


def blanked(found):
    return re.sub(rb"[^\n]", b" ", found[0])


def without_comments(text, tokens, opens):
    """The text with blanks in place of comments, and the same with blanks in place of strings too."""
    kept = tokens.sub(lambda it: blanked(it) if it[0].startswith(opens) else it[0], text)
    return kept, tokens.sub(blanked, text)


def without_places(text, places):
    """The text without these places, each where it begins and ends; they may overlap."""
    kept = bytearray(text)
    for begins, ends in places:
        kept[begins:ends] = re.sub(rb"[^\n]", b" ", text[begins:ends])
    return bytes(kept)


def private_parts(code, pairs, functions):
    """The places of what a file of src/ has that is not seen from above."""
    ends = {begins: end for end, begins in pairs.items()}
    yield from (it.span() for it in TACTICS.finditer(code))
    for it in TESTS.finditer(code):
        yield it.start(), ends[it.end() - 1] + 1
    for it in functions:
        if not it.is_seen:
            yield it.starts, it.ends + 1
        elif not it.is_const:
            yield it.begins, it.ends
    modelled = {it[1] for it in MODEL.finditer(code)}
    for it in MODEL.finditer(code):
        for part in OF_FIELDS.finditer(code, it.end(), ends[it.end() - 1]):
            yield part.start(), ends[part.end() - 1] + 2
    for it in KIND.finditer(code):
        if it[1] in modelled:
            yield from private_fields(code, it.end(), ends)


def private_fields(code, at, ends):
    """The places of the private fields of a struct, the text of which goes on here."""
    opens = re.compile(rb"[({;]").search(code, at)
    if opens[0] == b"(":
        yield opens.end(), code.index(b";", at)
    elif opens[0] == b"{":
        rows = [it.start() for it in re.compile(rb"(?m)^    \S").finditer(code, opens.end(), ends[opens.start()])]
        for begins, end in zip(rows, [*rows[1:], ends[opens.start()]]):
            if not code.startswith(b"pub ", begins + 4):
                yield begins, end


def face_of(text):
    """What is seen from above of a file of src/, with its imports: the text without the functions that are called by their
    names, and the texts of these, each with its name."""
    kept, code = without_comments(text, RUST, (b"//", b"/*"))
    pairs = braces(code)
    if pairs is None or b"macro_rules" in code:
        return kept.decode(), []
    functions = [*functions_of(code, pairs, "", None, {})]
    seen = without_places(kept, private_parts(code, pairs, functions))
    named = [it for it in functions if it.is_seen and not it.is_of_trait and not it.is_const]
    rest = without_places(seen, [(it.starts, it.ends + 1) for it in named]).decode()
    return rest, [(it.last, seen[it.starts : it.ends + 1].decode()) for it in named]


def names_of_tree(text, before=()):
    """The paths of a `use`, each as a tuple, and the name that it brings."""
    text = text.strip()
    head, brace, rest = text.partition("{")
    if not brace:
        path, _, alias = text.partition(" as ")
        path = (*before, *(it.strip() for it in path.split("::")))
        path = path[:-1] if path[-1] == "self" else path
        yield path, alias.strip() or path[-1]
        return
    before = (*before, *(it.strip() for it in head.split("::") if it.strip()))
    depth, part = 0, ""
    for sign in rest[: rest.rindex("}")] + ",":
        depth += (sign == "{") - (sign == "}")
        if sign == "," and not depth:
            yield from names_of_tree(part, before) if part.strip() else ()
            part = ""
        else:
            part += sign


def names_of_ghost(text):
    """The names that an import of antt brings, each with the path that it leads to."""
    head, brace, rest = text.partition("{")
    for it in rest.rpartition("}")[0].split(",") if brace else [""]:
        path, _, alias = f"{head.strip()}{it.strip()}".partition(" as ")
        words = GHOST_PATH.match(path)
        if words:
            last = path[words.end() :].strip(".")
            path = (words[1], *words[2].strip(".").split("."), *([last] if last else []))
            yield alias.strip() or path[-1], path


class Part:
    """What counts by itself of a file: a definition or a lemma with all that it says, a function that is called by its name,
    or the rest of the face of a file of src/.

    paths  what it may lead to, each as words that begin with a crate's name
    call   the function's name, without which nobody calls it, or None
    """

    def __init__(self, key, text, paths, call=None):
        self.key, self.text, self.paths, self.call = key, text, paths, call


class Written:
    """A file of specs/ or proofs/: its definitions and lemmas, by the names that each brings, and its imports."""

    def __init__(self, crate, _, path, text):
        kept = without_comments(text, ANTT, (b"--", b"{-"))[0].decode()
        self.imports = dict(written_imports(kept))
        self.parts, self.named = [], {}
        here = (crate, *path.removesuffix(".antt").split("/"))
        blocks, common = blocks_of(WRITTEN_IMPORT.sub("", kept))
        names = {name: names_in(name, text) for name, text in blocks.items()}
        known = {it: (*here, it) for its in names.values() for it in its} | self.imports
        for name, text in blocks.items():
            paths = {it for _, it in cited_in(text, known.items())} | plain_paths(text)
            part = Part(f"{crate}/{path}: {name}", common + text, paths)
            self.parts.append(part)
            for it in names[name]:
                self.named.setdefault(it, []).append(part)


def blocks_of(text):
    """What a file of specs/ or proofs/ says of each name that it defines, and what it says of none."""
    blocks, common, last = {}, "", None
    for block in re.split(r"(?m)^(?=\S)", text):
        block = "\n".join(it.rstrip() for it in block.split("\n") if it.strip())
        head = HEAD_OF_BLOCK.match(block)
        if not block or block.startswith(("mod ", "pub mod ")):
            continue
        if block.startswith("infix"):
            common += block
        elif block.startswith("module "):
            last = f"module {len(blocks)}"
            blocks[last] = block
        elif head[1] or head[2] not in blocks and re.match(r"\S+ :", block):
            last = head[2]
            blocks[last] = blocks.get(last, "") + f"\n{block}"
        else:
            last = head[2] if head[2] in blocks else last
            blocks[last] = blocks.get(last, "") + f"\n{block}"
    return blocks, common


def names_in(name, text):
    """The names that a block brings: its own, and those of the fields or variants in it."""
    has_members = re.match(r"\s*(module|(\w+ )*(record|data)) ", text)
    return {str(name), *(it[2] for it in MEMBER.finditer(text) if has_members)}


def cited_in(text, known):
    """Those of the names and their paths that a text cites. One with holes or signs is cited by what stands between them."""
    words = {*WORD.findall(text)}
    is_cited = lambda it: it in words if WORD.fullmatch(it) else all(part in text for part in it.split("◌") if part)
    return [(name, path) for name, path in known if is_cited(name)]


def plain_paths(text):
    return {(it[1], *it[2].strip(".").split(".")) for it in GHOST_PATH.finditer(text)}


def written_imports(text):
    """The names that the imports of a file of specs/ or proofs/ bring, each with the path that it leads to."""
    for tree in WRITTEN_IMPORT.findall(text):
        yield from names_of_ghost(tree)


class Face:
    """A file of src/ as it is seen from above, the names that it defines, and those of what it implements."""

    def __init__(self, crate, folder, path, text):
        rest, functions = face_of(text)
        self.key, self.place = f"{crate}/{path}", Place(crate, folder, path)
        self.imports = [*self.place.imports(rest)]
        rest = IMPORT.sub("", rest)
        self.parts = [self.part(None, EMPTY.sub("", rest)), *(self.part(*it) for it in functions)]
        self.defines = {*DEFINED.findall(rest)} | {name for name, _ in functions}
        self.implements = {word for it in IMPLEMENTED.finditer(rest) for word in re.findall(r"\w+", it[1])}

    def part(self, call, text):
        """What these words of the file say by its imports."""
        cited = cited_in(text, self.imports)
        said = " ".join(text.split()) + "".join(sorted(f"\n{name}: {path}" for name, path in cited))
        paths = {it for _, it in cited} | self.place.paths(text)
        return Part(f"{self.key}: {call}" if call else self.key, said, paths, call)


class Place:
    """A file of src/ of a crate, from which paths of Rust lead."""

    def __init__(self, crate, folder, path):
        self.crate, self.folder = crate, folder
        self.module = [it for it in path[4:-3].split("/") if it not in ("lib", "main", "mod")]

    def absolute(self, path):
        """A path of Rust that stands here, from the crate's name on."""
        ups = [it for it in path if it in ("self", "super")]
        if path[0] == "crate":
            return (self.crate, "src", *path[1:])
        if ups:
            return (self.crate, "src", *self.module[: len(self.module) - ups.count("super")], *path[len(ups) :])
        below = "/".join(("src", *self.module, path[0]))
        if any(os.path.isfile(f"{self.folder}/{below}{it}") for it in (".rt", "/mod.rt")):
            return (self.crate, "src", *self.module, *path)
        return (path[0], "src", *path[1:])

    def imports(self, text):
        """The names that the imports of a text that stands here bring, each with the path that it leads to."""
        for ghost, tree in IMPORT.findall(text):
            if ghost:
                yield from names_of_ghost(tree)
            else:
                yield from ((name, self.absolute(it)) for it, name in names_of_tree(tree))

    def paths(self, text):
        """What the paths of a text that stands here lead to, but for its imports."""
        found = {(it[1], *it[2].split("::")[1:]) for it in RUST_PATH.finditer(text)}
        return plain_paths(text) | {self.absolute(it) for it in found}
