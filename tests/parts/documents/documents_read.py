"""How a document is read: its blocks with their lines, its words, links, anchors and code, as GitHub takes them."""

import re
from collections import namedtuple
from urllib.parse import unquote

# A block of a document: a 'heading', a 'paragraph', an 'item', a 'cell' or a line of 'code', and the line where it begins.
Block = namedtuple("Block", "kind line text")
# Something in a block: where it stands, and what it says.
Found = namedtuple("Found", "line text")

FENCE = re.compile(r" *(?:[-*+] +|\d+[.)] +)?(```+|~~~+)")
COMMENT = re.compile(r"<!--.*?(?:-->|\Z)", re.DOTALL)
HEADING = re.compile(r" {0,3}#{1,6} +(.*?)(?: +#+)? *$")
ITEM = re.compile(r"( *)([-*+]|\d+[.)])( +)")
RULE = re.compile(r" {0,3}([-*_])( *\1){2,} *$")
ROW = re.compile(r" *\|.*\| *$")
CELL = re.compile(r"(?<!\\)\|")
CODE = re.compile(r"(?<!`)(`+)(?!`)(.+?)(?<!`)\1(?!`)", re.DOTALL)
LINK = re.compile(r"\]\(\s*(?:<([^>]*)>|([^()\s]*(?:\([^()\s]*\)[^()\s]*)*))(?:\s+(?:\"[^\"]*\"|'[^']*'))?\s*\)")
NAMED = re.compile(r"(?m)^ {0,3}\[[^\]]+\]:\s*<?([^\s>]+)")
TAG = re.compile(r"<(?:a|img)\b[^>]*?\b(?:href|src)\s*=\s*[\"']([^\"']*)[\"']", re.IGNORECASE)
PLACE = re.compile(r"<[^>]*?\b(?:id|name)\s*=\s*[\"']([^\"']*)[\"']", re.IGNORECASE)


def count_words(text):
    """How many words a text has: what stands between blanks, and has a letter or a digit. A link counts as its text."""
    return sum(1 for word in re.sub(r"\]\([^)]*\)", "]", text).split() if re.search(r"\w", word))


def blanked(text):
    """The text with blanks in place of all but its newlines."""
    return re.sub(r"[^\n]", " ", text)


def spans_in(block):
    """The code in this block that stands in single backquotes."""
    for it in CODE.finditer(block.text):
        if it[1] == "`":
            line = block.line + block.text.count("\n", 0, it.start())
            yield Found(line, re.sub(r"\s+", " ", it[2]).strip())


def links_in(block):
    """Where the links and pictures of this block lead."""
    text = CODE.sub(lambda it: blanked(it[0]), block.text)
    for pattern in (LINK, NAMED, TAG):
        for it in pattern.finditer(text):
            target = next((word for word in it.groups() if word), "")
            yield Found(block.line + text.count("\n", 0, it.start()), target)


def anchor_of(heading):
    """The anchor that GitHub gives to a heading, where no other has the same."""
    text = re.sub(r"!?\[([^\]]*)\]\([^)]*\)", r"\1", heading)
    text = re.sub(r"<[^>]*>", "", CODE.sub(lambda it: it[2].replace("<", "\0"), text))
    return re.sub(r"[^\w\- ]", "", text.strip().lower()).replace(" ", "-")


def split_target(target):
    """A link's path and its anchor; the path is empty where the link stays in its document."""
    path, _, anchor = target.partition("#")
    return unquote(path.partition("?")[0]), unquote(anchor)


class Reader:
    """Reads a document line by line, and keeps the blocks that it has found."""

    def __init__(self, text):
        self.blocks = []
        self.open = None
        self.inside = 0
        self.fence = None
        self.after_blank = True
        lines = text.split("\n")
        for number, line in enumerate(without_comments(lines), 1):
            self.read(number, line)

    def add(self, kind, number, text):
        self.blocks.append(Block(kind, number, text))
        self.open = kind if kind in ("paragraph", "item") else None

    def read(self, number, line):
        """Takes the next line."""
        fence = FENCE.match(line)
        if self.fence:
            if fence and fence[1].startswith(self.fence) and line.strip() == fence[1]:
                self.fence = None
            else:
                self.add("code", number, line)
        elif fence:
            self.fence, self.open = fence[1], None
        elif not line.strip():
            self.open, self.after_blank = None, True
        else:
            self.read_text(number, line)
            self.after_blank = False

    def read_text(self, number, line):
        """Takes a line that is neither empty nor fenced."""
        if self.after_blank and not line.startswith(" "):
            self.inside = 0
        item = ITEM.match(line)
        if self.open is None and self.after_blank and line.startswith(" " * (self.inside + 4)):
            # What follows such a line without an empty one between is code too, by the line below.
            self.add("code", number, line.strip())
        elif self.blocks and self.blocks[-1].kind == "code" and not self.after_blank and line.startswith("    "):
            self.add("code", number, line.strip())
        elif HEADING.match(line):
            self.add("heading", number, HEADING.match(line)[1])
        elif RULE.match(line):
            self.open = None
        elif ROW.match(line):
            if re.search(r"[^-:| ]", line):
                for cell in CELL.split(line.strip()[1:-1]):
                    self.add("cell", number, cell.strip())
        elif item:
            self.inside = len(item[0])
            self.add("item", number, line[len(item[0]):])
        elif self.open:
            last = self.blocks[-1]
            self.blocks[-1] = last._replace(text=f"{last.text}\n{line.strip()}")
        else:
            self.add("paragraph", number, line.strip().lstrip("> "))


def without_comments(lines):
    """The lines without what stands in HTML comments, but in fenced code."""
    fence, parts, text = None, [], []
    for line in lines:
        found = FENCE.match(line)
        if fence is None and found:
            parts.append(COMMENT.sub(lambda it: blanked(it[0]), "\n".join(text)) if text else None)
            fence, text = found[1], [line]
        elif fence and found and found[1].startswith(fence) and line.strip() == found[1]:
            parts.append("\n".join([*text, line]))
            fence, text = None, []
        else:
            text.append(line)
    if text:
        rest = "\n".join(text)
        parts.append(rest if fence else COMMENT.sub(lambda it: blanked(it[0]), rest))
    return "\n".join(part for part in parts if part is not None).split("\n")


class Document:
    """A document of the tree, read."""

    def __init__(self, path, text):
        self.path = path
        self.text = text
        self.blocks = Reader(text).blocks

    def prose(self):
        """The blocks that are no code."""
        return [it for it in self.blocks if it.kind != "code"]

    def words(self):
        """How many words it has, without its code and comments."""
        return sum(count_words(it.text) for it in self.prose())

    def links(self):
        return [link for block in self.prose() for link in links_in(block)]

    def spans(self):
        return [span for block in self.prose() for span in spans_in(block)]

    def code(self):
        return [Found(it.line, it.text) for it in self.blocks if it.kind == "code"]

    def anchors(self):
        """Every anchor to which a link may lead: of the headings, the second of the same words with -1, and of tags."""
        known = {}
        for it in self.blocks:
            if it.kind == "heading":
                anchor = anchor_of(it.text)
                count = known.get(anchor, 0)
                known[anchor] = count + 1
                if count:
                    known[f"{anchor}-{count}"] = 1
        return {*known, *PLACE.findall(self.text)}
