"""A talk with a desk at a terminal: what is typed, and what is shown of the answers. The words come from the manual."""

import os
import re
import textwrap

from desk_kit.answers import Command, shown
from desk_kit.braille import ACROSS, braille, shrunk, side_for
from desk_kit.driven import is_answered, rows_of
from desk_kit.forms import OF_FORM, Forms
from desk_kit.half_blocks import half_blocks
from desk_kit.lint import advice, name_of
from desk_kit.manual import DRAW, INNER
from desk_kit.markdown import blocks_of, plain
from desk_kit.pictures import png_of
from desk_kit.shown_desk import lines_of

# The words of the talk itself, each with its form and what it does. All others are the desk's.
OWN = {
    "help": ("help [COMMAND]", "shows the commands, or what the manual says of one"),
    "save": (
        "save FILE.png [SCALE] or save FILE.desk",
        "writes the screen as a PNG file, each pixel a square of SCALE by SCALE, from 1 to 16, or what was typed as a script",
    ),
    "quit": ("quit", "ends, as the end of the input does"),
    "exit": ("exit", "ends, as quit does"),
}
SAVED = re.compile(r"save (.+\.png)(?: ([1-9]|1[0-6]))?")
KEPT = re.compile(r"save (.+\.desk)")
# The names of the refusals that leave everything as it is, also where no desk is made so far.
WITHOUT_EFFECT = ("BadSyntax", "NoSuchName")
INDENT = "  "
BLACK_ON_WHITE, AS_BEFORE = "\033[30;107m", "\033[0m"
TABLE_GAP = 2


class Look:
    """What is known of the terminal: its columns and lines, 0 for any number, whether it has colors and the signs of Braille,
    and what makes a text of an image that it shows as a picture, if it shows such."""

    def __init__(self, columns=0, has_colors=False, lines=0, has_braille=True, painter=None):
        self.columns = columns
        self.has_colors = has_colors
        self.lines = lines
        self.has_braille = has_braille
        self.painter = painter

    def image(self, rows):
        """The lines that show an image, and those that say what does not show."""
        if self.painter:
            return [self.painter(rows)]
        side, shown_rows, characters = self.characters(rows)
        lines = characters(shown_rows)
        notes = []
        if side > 1:
            size = f"{len(rows[0])} by {len(rows)}"
            notes.append(f"(each dot stands for {side} by {side} of the {size} pixels; 'save FILE.png' keeps them all)")
        if self.lines and len(lines) + len(notes) >= self.lines:
            notes.append(f"(the image has {len(lines)} lines, and the terminal {self.lines}: scroll back to its top)")
        if self.has_colors:
            lines = [f"{BLACK_ON_WHITE}{line}{AS_BEFORE}" for line in lines]
        return lines + notes

    def characters(self, rows):
        """The side of the squares of an image that are shown as one dot each, the rows of these, and what makes lines of them:
        half blocks where the terminal is wide enough for them, and Braille elsewhere."""
        width = len(rows[0])
        is_wide = not self.columns or width <= self.columns
        if is_wide or not self.has_braille:
            side, characters = 1 if is_wide else side_for(width, self.columns), half_blocks
        else:
            side, characters = side_for(width, ACROSS * self.columns), braille
        return side, shrunk(rows, side) if side > 1 else rows, characters

    def wrapped(self, text, indent=""):
        """The lines of a text that are no wider than the terminal."""
        if not self.columns:
            return [indent + text]
        return textwrap.wrap(text, self.columns, initial_indent=indent, subsequent_indent=indent, break_on_hyphens=False)


class Unable(Exception):
    """A line is refused, by the desk or by the talk. It says what is shown of that."""


class Talk:
    """What is said to the lines that are typed, over a desk that is driven."""

    def __init__(self, desk, manual, look):
        self.desk = desk
        self.manual = manual
        self.forms = Forms(manual)
        self.look = look
        self.has_ended = False
        # The lines of the script that gives the same answers, how many were answered, and the first of these.
        self.kept, self.count, self.first = [], 0, None

    def run_script(self, script):
        """Runs the lines of a script, each of which is the desk's, and gives what is shown of each one that is refused."""
        for number, line in enumerate(lines_of(script), 1):
            try:
                self.ask(line)
            except Unable as why:
                yield f"{place_of(line, number)}{why}"

    def answer(self, line, number=None):
        """The lines that are shown for a line, bytes without a newline. One that is refused is named where it has a number."""
        # From the first such line on the talk's own words are commands too.
        self.forms.commands.update((word, form) for word, (form, _) in OWN.items())
        text = line.decode("latin-1").removesuffix("\r")
        word = text.split(" ")[0]
        try:
            return getattr(self, word)(text) if word in OWN else self.asked(line)
        except Unable as why:
            return [f"{place_of(line, number)}{why}"]

    def asked(self, line):
        """The lines that are shown for a line that is the desk's."""
        answer = self.ask(line)
        if answer.startswith(b"P1\n"):
            return self.look.image([row.decode() for row in rows_of(answer)])
        return [answer.decode("latin-1")] if answer else []

    def ask(self, line):
        """What the desk answers to a line, which is kept unless it is refused without an effect."""
        answer = self.desk.ask(line)
        command = Command(self.count + 1, line.removesuffix(b"\r"))
        if is_answered(line):
            self.count, self.first = command.line, self.first or command
        refused = answer.decode("latin-1") if answer.startswith(b"refused ") else ""
        if name_of(refused) not in WITHOUT_EFFECT:
            self.kept.append(line)
        if refused:
            raise Unable(refused + self.reason(command, refused))
        return answer

    def reason(self, command, answer):
        """Why a command is refused, in words, behind the answer."""
        meaning = self.manual.refusals.get(answer.partition(" ")[2], "")
        if name_of(answer) in OF_FORM:
            return advice(command, self.first, self.forms).said(meaning)
        return f": {meaning}" if meaning else ""

    def quit(self, line):
        if line not in ("quit", "exit"):
            raise Unable(self.form_of(line.split(" ")[0]))
        self.has_ended = True
        return []

    exit = quit

    def form_of(self, word):
        form, does = OWN[word]
        return f"{form}: {does}"

    def save(self, line):
        """Writes the screen to a file, or what was typed."""
        picture, script = SAVED.fullmatch(line), KEPT.fullmatch(line)
        if picture:
            return self.stored(picture[1], self.picture(int(picture[2] or 1)))
        if script:
            return self.stored(script[1], b"".join(it + b"\n" for it in self.kept))
        raise Unable(f"nothing is saved. {self.form_of('save')}")

    def picture(self, scale):
        """The screen as a PNG file. The command image is kept, because that may have made the desk."""
        try:
            rows = rows_of(self.ask(b"image"))
        except Unable as why:
            raise Unable(f"nothing is saved: {why}") from None
        return png_of([row.decode() for row in rows], scale)

    def stored(self, name, text):
        """Writes a file. Its name is that of a line, a character for each byte."""
        path = os.fsdecode(name.encode("latin-1"))
        try:
            with open(path, "wb") as file:
                file.write(text)
        except OSError as fault:
            raise Unable(f"nothing is saved: {path}: {fault.strerror}") from None
        return [f"saved {path}"]

    def help(self, line):
        """All commands, or the section of the manual on one."""
        words = line.split()
        if len(words) == 1:
            return self.all_commands()
        if len(words) > 2:
            raise Unable(self.form_of("help"))
        if words[1] in OWN:
            return [self.form_of(words[1])]
        if words[1] not in self.manual.forms:
            raise Unable(self.forms.reading(words[1]).unknown)
        heading, text = self.manual.section_of(words[1])
        return [plain(heading), "", *self.page(text)]

    def all_commands(self):
        """The forms of all commands with what they do, by their groups."""
        lines, group = [], ""
        for entry in self.manual.entries:
            if entry.group != group:
                group = entry.group
                lines += ["", group] if lines else [group]
            lines += self.look.wrapped(f"{' or '.join(entry.forms)}: {entry.does}", INDENT)
        lines += ["", "This prompt"]
        for word in OWN:
            lines += self.look.wrapped(self.form_of(word), INDENT)
        return lines

    def page(self, text):
        """A text of the manual, without its marks. An empty line parts its blocks, but items that follow each other."""
        lines, before = [], ""
        for block in blocks_of(text):
            if before and not before == block.kind == "item":
                lines.append("")
            lines += self.block(block)
            before = block.kind
        return lines

    def block(self, block):
        """The lines of a block of the manual."""
        if block.kind == "code":
            return [INDENT * 2 + line for line in block.lines]
        if block.kind == "table":
            return [line for row in block.rows() for line in self.row(row)]
        mark = "- " if block.kind == "item" else ""
        return self.look.wrapped(mark + plain(block.text()))

    def row(self, cells):
        """A row of a table, its cells behind each other."""
        return self.look.wrapped((" " * TABLE_GAP).join(plain(cell) for cell in cells if cell), INDENT)


def place_of(line, number):
    """The number of a line, and its text, before what is said of it; nothing where it has no number."""
    text = line.removesuffix(b"\r")
    return f"line {number}, {shown(text)}: " if number else ""


def completions(manual, before, word):
    """The words that begin with this one, and may follow what stands before it in the line. A blank is behind each that
    others have to follow, or may."""
    words = before.split()
    found = [it for it in next_words(manual, words) if it.startswith(word)]
    return [f"{it} " if has_more(manual, words, it) else it for it in found]


def has_more(manual, words, word):
    """Whether other words follow a word behind these."""
    if not words:
        return " " in (OWN[word][0] if word in OWN else manual.forms[word][0])
    return words != ["help"] and word not in manual.patterns


def next_words(manual, words):
    """The words that may follow these: commands, and where the manual names all that a word may be, these names."""
    if not words:
        return [*manual.forms, *OWN]
    if words == ["help"]:
        return [*manual.forms, *OWN]
    if words[0] == DRAW:
        return next_of_draw(manual, words[2:]) if len(words) > 1 else []
    place = placeholder(manual.forms[words[0]][0], len(words)) if words[0] in manual.forms else None
    if place == "KIND":
        return manual.kinds_of(words[0])
    return [*manual.inner[words[0]]] if place and place == INNER.get(words[0]) else []


def next_of_draw(manual, words):
    """The words that may follow these in a line of draw, behind its window."""
    if not words:
        return [*manual.operations, "clip"]
    if words[0] == "clip":
        return [] if len(words) == 1 else [*manual.operations] if len(words) == 2 else next_of_draw(manual, words[2:])
    if words[0] not in manual.operations:
        return []
    place = placeholder(manual.operations[words[0]], len(words))
    return {"MODE": manual.modes_of(words[0]), "PATTERN": manual.patterns}.get(place, [])


def placeholder(form, at):
    """The word at this place of a form, from 0, or nothing behind its end."""
    return dict(enumerate(form.split(" "))).get(at)
