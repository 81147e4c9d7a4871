"""The rows whose growths of memory are refused, and what is asked for the state of the desk in each: a part of growths."""

import itertools
import os
import re
import subprocess

from growths_program import ALL, MOST_COPIES, NONE, each, questions, refusal, refusal_on
from preloaded import ROWS, read

from desk_kit.answers import LONGEST_SHOWN, Fault, answers_to, commands_of
from desk_kit.rows import folders_in
from place import TOP

FOLDERS = (*folders_in(ROWS), os.path.join(TOP, "examples"))
# In a row with more commands than this a copy of the program is given so many after the refused one, and not all.
LONG = 100
AFTER = 20
# A row with a longer line is left out, since a read does not have it whole.
LONGEST_READ = 4095
# Of a list that never has more cells than this each cell is asked for, and of a larger one those that its row names.
MOST_CELLS = 32

# The desk that another first command makes.
DEFAULT_DESK = b"desk 512 342 20"
NO_MEMORY = b"refused 1 NoMemory\n"
BUSY = b"refused 11 Busy\n"
# The commands that open a window.
WINDOWS = (b"window", b"float")
# The commands that are never refused for want of memory.
WITHOUT_MEMORY = set(
    b"image find frontwin info drawp drawl drawc end post next avail flush setmask"
    b" menu mitem minsert mdelete mdispose menable mdisable mcheck mdown mmove mup mkey mhilite"
    b" cvalue cmin cmax chilite ctitle cget findc ctest ctrack ctstep ctend"
    b" lgetsel lnext lsearch ldraw drag dragstep grow growstep growend"
    b" drawt tdelete tselect tactive tidle tjust tscroll tview tclick tstep tend"
    b" tinfo tline tpoint toffset textwidth fontinfo".split()
)
# Those that may be so only while the drawing of their list is off.
WITH_MEMORY_UNDRAWN = set(b"ldelrow ldelcol lclear lsetsel lclick lscroll".split())
# Those that may want memory and change nothing.
ASKING = set(b"visrgn updatergn region lget tget scrap".split())
# The commands that name a cell of a list, each with the places of its column and its row among its words.
CELLS = {
    **dict.fromkeys((b"lset", b"ladd", b"lclear", b"lget", b"lsearch"), (3, 4)),
    **dict.fromkeys((b"lsetsel", b"lgetsel"), (4, 5)),
    b"lnext": (5, 6),
}
# What asks for the first event of the mouse button and the keys, and for the first update or activate event.
EVENTS = [b"avail 30", b"avail 320"]


def keys_in(command):
    """The letters and digits that are keys of the items which a command appends, if it does."""
    return re.findall(rb"/([A-Za-z0-9])", command) if command.startswith(b"mappend ") else []


class Row:
    """A row: its commands with their answers, and, once it was watched, the state of the desk after each."""

    def __init__(self, name, commands, answers, ahead, options):
        self.name = name
        self.commands = commands
        self.answers = answers
        # How many commands come before the one that makes the desk: nothing is asked before that is done.
        self.ahead = ahead
        # The words that the program is called with.
        self.options = options
        # What asks for the desk's state. One window more than there are shows whether a refused one is there after all.
        windows = sum(self.is_done(at) and self.words(at)[0] in WINDOWS for at in range(len(commands)))
        asking = [b"%s %d" % (verb, it) for it in range(1, windows + 2) for verb in (b"info", b"visrgn", b"updatergn")]
        # And what asks for the controls, lists and text records, each in the window in which it is made at some time.
        asking += [b"cget %s %d" % (window, number) for number, window in enumerate(self.windows_of_controls(), 1)]
        asking += [line for window, number in self.lists() for line in self.asking_of_list(window, number)]
        asking += [b"%s %d %d" % (verb, *text) for text in self.texts() for verb in (b"tinfo", b"tget")]
        asking += [b"scrap"] * any(self.done(b"text", b"setscrap"))
        self.probes = [b"image", b"frontwin", *EVENTS, *asking]
        # What asks for the menus' items. A key that chooses one highlights its title, so these come after all else.
        self.keys = [b'mkey "%s"' % key for key in sorted({key for it in commands for key in keys_in(it)})]
        # The commands that come while the drawing of the list which they name is off.
        self.undrawn = set(self.places_undrawn())
        self.states = []
        self.growths = []
        # Of how many growths one is refused.
        self.step = 1

    def words(self, at):
        return self.commands[at].split(b" ")

    def is_done(self, at):
        """Whether the command at this place is not refused."""
        return not self.answers[at].startswith(b"refused ")

    def may_want_memory(self, at):
        verb = self.words(at)[0]
        without = verb in WITHOUT_MEMORY or (verb in WITH_MEMORY_UNDRAWN and at not in self.undrawn)
        return self.is_done(at) and not without

    def changes_with_memory(self, at):
        """Whether the command at this place may want memory and changes something."""
        return self.may_want_memory(at) and self.words(at)[0] not in ASKING

    def begins_without_memory(self, at):
        """Whether the command at this place changes nothing with memory, and the one before it does."""
        return not self.changes_with_memory(at) and (at == self.ahead + 1 or self.changes_with_memory(at - 1))

    def tried(self):
        """The places of the commands that are refused memory: those behind the one that makes the desk."""
        return range(self.ahead + 1, len(self.commands))

    def done(self, *verbs):
        """The words of the commands that are done and begin so, each with its place."""
        places = range(len(self.commands))
        return [(at, self.words(at)) for at in places if self.is_done(at) and self.words(at)[0] in verbs]

    def windows_of_controls(self):
        """The window of each control, in the order of their numbers: a list's scroll bars have the next ones."""
        for _, words in self.done(b"control", b"list"):
            yield from [words[1]] * (words[11:13].count(b"1") if words[0] == b"list" else 1)

    def lists(self):
        """The window and the number of each list."""
        return [(int(words[1]), int(self.answers[at].split()[1])) for at, words in self.done(b"list")]

    def texts(self):
        """The window and the number of each text record."""
        return [(int(words[1]), int(self.answers[at].split()[1])) for at, words in self.done(b"text")]

    def of_list(self, window, number, *verbs):
        """The words of the commands that are done, begin so and name this list."""
        named = [words for _, words in self.done(*verbs)]
        return [words for words in named if (int(words[1]), int(words[2])) == (window, number)]

    def cells(self, window, number):
        """The cells of a list that are asked for: those that it may have at some time, or those that the row names."""
        (made,) = [words for at, words in self.done(b"list") if int(self.answers[at].split()[1]) == number]
        rows = int(made[9]) + sum(int(words[3]) for words in self.of_list(window, number, b"laddrow"))
        columns = int(made[10]) + sum(int(words[3]) for words in self.of_list(window, number, b"laddcol"))
        if rows * columns <= MOST_CELLS:
            return list(itertools.product(range(columns), range(rows)))
        named = [(words, CELLS[words[0]]) for words in self.of_list(window, number, *CELLS)]
        return sorted({(int(words[column]), int(words[row])) for words, (column, row) in named})

    def asking_of_list(self, window, number):
        """What asks for a list: its data and its selection, and behind which cell a column or a row ends."""
        yield b"lgetsel %d %d 1 0 0" % (window, number)
        for cell in self.cells(window, number):
            for asks in (b"lget %d %d", b"lgetsel %d %d 0", b"lnext %d %d 1 0", b"lnext %d %d 0 1"):
                yield asks % (window, number) + b" %d %d" % cell

    def places_undrawn(self):
        """The places of the commands that come while the drawing of the list which they name is off."""
        off = set()
        for at, words in self.done(b"ldraw", *WITH_MEMORY_UNDRAWN):
            named = (int(words[1]), int(words[2]))
            if words[0] == b"ldraw":
                (off.add if words[3] == b"0" else off.discard)(named)
            elif named in off:
                yield at

    def watch(self, program):
        """Runs the row with nothing refused, and keeps the desk's state after each command and how many growths that
        made."""
        asked = [line for command in self.commands[self.ahead :] for line in (command, *self.probes)]
        lines = [*self.commands[: self.ahead], *asked]
        text, told = program.run(lines, *self.options)
        answers = answers_to(lines, text)
        step = 1 + len(self.probes)
        places = [*range(self.ahead), *range(self.ahead, len(lines), step)]
        if [answers[at] for at in places] != self.answers:
            raise Fault("where its state is asked for after each command, it is answered otherwise")
        self.states = [answers[at + 1 : at + step] if at >= self.ahead else [] for at in places]
        self.growths = [told[at][0] for at in places]

    def asked(self, begin, end=None):
        """These commands, with their answers."""
        return list(zip(self.commands[begin:end], self.answers[begin:end]))

    def state(self, at):
        """What asks for the desk's state, with the answers after the command at this place."""
        return list(zip(self.probes, self.states[at]))

    def refused(self, at):
        """The command at this place where it is refused memory, and what asks for the state then, with their answers:
        these come before rest. Nothing where the command is answered as ever."""
        if self.may_want_memory(at):
            return [(self.commands[at], NO_MEMORY), *self.state(at - 1)]
        return []

    def rest(self, at, end=None):
        """The command at this place, what asks for the state then, and the commands after it, with their answers."""
        return [*self.asked(at, at + 1), *self.state(at), *self.asked(at + 1, end)]

    def rest_of_copies(self, at):
        """That of which a long row has but a few of the commands after it."""
        return self.rest(at, at + 1 + AFTER if len(self.commands) > LONG else None)

    def refusals(self, at):
        """The growths of the command at this place that are refused one by one, each or one of so many, as ranges: one for
        each run."""
        count = self.growths[at]
        growths = range((count - 1) % self.step + 1, count + 1, self.step)
        return [growths[begin : begin + MOST_COPIES] for begin in range(0, len(growths), MOST_COPIES)]

    def try_copies(self, program, at, asked, rest):
        """Refuses growths of the command at this place one by one, in a copy of the program each. The copies are given
        these lines and the rest, and then the program itself the rest."""
        begin = self.asked(0, at)
        for growths in self.refusals(at):
            lines = [*questions(begin), *each(growths, questions(asked)), *questions(rest)]
            copies = [(f"with growth {growth} refused", asked + rest) for growth in growths]
            parts = [("before it", begin), *copies, ("with none refused", rest)]
            count = program.tries(lines, parts, *self.options)
            if count != len(growths):
                raise Fault(f"{count} growths were refused in {len(growths)} copies")

    def try_each(self, program, at):
        """Refuses the growths of the command at this place one by one."""
        self.try_copies(program, at, self.refused(at), self.rest_of_copies(at))

    def try_all(self, program, at):
        """Refuses the growths of the command at this place all together."""
        begin, rest = self.asked(0, at), [*self.refused(at), *self.rest(at)]
        lines = [*questions(begin), refusal(1, ALL), *questions(rest)]
        if not program.tries(lines, [("before it", begin), ("with all growths refused", rest)], *self.options):
            raise Fault("no growth was refused")

    def without_memory(self, begin, end):
        """These commands, with their answers where all growths are refused. None of them changes something with memory,
        except the last, maybe."""
        wanting = (self.may_want_memory(at) and self.growths[at] > 0 for at in range(begin, end))
        return [(line, NO_MEMORY if it else answer) for (line, answer), it in zip(self.asked(begin, end), wanting)]

    def try_on(self, program, at):
        """Refuses all growths from the command at this place on, up to the next that changes something with memory."""
        places = range(at, len(self.commands))
        end = next((it for it in places if self.changes_with_memory(it)), len(self.commands))
        is_refused = end < len(self.commands) and self.growths[end] > 0
        begin, refused = self.asked(0, at), self.without_memory(at, end + is_refused)
        rest = [*self.state(end - 1), *self.asked(end)]
        lines = [*questions(begin), refusal_on(1, ALL), *questions(refused), refusal_on(NONE, NONE), *questions(rest)]
        what = "with all growths refused from it on"
        program.tries(lines, [("before it", begin), (what, refused), (f"{what}, and then granted", rest)], *self.options)

    def chosen(self, program, at):
        """What the keys choose after the command at this place, with nothing refused."""
        lines = [*self.commands[: at + 1], *self.keys]
        return answers_to(lines, program.run(lines, *self.options)[0])[at + 1 :]

    def try_keys(self, program, at):
        """Refuses the growths of the command at this place one by one, and asks what the keys choose then."""
        self.try_copies(program, at, [(self.commands[at], NO_MEMORY), *zip(self.keys, self.chosen(program, at - 1))], [])

    def fault(self, program, at):
        """What goes wrong where the command at this place is refused memory, alone or with those after it, if anything
        does."""
        try:
            if self.begins_without_memory(at):
                self.try_on(program, at)
            if self.growths[at]:
                self.try_all(program, at)
                self.try_each(program, at)
                if self.keys and self.may_want_memory(at):
                    self.try_keys(program, at)
        except (Fault, subprocess.TimeoutExpired) as fault:
            command = self.commands[at][:LONGEST_SHOWN]
            return f"{self.name}: command {at + 1}, {command!r}, of {self.growths[at]} growths: {fault}"
        return None


def on_a_desk(commands, answers):
    """Commands with their answers, where the first is what makes the desk, behind those that come before it; None where no
    command makes one, or not the first. A version may come before it. Where the first makes the desk that none names, the
    line that names it is put there."""
    ahead = int(commands[0].startswith(b"version"))
    made = [answer for command, answer in zip(commands, answers) if command.startswith(b"desk ")]
    if all(answer == BUSY for answer in made):
        return [*commands[:ahead], DEFAULT_DESK, *commands[ahead:]], [*answers[:ahead], b"ok\n", *answers[ahead:]], ahead
    begins = commands[ahead:] and commands[ahead].startswith(b"desk ") and answers[ahead] == b"ok\n"
    return (commands, answers, ahead) if begins else None


def options_of(path, fonts):
    """The words that the row with this path is called with: those for its font, which is put in this folder."""
    digits = read(path + ".font")
    if digits is None:
        return []
    font = os.path.join(fonts, os.path.basename(path))
    with open(font, "wb") as file:
        file.write(bytes.fromhex(digits.decode()))
    return ["--font", font]


def row_of(path, fonts):
    """The row with this path, without its ending, or None where it is none for this test."""
    script = read(path + ".desk")
    commands = [command.text for command in commands_of(script)]
    if not commands or max(map(len, commands)) > LONGEST_READ:
        return None
    if not script.endswith(b"\n") or any(read(path + ending) is not None for ending in (".args", ".status")):
        return None
    found = on_a_desk(commands, answers_to(commands, read(path + ".out")))
    return found and Row(os.path.basename(path), *found, options_of(path, fonts))


def rows(fonts):
    """The rows that may be tried, those with the most commands first. Their fonts are put in this folder."""
    scripts = [os.path.join(folder, file) for folder in FOLDERS for file in sorted(os.listdir(folder))]
    found = [row_of(path, fonts) for path, ending in map(os.path.splitext, scripts) if ending == ".desk"]
    return sorted(filter(None, found), key=lambda row: -len(row.commands))
