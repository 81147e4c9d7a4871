"""What a script has made on its desk, as far as a loop of events has to know it. It is learned from the script's lines and
their answers, as they come; what a desk tells of itself, as the place of a window, is not kept here."""

import re
from dataclasses import dataclass

WORD = re.compile(r'"[^"]*"|[^ ]+')

# A point at which no button, menu, box or desktop is, so that what is tracked ends there with nothing chosen.
NOWHERE = "-16384 -16384"

# How many columns may lie between the view of a text record and its scroll bar.
FARTHEST_BAR = 8

# The characters of a menu's items that take the character after them, and the one that stands alone.
SIGNS = "!/^<"
DISABLES = "("


@dataclass
class Control:
    """A control, with its place and size in its window's content."""

    number: int
    window: int
    kind: str
    left: int
    top: int
    width: int
    height: int
    title: str

    def covers(self, h, v):
        """Whether its rectangle has a point of the content."""
        return self.left <= h < self.left + self.width and self.top <= v < self.top + self.height


@dataclass
class Layer:
    """A list or a text record, with its view in its window's content. Of two the one with the lesser age was made first."""

    age: int
    number: int
    window: int
    left: int
    top: int
    width: int
    height: int

    def covers(self, h, v):
        """Whether its view has a point of the content."""
        return self.left <= h < self.left + self.width and self.top <= v < self.top + self.height


@dataclass
class List(Layer):
    """A list, with the size of its cells, and the numbers of its scroll bars, 0 for none."""

    cell_width: int
    cell_height: int
    vertical: int
    horizontal: int

    def nearest(self, h, v):
        """The point of its view that is nearest to a point of the content."""
        right, bottom = self.left + self.width - 1, self.top + self.height - 1
        return max(self.left, min(right, h)), max(self.top, min(bottom, v))

    def place_of(self, h, v):
        """How many columns and rows of cells lie in its view before the one that a point of the view belongs to."""
        return (h - self.left) // self.cell_width, (v - self.top) // self.cell_height

    def whole(self, vertical):
        """How many rows, or columns, its view shows whole, and at least one."""
        count = self.height // self.cell_height if vertical else self.width // self.cell_width
        return max(1, count)


@dataclass
class Text(Layer):
    """A text record, whether it is active, and when it became so last: the number is greater for the one that did later."""

    is_active: bool = False
    used: int = 0

    def has_beside(self, control):
        """Whether a control stands at the right side of its view, as its scroll bar does: higher than wide, not farther than
        this from the view, and not wholly above or below it."""
        is_near = 0 <= control.left - self.left - self.width <= FARTHEST_BAR and control.width < control.height
        return is_near and control.top < self.top + self.height and self.top < control.top + control.height


@dataclass
class Menu:
    """A menu, with the texts of its items."""

    title: str
    items: list


def words_of(line):
    """The words of a line, a text with its quotes."""
    return WORD.findall(line.decode("latin-1").removesuffix("\r"))


def numbers_of(answer):
    """The numbers of an answer that gives some, or nothing where it is of another sort."""
    word, *rest = answer.decode("latin-1").split(" ")
    try:
        return [int(number) for number in rest] if word == "ok" else None
    except ValueError:
        return None


def text_of(item):
    """The text of an item of a menu, without its signs and what they take."""
    found, characters = "", iter(item)
    for character in characters:
        if character in SIGNS:
            next(characters, "")
        elif character != DISABLES:
            found += character
    return found


class Known:
    """The windows, controls, lists, text records and menus that are there, by their numbers, and the line that ends what is
    open: an update, the tracking of a box or a control, a menu that is pulled down, a window that is dragged or grown, or the
    selecting of text, which ends where the mouse was last."""

    def __init__(self):
        self.windows = {}
        # The numbers of those of the windows that float.
        self.floating = set()
        self.controls = {}
        self.lists = {}
        self.texts = {}
        self.menus = {}
        # How many controls, how many lists and text records, and how often one became active, were learned of.
        self.last_control = self.layers = self.uses = 0
        self.open = ""

    def learn(self, line, answer):
        """Learns from a line and its answer. One that is refused, and one that makes nothing, teach nothing."""
        words, numbers = words_of(line), numbers_of(answer)
        if words and numbers is not None and words[0] in LEARNED:
            LEARNED[words[0]](self, words, numbers)

    def controls_of(self, window):
        """The controls of a window, the oldest first."""
        return [control for _, control in sorted(self.controls.items()) if control.window == window]

    def layers_of(self, window):
        """The lists and text records of a window, the oldest first."""
        layers = [its for its in (*self.lists.values(), *self.texts.values()) if its.window == window]
        return sorted(layers, key=lambda its: its.age)

    def texts_of(self, window):
        """The text records of a window, the oldest first."""
        return [its for its in self.layers_of(window) if isinstance(its, Text)]

    def list_with(self, control):
        """The list whose scroll bar a control is, or none."""
        found = [its for its in self.lists.values() if control in (its.vertical, its.horizontal)]
        return found[0] if found else None

    def bar_of(self, text):
        """The scroll bar at the right side of a text record, or none."""
        bars = [it for it in self.controls_of(text.window) if it.kind == "scroll" and not self.list_with(it.number)]
        return next(filter(text.has_beside, bars), None)

    def text_with(self, control):
        """The text record whose scroll bar a control is, or none."""
        texts = self.texts_of(self.controls[control].window)
        return next((its for its in texts if (bar := self.bar_of(its)) and bar.number == control), None)

    def radio_group(self, number):
        """The numbers of a radio button and of those of its window that stand with it: they were made one after the other,
        with no control of another kind of that window between them."""
        groups = [[]]
        for control in self.controls_of(self.controls[number].window):
            if control.kind == "radio":
                groups[-1].append(control.number)
            else:
                groups.append([])
        return next(group for group in groups if number in group)

    def window_made(self, words, numbers):
        self.windows[numbers[0]] = words[8][1:-1]

    def float_made(self, words, numbers):
        self.window_made(words, numbers)
        self.floating.add(numbers[0])

    def window_titled(self, words, _):
        self.windows[int(words[1])] = words[2][1:-1]

    def window_closed(self, words, _):
        window = int(words[1])
        self.windows.pop(window, None)
        self.floating.discard(window)
        self.controls = {key: control for key, control in self.controls.items() if control.window != window}
        self.lists = {key: its for key, its in self.lists.items() if its.window != window}
        self.texts = {key: its for key, its in self.texts.items() if its.window != window}

    def next_age(self):
        self.layers += 1
        return self.layers

    def add_control(self, window, kind, place, title):
        """A control is made; its number is the next one, which is the answer."""
        self.last_control += 1
        self.controls[self.last_control] = Control(self.last_control, window, kind, *place, title)
        return self.last_control

    def control_made(self, words, _):
        self.add_control(int(words[1]), words[2], map(int, words[3:7]), words[11][1:-1])

    def control_titled(self, words, _):
        self.controls[int(words[2])].title = words[3][1:-1]

    def control_moved(self, words, _):
        control = self.controls[int(words[2])]
        control.left, control.top = map(int, words[3:5])

    def control_sized(self, words, _):
        control = self.controls[int(words[2])]
        control.width, control.height = map(int, words[3:5])

    def control_disposed(self, words, _):
        self.controls.pop(int(words[2]), None)

    def list_made(self, words, numbers):
        window, sizes = int(words[1]), [int(word) for word in words[3:9]]
        left, top, width, height = sizes[:4]
        vertical = horizontal = 0
        if words[11] == "1":
            vertical = self.add_control(window, "scroll", (left + width, top, 16, height), "")
        if words[12] == "1":
            horizontal = self.add_control(window, "scroll", (left, top + height, width, 16), "")
        self.lists[numbers[0]] = List(self.next_age(), numbers[0], window, *sizes, vertical, horizontal)

    def list_disposed(self, words, _):
        its = self.lists.pop(int(words[2]))
        for control in (its.vertical, its.horizontal):
            self.controls.pop(control, None)

    def text_made(self, words, numbers):
        self.texts[numbers[0]] = Text(self.next_age(), numbers[0], int(words[1]), *map(int, words[5:9]))

    def text_placed(self, words, _):
        its = self.texts[int(words[2])]
        its.left, its.top, its.width, its.height = map(int, words[6:10])

    def text_turned(self, words, _):
        its = self.texts[int(words[2])]
        its.is_active = words[3] == "1"
        if its.is_active:
            self.uses += 1
            its.used = self.uses

    def text_disposed(self, words, _):
        self.texts.pop(int(words[2]), None)

    def menu_made(self, words, _):
        self.menus[int(words[1])] = Menu(words[2][1:-1], [])

    def menu_grown(self, words, _):
        self.menus[int(words[1])].items += [text_of(item) for item in words[2][1:-1].split(";") if item]

    def item_named(self, words, _):
        self.menus[int(words[1])].items[int(words[2]) - 1] = words[3][1:-1]

    def menu_disposed(self, words, _):
        self.menus.pop(int(words[1]), None)

    def begun(self, words, numbers):
        """Something is open from now on, but for what answers that it is not."""
        if numbers[:1] != [0]:
            self.open = f"end {words[1]}" if words[0] == "begin" else f"{ENDS[words[0]]} {NOWHERE}"

    def selecting(self, words, numbers):
        """Text is selected from now on, or is selected on, and the mouse is at this point."""
        if words[0] == "tstep" or numbers == [1]:
            self.open = "tend {} {}".format(*(words[1:3] if words[0] == "tstep" else words[3:5]))

    def ended(self, *_):
        self.open = ""


ENDS = {"goaway": "gaend", "ctrack": "ctend", "mdown": "mup", "drag": "dragend", "grow": "growend"}
LEARNED = {
    "window": Known.window_made,
    "float": Known.float_made,
    "title": Known.window_titled,
    "close": Known.window_closed,
    "control": Known.control_made,
    "ctitle": Known.control_titled,
    "cmove": Known.control_moved,
    "csize": Known.control_sized,
    "cdispose": Known.control_disposed,
    "list": Known.list_made,
    "ldispose": Known.list_disposed,
    "text": Known.text_made,
    "tplace": Known.text_placed,
    "tactive": Known.text_turned,
    "tdispose": Known.text_disposed,
    "menu": Known.menu_made,
    "mappend": Known.menu_grown,
    "mitem": Known.item_named,
    "mdispose": Known.menu_disposed,
    **dict.fromkeys(("begin", *ENDS), Known.begun),
    **dict.fromkeys(("tclick", "tstep"), Known.selecting),
    **dict.fromkeys(("end", "tend", *ENDS.values()), Known.ended),
}
