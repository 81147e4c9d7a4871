"""What a program does with its text records: one of them gets the keys, and the items Cut, Copy, Paste, Clear and Select All; its
caret blinks, and a scroll bar beside it goes along."""

from desk_kit.text_tracking import EXTENDED, FROM_HERE, WORDS, TextTracking

SHIFT = 512

# The codes of the keys that a text record takes, beside those of characters: they delete, begin a line, or move the caret.
BACKSPACE, TAB, RETURN, LEFT, RIGHT, UP, DOWN = 8, 9, 13, 28, 29, 30, 31
TAKEN = (BACKSPACE, TAB, RETURN, LEFT, RIGHT, UP, DOWN)
FIRST_CHARACTER, DELETE = 32, 127

# What items of a menu are for, by their names in small letters: a command, what stands behind the number of the text record, and
# whether the point is to be seen then.
ITEMS = {
    "cut": ("tcut", "", True),
    "copy": ("tcopy", "", False),
    "paste": ("tpaste", "", True),
    "clear": ("tdelete", "", True),
    "select all": ("tselect", " 0 32767", False),
}

# The ticks that the caret is on, and off; those from the end of a click to a second one with which it is a double click; and how
# many columns and rows may lie between the two.
BLINK, DOUBLE_CLICK, NEARBY = 32, 32, 4


def is_taken(code):
    """Whether a text record takes the key of this code."""
    return code in TAKEN or (code >= FIRST_CHARACTER and code != DELETE)


class TextEditing:
    """The text records of a loop of events. The one that became active last is in use, as long as its window is in front, or
    floats."""

    def __init__(self, loop):
        self.loop, self.last_click = loop, None
        # Since when the caret blinks, and how often it was turned since then.
        self.since, self.turns = 0, 0

    def active(self):
        """The text records that are active, the one that became so last before all others."""
        texts = [it for it in self.loop.known.texts.values() if it.is_active]
        return sorted(texts, key=lambda it: -it.used)

    def in_use(self):
        """The text record that is in use, or none."""
        for text in self.active():
            if text.window in self.loop.known.floating or self.loop.numbers("frontwin") == [text.window]:
                return text
        return None

    def use(self, text):
        """Makes this text record the only one that is active."""
        for other in self.active():
            if other is not text:
                self.turn(other, 0)
        if not text.is_active:
            self.turn(text, 1)

    def turn(self, text, is_active):
        self.tell(text, "tactive", f" {is_active}")

    def tell(self, text, command, more=""):
        return self.loop.tell(f"{command} {text.window} {text.number}{more}")

    def window_turned(self, window, is_active):
        """A window became active, and so does the text record of it that was active last; or it is not any more."""
        texts = [it for it in self.loop.known.texts_of(window) if it.used]
        if is_active and texts:
            self.use(max(texts, key=lambda it: it.used))
            self.caret_is_on()
        elif not is_active:
            for text in texts:
                if text.is_active:
                    self.turn(text, 0)

    def clicked(self, text, left, top, event):
        """What follows the mouse where the button went down in a text record, which is in use from then on."""
        self.use(text)
        self.caret_is_on()
        mode = EXTENDED if event.modifiers & SHIFT else WORDS if self.is_double(text, event) else FROM_HERE
        return TextTracking(self.loop, text, left, top, mode)

    def was_clicked(self, text, event):
        """The button went up that went down in a text record."""
        self.last_click = text.number, event

    def is_double(self, text, event):
        """Whether a click comes soon after the last one, and at nearly the same place of the same text record."""
        if self.last_click is None or self.last_click[0] != text.number:
            return False
        last = self.last_click[1]
        is_near = abs(event.h - last.h) <= NEARBY and abs(event.v - last.v) <= NEARBY
        return is_near and event.when - last.when <= DOUBLE_CLICK

    def typed(self, code):
        """The text record that a key went to, or none."""
        text = self.in_use() if is_taken(code) else None
        if text:
            self.tell(text, "tkey", f" {code}")
            self.changed(text)
        return text

    def item_chosen(self, item):
        """The text record for which an item of a menu was chosen, or none."""
        text = self.in_use() if item.casefold() in ITEMS else None
        if text:
            command, more, is_seen = ITEMS[item.casefold()]
            self.tell(text, command, more)
            if is_seen:
                self.changed(text)
            self.caret_is_on()
        return text

    def changed(self, text):
        """The point is seen, and the scroll bar is set by where the text is then."""
        self.tell(text, "tview")
        self.set_bar(text)
        self.caret_is_on()

    def caret_is_on(self):
        """It blinks from now on, and is on first."""
        self.since, self.turns = self.loop.ticks(), 0

    def blink(self):
        """Turns the caret, where it is time to."""
        ticks = self.loop.ticks() - self.since
        if ticks // BLINK != self.turns:
            self.turns = ticks // BLINK
            text = self.in_use()
            if text:
                self.loop.tell_for_now(f"tidle {text.window} {text.number} {max(0, ticks)}")

    def line_height(self):
        """How many rows a line has."""
        return max(1, sum(self.loop.numbers("fontinfo")))

    def whole(self, text):
        """How many lines the view shows whole, and at least one."""
        return max(1, text.height // self.line_height())

    def set_bar(self, text):
        """Sets the scroll bar beside a text record, if there is one: its value goes up from its minimum by the number of lines
        above the view, and its values are so many that the last line comes into sight."""
        bar = self.loop.known.bar_of(text)
        if not bar:
            return
        *_, lines, _, top = self.loop.numbers(f"tinfo {text.window} {text.number}")
        above = max(0, -((top - text.top) // self.line_height()))
        value, least, most = self.loop.numbers(f"cget {bar.window} {bar.number}")[:3]
        last = least + max(above, lines - self.whole(text))
        if last != most:
            self.loop.tell(f"cmax {bar.window} {bar.number} {last}")
        if least + above != min(value, last):
            self.loop.tell(f"cvalue {bar.window} {bar.number} {least + above}")

    def scroll_to(self, text, value):
        """Scrolls a text record to where its scroll bar has this value, or the nearest one that it can have."""
        bar = self.loop.known.bar_of(text)
        _, least, most = self.loop.numbers(f"cget {bar.window} {bar.number}")[:3]
        *_, top = self.loop.numbers(f"tinfo {text.window} {text.number}")
        down = text.top - (max(least, min(most, value)) - least) * self.line_height() - top
        if down:
            self.tell(text, "tscroll", f" 0 {down}")
        self.set_bar(text)
