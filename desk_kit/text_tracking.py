"""A text record follows the mouse as long as its button is down: what lies between the click and the mouse is selected."""

from desk_kit.mouse_tracking import Tracking, clamped

# What a click selects: from its point on, more than was selected, or words.
FROM_HERE, EXTENDED, WORDS = 0, 1, 2


class TextTracking(Tracking):
    """A text record of a window whose content begins at this point of the screen, and how the click selects."""

    def __init__(self, loop, text, left, top, mode):
        self.loop, self.text, self.left, self.top, self.mode = loop, text, left, top, mode

    def local(self, h, v):
        return f"{clamped(h - self.left)} {clamped(v - self.top)}"

    def begun(self, event):
        call = f"{self.text.window} {self.text.number}"
        if self.loop.numbers(f"tclick {call} {self.local(event.h, event.v)} {self.mode}") == [0]:
            return False
        self.tell_selected(*self.loop.numbers(f"tinfo {call}")[:2])
        return True

    def moved(self, h, v):
        self.tell_selected(*self.loop.numbers(f"tstep {self.local(h, v)}"))

    def released(self, event):
        self.tell_selected(*self.loop.numbers(f"tend {self.local(event.h, event.v)}"))
        self.loop.texts.was_clicked(self.text, event)

    def tell_selected(self, start, end):
        """Says which bytes are selected, or where the caret is."""
        what = f"the caret is at offset {start}" if start == end else f"selected from offset {start} to {end}"
        self.loop.status = f"Text record {self.text.number}, {what}"
