"""What follows the mouse as long as its button is down: a menu, a window that is dragged or gets another size, a box of a
window's frame, and a control. Each is begun by the event of the button that went down, is told where the mouse moves, and ends
by the event of the button that went up."""

# The range of coordinates.
LEAST, MOST = -16384, 16383

# The least and the most width and height that the size box gives a window.
LEAST_SIDE, MOST_SIDE = 32, 16383

# The parts of a scroll bar, each with the way in which it goes, and whether by a page.
SCROLL_PARTS = {20: (-1, False), 21: (1, False), 22: (-1, True), 23: (1, True)}
THUMB = 129

# What the parts of a scroll bar are a page of: a part of its range.
PAGES = 4

KIND_NAMES = {
    "button": "Button", "rbutton": "Button", "check": "Check box", "radio": "Radio button", "scroll": "Scroll bar",
}  # fmt: skip


def clamped(coordinate):
    """The nearest coordinate of the range."""
    return max(LEAST, min(MOST, coordinate))


def named(what, number, title):
    """What is called so, with its title where it has one."""
    return f'{what} {number} "{title}"' if title else f"{what} {number}"


class Tracking:
    """What follows the mouse. While the mouse holds it, most of it does nothing."""

    def held(self):
        """The button has been down for some time since it went down, or since this was told last."""


class MenuTracking(Tracking):
    """A menu is pulled down as soon as the mouse is on its title, and then follows the mouse."""

    def __init__(self, loop):
        self.loop, self.is_down = loop, False

    def begun(self, event):
        self.moved(event.h, event.v)
        return True

    def moved(self, h, v):
        if self.is_down:
            self.loop.tell(f"mmove {h} {v}")
        else:
            self.is_down = self.loop.numbers(f"mdown {h} {v}") != [0]

    def released(self, event):
        self.loop.status = "No item was chosen"
        if self.is_down:
            self.loop.item_chosen(*self.loop.numbers(f"mup {event.h} {event.v}"))


class Dragging(Tracking):
    """A window that is dragged by its title bar: its outline follows the mouse, and the window moves where the button goes up,
    by as much as the mouse did. It is selected too, unless the Command key was down. Where the button goes up off the screen or
    in the menu bar, nothing was meant."""

    COMMAND = 256

    def __init__(self, loop, window):
        self.loop, self.window, self.name = loop, window, loop.window_name(window)

    def begun(self, event):
        self.from_h, self.from_v, self.keeps_place = event.h, event.v, bool(event.modifiers & self.COMMAND)
        self.left, self.top = self.loop.numbers(f"info {self.window}")[:2]
        return self.loop.numbers(f"drag {self.window} {event.h} {event.v}") == [1]

    def target(self, h, v):
        return self.left + h - self.from_h, self.top + v - self.from_v

    def moved(self, h, v):
        if self.loop.numbers(f"dragstep {h} {v}") == [1]:
            self.loop.status = "{} goes to {} {}".format(self.name, *self.target(h, v))
        else:
            self.loop.status = f"{self.name} stays where it is"

    def released(self, event):
        try:
            self.end(event)
        finally:
            self.loop.end_open()

    def end(self, event):
        """The end of a drag moves the window and selects it. One that is to do less ends nowhere, and does it itself."""
        left, top = self.target(event.h, event.v)
        has_moved = (left, top) != (self.left, self.top)
        if self.keeps_place or not has_moved:
            is_meant = self.loop.numbers(f"dragstep {event.h} {event.v}") == [1]
            self.loop.end_open()
        else:
            is_meant = self.loop.numbers(f"dragend {event.h} {event.v}") == [1]
        if not is_meant:
            self.loop.status = f"{self.name} stays where it is"
        elif has_moved:
            if self.keeps_place:
                self.loop.tell(f"move {self.window} {left} {top} 0")
            self.loop.status = f"{self.name} was moved to {left} {top}"
        elif not self.keeps_place and self.loop.numbers("frontwin") != [self.window]:
            self.loop.tell(f"select {self.window}")
            self.loop.status = f"{self.name} is selected"


class Growing(Tracking):
    """A window gets another size where the button goes up, by as much as the mouse moved. Until then its outline shows it."""

    def __init__(self, loop, window):
        self.loop, self.window, self.name = loop, window, loop.window_name(window)

    def begun(self, event):
        self.begin = event.h, event.v
        sides = f"{LEAST_SIDE} {LEAST_SIDE} {MOST_SIDE} {MOST_SIDE}"
        return self.loop.numbers(f"grow {self.window} {event.h} {event.v} {sides}") == [1]

    def moved(self, h, v):
        width, height = self.loop.numbers(f"growstep {h} {v}")
        self.loop.status = f"{self.name} gets the size {width} by {height}"

    def released(self, event):
        """A click gives no size, and neither does an end whose answer is that the size is the same."""
        width, height = self.loop.numbers(f"growend {event.h} {event.v}")
        if (event.h, event.v) != self.begin and width:
            self.loop.tell(f"size {self.window} {width} {height}")
            self.loop.status = f"{self.name} has the size {width} by {height}"


class BoxTracking(Tracking):
    """A zoom box, which does not show that it is tracked: the window is zoomed where the button goes up in it."""

    def __init__(self, loop, window, part):
        self.loop, self.window, self.part, self.name = loop, window, part, loop.window_name(window)

    def begun(self, _):
        return True

    def moved(self, _h, _v):
        pass

    def released(self, event):
        self.loop.status = f"{self.name} stays as it is"
        if self.loop.numbers(f"find {event.h} {event.v}") == [self.part, self.window]:
            self.loop.tell(f"zoom {self.window} {self.part}")
            self.loop.status = f"{self.name} was zoomed"


class GoAwayTracking(Tracking):
    """A go-away box: its window is closed where the button goes up in it."""

    def __init__(self, loop, window):
        self.loop, self.window, self.name = loop, window, loop.window_name(window)

    def begun(self, event):
        return self.loop.numbers(f"goaway {self.window} {event.h} {event.v}") == [1]

    def moved(self, h, v):
        self.loop.tell(f"gastep {h} {v}")

    def released(self, event):
        self.loop.status = f"{self.name} stays open"
        if self.loop.numbers(f"gaend {event.h} {event.v}") == [1]:
            self.loop.tell(f"close {self.window}")
            self.loop.status = f"{self.name} was closed"


class ControlTracking(Tracking):
    """A control of a window whose content begins at this point of the screen. Where the button goes up in the part that it
    went down in, that part does what controls of this kind are for. A box or a page of a scroll bar that is held does it
    again and again meanwhile: its tracking ends before each step, since no value is set while a control is tracked, and
    begins again where the mouse is still in that part."""

    def __init__(self, loop, control, left, top):
        self.loop, self.control, self.left, self.top = loop, control, left, top
        self.call = f"{control.window} {control.number}"
        self.name = named(KIND_NAMES[control.kind], control.number, control.title)
        self.is_open = self.is_inside = self.has_gone_on = self.has_come_to_end = False

    def local(self, h, v):
        return f"{clamped(h - self.left)} {clamped(v - self.top)}"

    def value(self):
        return self.loop.numbers(f"cget {self.call}")[0]

    def begun(self, event):
        self.before, self.place = self.value(), self.local(event.h, event.v)
        self.loop.status = f"{self.name} is tracked"
        self.part = self.loop.numbers(f"ctrack {self.call} {self.place}")[0]
        self.is_open = self.is_inside = self.part != 0
        return self.is_open

    def moved(self, h, v):
        self.place = self.local(h, v)
        if self.is_open:
            self.is_inside = self.loop.numbers(f"ctstep {self.place}") != [0]
        else:
            self.track_again()

    def track_again(self):
        """Tracks the part again, where the mouse is in it."""
        self.is_inside = self.loop.numbers(f"ctest {self.call} {self.place}") == [self.part]
        if self.is_inside:
            self.loop.tell(f"ctrack {self.call} {self.place}")
        self.is_open = self.is_inside

    def held(self):
        goes_on = self.part in SCROLL_PARTS and self.is_inside and not self.has_come_to_end
        if goes_on and self.can_go_on():
            self.loop.tell(f"ctend {self.place}")
            self.is_open, self.has_gone_on = False, True
            self.scrolled(self.part)
            self.before = self.value()
            self.track_again()

    def can_go_on(self):
        """Whether the scroll bar is not at its end yet. Once it is, that is asked no more."""
        value, least, most = self.loop.numbers(f"cget {self.call}")[:3]
        self.has_come_to_end = value <= least if SCROLL_PARTS[self.part][0] < 0 else value >= most
        return not self.has_come_to_end

    def released(self, event):
        part = self.loop.numbers(f"ctend {self.local(event.h, event.v)}")[0] if self.is_open else 0
        if self.has_gone_on:
            self.tell_value()
        elif part:
            USES[self.control.kind](self, part)
        else:
            self.loop.status = f"{self.name}: nothing was meant"

    def pressed(self, _):
        self.loop.status = f"{self.name} was pressed"

    def checked(self, _):
        self.loop.tell(f"cvalue {self.call} {0 if self.before else 1}")
        self.tell_value()

    def chosen(self, _):
        """A radio button is on then, and those that stand with it are off."""
        for number in self.loop.known.radio_group(self.control.number):
            self.loop.tell(f"cvalue {self.control.window} {number} {int(number == self.control.number)}")
        self.tell_value()

    def scrolled(self, part):
        """A part of a scroll bar that was used. The thumb has set the value by itself."""
        its, text = self.loop.known.list_with(self.control.number), self.loop.known.text_with(self.control.number)
        if part != THUMB:
            self.go_to(self.before + self.step(part, its, text), its, text)
        elif its or text:
            self.go_to(self.value(), its, text)
        self.tell_value()

    def go_to(self, value, its, text):
        """A scroll bar of a list scrolls the list, which sets it, and one beside a text record scrolls that. Any other one gets
        another value."""
        if its:
            by = value - self.before
            across, down = (0, by) if self.control.number == its.vertical else (by, 0)
            self.loop.tell(f"lscroll {its.window} {its.number} {across} {down}")
        elif text:
            self.loop.texts.scroll_to(text, value)
        else:
            self.loop.tell(f"cvalue {self.call} {max(-32768, min(32767, value))}")

    def step(self, part, its, text):
        """By how much a part of a scroll bar goes. A page of a list, and of a text record, is what is seen whole, less one; of
        any other scroll bar it is a part of its range. It is 1 at least."""
        way, by_page = SCROLL_PARTS[part]
        if not by_page:
            return way
        if its:
            return way * max(1, its.whole(self.control.number == its.vertical) - 1)
        if text:
            return way * max(1, self.loop.texts.whole(text) - 1)
        _, least, most, _, _ = self.loop.numbers(f"cget {self.call}")
        return way * max(1, (most - least) // PAGES)

    def tell_value(self):
        self.loop.status = f"{self.name} has the value {self.value()}"


USES = {
    "button": ControlTracking.pressed,
    "rbutton": ControlTracking.pressed,
    "check": ControlTracking.checked,
    "radio": ControlTracking.chosen,
    "scroll": ControlTracking.scrolled,
}
