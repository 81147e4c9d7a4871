"""The loop of events of a Macintosh program, over a desk that is driven: the mouse and the keys become events, the loop asks
for the next one, and does what that calls for. A program of its own has to decide what a control means; here a check box
changes its value, a radio button takes the place of those beside it, and a scroll bar scrolls; and keys are typed into a text
record.

Nothing of a display is needed: whoever has a mouse tells of it, and asks for the image.
"""

import time
from typing import NamedTuple

from desk_kit.known import Known, Text, numbers_of
from desk_kit.list_tracking import ListTracking
from desk_kit.mouse_tracking import (
    BoxTracking,
    ControlTracking,
    Dragging,
    GoAwayTracking,
    Growing,
    MenuTracking,
    clamped,
    named,
)
from desk_kit.shown_desk import QUESTIONS, ShownDesk, command_of, lines_of
from desk_kit.text_editing import TextEditing

# The kinds of events, and what a mask of all of them is.
MOUSE_DOWN, MOUSE_UP, KEY_DOWN, KEY_UP, UPDATE, ACTIVATE = 1, 2, 3, 4, 6, 8
EVERY_EVENT = 65535
MOUSE_UP_MASK = 1 << MOUSE_UP
NO_EVENT = "ok 0 0 0 0 0 0"

# The modifiers of an event; the first one is that of a window that became active.
ACTIVE = 1
BUTTON_UP, COMMAND, SHIFT, CAPS_LOCK, OPTION = 128, 256, 512, 1024, 2048

# The parts that a point of the screen may lie in.
MENU_BAR, CONTENT, DRAG, GROW, GO_AWAY, ZOOM_IN, ZOOM_OUT = 1, 3, 4, 5, 6, 7, 8

# How many events are served at a time, at most.
MOST_EVENTS = 1000

# The seconds for which the button has to be down until what it holds goes on, and those from one step to the next.
HELD_AFTER, HELD_EVERY = 0.4, 0.1


class Refused(Exception):
    """A line that the desk refuses."""


class Event(NamedTuple):
    """An event, as it is told."""

    kind: int
    message: int
    when: int
    h: int
    v: int
    modifiers: int


class EventLoop(ShownDesk):
    """The loop over a driven desk, with what it knows of the windows there, and what follows the mouse as long as its button
    is down. A recording keeps the lines of the script, and those of the loop that changed something."""

    def __init__(self, desk, clock=time.monotonic, recording=None):
        super().__init__(desk, clock)
        self.known, self.recording, self.for_now = Known(), recording, b""
        self.tracked, self.point, self.button_is_up = None, None, True
        self.began = self.goes_on_at = clock()
        self.texts = TextEditing(self)

    def run_script(self, script):
        """Runs the lines of a script, and then serves the events that they gave rise to, but for those that they posted.
        Gives the lines that were refused, each as its number, itself and the answer."""
        refused = []
        for number, line in enumerate(lines_of(script), 1):
            answer = self.answer_to(line)
            self.record(line)
            if answer.startswith(b"refused"):
                refused.append((number, line.decode("latin-1").removesuffix("\r"), answer.decode("latin-1")))
        self.guarded(self.begin)
        return refused

    def begin(self):
        """Begins as a program does: what is queued is none of its business, and what is due is served."""
        self.tell(f"flush {EVERY_EVENT} 0")
        self.serve()

    def record(self, line):
        """Keeps a line, where something is recorded, behind the last one that held for the time before it."""
        if self.recording:
            if self.for_now:
                self.recording.keep(self.for_now)
            self.recording.keep(line)
        self.for_now = b""

    def record_image(self):
        """The script that is recorded makes an image of the screen as it is now."""
        self.status = "Nothing is recorded"
        if self.recording:
            self.record(b"image")
            self.status = f"Image {self.recording.images} is recorded"

    def mouse_down(self, h, v, modifiers=0):
        """The button went down. One that is down already goes down no further."""
        if self.tracked is None:
            self.button_is_up = False
            self.happened(MOUSE_DOWN, 0, h, v, modifiers)

    def mouse_moved(self, h, v):
        """The mouse is at a point. That matters as long as something follows it, and it is another point than before."""
        point, before = (clamped(h), clamped(v)), self.point
        self.point = point
        if self.tracked and point != before:
            self.guarded(self.tracked.moved, *point)

    def mouse_up(self, h, v, modifiers=0):
        self.button_is_up = True
        self.happened(MOUSE_UP, 0, h, v, modifiers)

    def key_down(self, code, h, v, modifiers=0):
        """A key went down, while the mouse was there. The code is that of its character on a Macintosh."""
        self.happened(KEY_DOWN, code, h, v, modifiers)

    def key_up(self, code, h, v, modifiers=0):
        self.happened(KEY_UP, code, h, v, modifiers)

    def time_passed(self):
        """What the button holds goes on, where that is due, and else a caret blinks."""
        now = self.clock()
        if self.tracked and now >= self.goes_on_at:
            self.goes_on_at = now + HELD_EVERY
            self.guarded(self.tracked.held)
        elif not self.tracked and not self.known.open:
            self.guarded(self.texts.blink)

    def blinks(self):
        """Where a text record is active its caret may blink."""
        return bool(self.texts.active())

    def happened(self, kind, message, h, v, modifiers):
        """Posts an event, and serves what there is to be served."""
        self.point = clamped(h), clamped(v)
        up = BUTTON_UP if self.button_is_up else 0
        self.guarded(self.post_and_serve, Event(kind, message, self.ticks(), *self.point, modifiers | up))

    def guarded(self, action, *words):
        """Does something, and says what was refused in it, if anything was."""
        try:
            action(*words)
        except Refused as refused:
            self.status = str(refused)

    def post_and_serve(self, event):
        if self.tracked is None:
            self.end_open()
        self.tell("post " + " ".join(map(str, event)))
        if event.kind == MOUSE_UP and self.tracked:
            self.release(event)
        self.serve()

    def release(self, event):
        """What followed the mouse ends where the button went up. That event is taken out, as one that was waited for."""
        tracked, self.tracked = self.tracked, None
        self.tell(f"next {MOUSE_UP_MASK}")
        tracked.released(event)

    def end_open(self):
        """Ends what is open, where something is, with nothing chosen."""
        if self.known.open:
            self.tell(self.known.open)

    def serve(self):
        """Asks for the next event, and does what it calls for, until there is none; or until something follows the mouse, or
        the script left something open: then no event is asked for."""
        for _ in range(MOST_EVENTS):
            if self.tracked or self.known.open:
                return
            event = Event(*self.numbers(f"next {EVERY_EVENT}"))
            if event.kind == 0:
                return
            if event.kind in SERVES:
                SERVES[event.kind](self, event)

    def ticks(self):
        """The time since the loop began, in sixtieths of a second."""
        return int((self.clock() - self.began) * 60) % 10**9

    def answer_to(self, line):
        """The answer to a line, both as bytes, from which is learned what there is."""
        answer = super().answer_to(line)
        self.known.learn(line, answer)
        return answer

    def tell(self, line):
        """The answer to a line that has to be done, which is recorded where it changed something."""
        text = line.encode("latin-1")
        answer = self.answer_to(text).decode("latin-1")
        if answer.startswith("refused"):
            raise Refused(f"{line} is {answer}")
        if command_of(text) not in QUESTIONS and not (command_of(text) == "next" and answer == NO_EVENT):
            self.record(text)
        return answer

    def tell_for_now(self, line):
        """Tells a line that has to be done, as long as no other one of its sort is told. Of several that follow each other the
        last one is recorded, before the next line of another sort."""
        answer = self.answer_to(line.encode("latin-1")).decode("latin-1")
        if answer.startswith("refused"):
            raise Refused(f"{line} is {answer}")
        self.for_now = line.encode("latin-1")

    def numbers(self, line):
        """The numbers that a line is answered by, which has to be done."""
        return numbers_of(self.tell(line).encode("latin-1"))

    def update_due(self, event):
        self.tell(f"update {event.message}")

    def window_turned(self, event):
        self.texts.window_turned(event.message, event.modifiers & ACTIVE)

    def mouse_went_down(self, event):
        """The button went down: what that means depends on whose the point is."""
        part, window = self.numbers(f"find {event.h} {event.v}")
        if part in WENT_DOWN:
            WENT_DOWN[part](self, event, part, window)
        else:
            self.status = f"{self.window_name(window)}, on its frame" if window else "The desktop"

    def in_menu_bar(self, event, _part, _window):
        self.follow(MenuTracking(self), event)

    def in_drag(self, event, _part, window):
        self.follow(Dragging(self, window), event)

    def in_grow(self, event, _part, window):
        self.follow(Growing(self, window), event)

    def in_go_away(self, event, _part, window):
        self.follow(GoAwayTracking(self, window), event)

    def in_zoom(self, event, part, window):
        self.follow(BoxTracking(self, window, part), event)

    def follow(self, tracking, event):
        """Lets this follow the mouse, where it has begun."""
        if tracking.begun(event):
            self.tracked, self.goes_on_at = tracking, self.clock() + HELD_AFTER

    def in_content(self, event, _part, window):
        """A window that is not in front comes there, and nothing else. In the front one, and in one that floats, what lies at
        the point is meant."""
        if window not in self.known.floating and self.numbers("frontwin") != [window]:
            self.tell(f"select {window}")
            self.status = f"{self.window_name(window)} is selected"
            return
        left, top = self.numbers(f"info {window}")[:2]
        h, v = clamped(event.h - left), clamped(event.v - top)
        part, number = self.numbers(f"findc {window} {h} {v}")
        its = self.layer_at(window, h, v)
        if part:
            self.follow(ControlTracking(self, self.known.controls[number], left, top), event)
        elif isinstance(its, Text):
            self.follow(self.texts.clicked(its, left, top, event), event)
        elif its:
            self.follow(ListTracking(self, its, left, top), event)
        else:
            self.status = f"{self.window_name(window)}, at {h} {v} in it"

    def layer_at(self, window, h, v):
        """The list or text record that a point of a window's content belongs to, or none: controls lie in front of it, also
        where they are inactive."""
        for control in self.known.controls_of(window):
            if control.covers(h, v) and self.numbers(f"cget {window} {control.number}")[4]:
                return None
        return next((its for its in self.known.layers_of(window) if its.covers(h, v) and self.is_shown(its)), None)

    def is_shown(self, its):
        """Whether a list or a text record is shown, as each list is."""
        return not isinstance(its, Text) or self.numbers(f"tinfo {its.window} {its.number}")[3] == 1

    def key_went_down(self, event):
        """A key with the Command key may stand for an item of a menu. Another one may be typed into a text record."""
        character = chr(event.message & 255)
        name = f"Key {character if ' ' < character <= '~' else event.message & 255}"
        if not event.modifiers & COMMAND:
            self.status = f"{name}{self.into(self.texts.typed(event.message & 255))}"
            return
        self.status = f"{name} with Command: no item"
        if " " <= character <= "~" and character != '"':
            self.item_chosen(*self.numbers(f'mkey "{character}"'))

    def item_chosen(self, menu, item):
        """An item of a menu was chosen, or none, which is 0 0. What an item is for a text record does is done; of another one it
        is only said. No title is highlighted after that."""
        if menu:
            title, name = self.known.menus[menu].title, self.known.menus[menu].items[item - 1]
            self.status = f'"{name}" was chosen from "{title}": menu {menu}, item {item}'
            try:
                self.status += self.into(self.texts.item_chosen(name))
            finally:
                self.tell("mhilite 0")

    def into(self, text):
        """Says which text record something went to, if there is one."""
        return f", for text record {text.number}" if text else ""

    def window_name(self, window):
        return named("Window", window, self.known.windows[window])


SERVES = {
    MOUSE_DOWN: EventLoop.mouse_went_down,
    KEY_DOWN: EventLoop.key_went_down,
    UPDATE: EventLoop.update_due,
    ACTIVATE: EventLoop.window_turned,
}
WENT_DOWN = {
    MENU_BAR: EventLoop.in_menu_bar,
    CONTENT: EventLoop.in_content,
    DRAG: EventLoop.in_drag,
    GROW: EventLoop.in_grow,
    GO_AWAY: EventLoop.in_go_away,
    ZOOM_IN: EventLoop.in_zoom,
    ZOOM_OUT: EventLoop.in_zoom,
}
