"""What a page in a browser tells of the mouse, the keys and the time, and what it is answered: texts of JSON, over a loop of
events. Nothing of HTTP is needed."""

import base64
import json
import threading

from desk_kit.driven import Fault
from desk_kit.event_loop import CAPS_LOCK, COMMAND, OPTION, SHIFT
from desk_kit.pictures import packed

# The codes on a Macintosh of keys that stand for no letter, by the names that browsers give them.
CODES = {
    "Home": 1,
    "End": 4,
    "Help": 5,
    "Backspace": 8,
    "Tab": 9,
    "PageUp": 11,
    "PageDown": 12,
    "Enter": 13,
    "Escape": 27,
    "ArrowLeft": 28,
    "ArrowRight": 29,
    "ArrowUp": 30,
    "ArrowDown": 31,
    "Delete": 127,
}
KEYPAD_ENTER = 3

MODIFIERS = COMMAND | SHIFT | CAPS_LOCK | OPTION
# A coordinate lies between this and its negative, and a message has so many events at most.
FARTHEST, MOST_EVENTS = 32767, 1000


class Wrong(ValueError):
    """What is no message of a page."""


def is_number(word, least, most):
    return type(word) is int and least <= word <= most


def is_coordinate(word):
    return is_number(word, -FARTHEST, FARTHEST)


def are_modifiers(word):
    return is_number(word, 0, MODIFIERS) and not word & ~MODIFIERS


def is_key(word):
    return isinstance(word, str)


def is_flag(word):
    return isinstance(word, bool)


POINT = (is_coordinate, is_coordinate)
# The words behind the name of each event, and the action of a loop that it stands for.
EVENTS = {
    "down": ((*POINT, are_modifiers), "mouse_down"),
    "up": ((*POINT, are_modifiers), "mouse_up"),
    "move": (POINT, "mouse_moved"),
    "keydown": ((is_key, is_flag, *POINT, are_modifiers), "key_down"),
    "keyup": ((is_key, is_flag, *POINT, are_modifiers), "key_up"),
    "time": ((), "time_passed"),
    "image": ((), "record_image"),
}


def code_of(key, is_on_keypad):
    """The code of a key on a Macintosh, or nothing where it has none, as a modifier key by itself."""
    if key == "Enter" and is_on_keypad:
        return KEYPAD_ENTER
    code = key.encode("mac_roman", "ignore") if len(key) == 1 else b""
    return code[0] if code else CODES.get(key)


def action_of(event):
    """The action that an event stands for, and its words; or nothing for a key that has no code."""
    if not isinstance(event, list) or not event or not is_key(event[0]) or event[0] not in EVENTS:
        raise Wrong("an event has no name")
    forms, action = EVENTS[event[0]]
    words = event[1:]
    if len(words) != len(forms) or not all(form(word) for form, word in zip(forms, words)):
        raise Wrong(f"the event {event[0]} has other words")
    if action.startswith("key"):
        code = code_of(*words[:2])
        return None if code is None else (action, [code, *words[2:]])
    return action, words


def message_of(text):
    """What a message says: the screen that its page shows, and the actions that its events stand for."""
    try:
        found = json.loads(text)
    except (ValueError, RecursionError):
        raise Wrong("it is no JSON") from None
    if not isinstance(found, dict) or set(found) != {"seen", "events"}:
        raise Wrong("it has other parts than seen and events")
    seen, events = found["seen"], found["events"]
    if not is_number(seen, 0, 10**9) or not isinstance(events, list) or len(events) > MOST_EVENTS:
        raise Wrong("seen or events are of another form")
    return seen, [it for it in map(action_of, events) if it]


class Session:
    """A loop of events that pages use, one message at a time. Its screens are numbered from 1 on, and a page is given the
    screen where it shows another one, and told whether that changes as time goes by. Once the program is at fault nothing is
    told any more."""

    def __init__(self, loop, say):
        self.loop, self.say, self.fault = loop, say, ""
        self.width, self.height = loop.sides()
        self.version, self.screen = 0, ""
        self.lock = threading.Lock()
        self.look()

    def look(self):
        """Takes the screen, where it has changed."""
        rows = self.loop.image()
        if rows:
            self.version += 1
            data = b"".join(packed(row.decode("ascii")) for row in rows)
            self.screen = base64.b64encode(data).decode("ascii")

    def answer(self, text):
        """The answer to a message. Where that is none, nothing is told."""
        seen, actions = message_of(text)
        with self.lock:
            self.tell(actions)
            answer = {"version": self.version, "status": self.fault or self.loop.status}
            if self.loop.blinks() and not self.fault:
                answer["blinks"] = True
            if seen != self.version:
                answer.update(width=self.width, height=self.height, screen=self.screen)
        return json.dumps(answer).encode("ascii")

    def tell(self, actions):
        """Tells the loop of what happened, and looks at what came of it."""
        if self.fault:
            return
        try:
            for name, words in actions:
                getattr(self.loop, name)(*words)
            self.look()
        except Fault as fault:
            self.fault = str(fault)
            self.say(self.fault)
