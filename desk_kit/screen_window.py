"""The screen of a driven desk in a window of Tk, with a line below it that says what happened last and where the mouse is.
What the mouse and the keys do, and that time passes, goes to a loop of events or to a replay, and the screen is shown again
where it has changed."""

import sys
import tkinter

from desk_kit.driven import Fault
from desk_kit.event_loop import CAPS_LOCK, COMMAND, OPTION, SHIFT

# The flags of Tk's modifiers on X11, with those of an event: Control and Super are the Command key, and Alt is Option.
MODIFIERS = {0x1: SHIFT, 0x2: CAPS_LOCK, 0x4: COMMAND, 0x8: OPTION, 0x40: COMMAND}

# The codes on a Macintosh of keys that stand for no letter.
CODES = {
    "Home": 1,
    "KP_Enter": 3,
    "End": 4,
    "Help": 5,
    "BackSpace": 8,
    "Tab": 9,
    "ISO_Left_Tab": 9,
    "Prior": 11,
    "Next": 12,
    "Return": 13,
    "Escape": 27,
    "Left": 28,
    "Right": 29,
    "Up": 30,
    "Down": 31,
    "Delete": 127,
}

# The scale at which a screen is shown where none is named: the first one that leaves room for this many pixels beside it.
SCALES = (2, 1)
ROOM = 120

# The milliseconds between two times at which is told that time has passed.
PERIOD = 50

# How many characters the line below has room for at least, also where the screen is not so wide.
LEAST_LINE = 40

# White and black, as the bytes of a gray image, of the pixels 0 and 1.
GRAYS = bytes.maketrans(b"01", b"\xff\x00")


def modifiers_of(state):
    """The modifiers of an event from those of Tk."""
    found = 0
    for flag, modifier in MODIFIERS.items():
        found |= modifier if state & flag else 0
    return found


def code_of(event):
    """The code of a key on a Macintosh, or nothing where it has none, as a modifier key by itself."""
    if event.keysym in CODES:
        return CODES[event.keysym]
    character = chr(event.keysym_num) if event.keysym_num < 256 else event.char
    code = character.encode("mac_roman", "ignore")
    return code[0] if len(code) == 1 else None


class ScreenWindow:
    """The window, over a Tk root and a loop of events or a replay. Where no scale is named it is found from the size of the
    screens."""

    def __init__(self, root, loop, scale, title):
        self.root, self.loop = root, loop
        self.mouse, self.is_at_fault = (0, 0), False
        self.width, self.height = loop.sides()
        self.scale = scale or self.fitting_scale()
        root.title(title)
        root.resizable(False, False)
        self.source = tkinter.PhotoImage(master=root)
        self.enlarged = tkinter.PhotoImage(master=root)
        self.canvas = tkinter.Canvas(
            root,
            width=self.width * self.scale,
            height=self.height * self.scale,
            borderwidth=0,
            highlightthickness=0,
            cursor="left_ptr",
        )
        self.canvas.create_image(0, 0, anchor="nw", image=self.enlarged)
        self.canvas.pack()
        self.status, self.place = self.line_below()
        self.bind()
        self.refresh()
        self.pass_time()

    def fitting_scale(self):
        """The first scale at which the whole screen is seen, or the last one."""
        width, height = self.root.winfo_screenwidth(), self.root.winfo_screenheight()
        fits = [it for it in SCALES if self.width * it <= width and self.height * it + ROOM <= height]
        return fits[0] if fits else SCALES[-1]

    def line_below(self):
        """The line below the screen: what happened last at its left, and where the mouse is at its right."""
        frame = tkinter.Frame(self.root)
        frame.pack(fill="x", padx=4, pady=2)
        status = tkinter.Label(frame, anchor="w", width=LEAST_LINE)
        place = tkinter.Label(frame, anchor="e", width=10)
        place.pack(side="right")
        status.pack(side="left", fill="x", expand=True)
        return status, place

    def bind(self):
        """Takes what the mouse does in the screen, and the keys wherever they go down in the window."""
        self.canvas.bind("<ButtonPress-1>", self.button_down)
        self.canvas.bind("<ButtonRelease-1>", self.button_up)
        self.canvas.bind("<Motion>", self.moved)
        self.root.bind("<KeyPress>", self.key_down)
        self.root.bind("<KeyPress-F5>", lambda _: self.tell(self.loop.record_image))
        self.root.bind("<KeyRelease>", self.key_up)
        self.canvas.focus_set()

    def at(self, event):
        """The point of the desk's screen at which the mouse is."""
        self.mouse = event.x // self.scale, event.y // self.scale
        return self.mouse

    def button_down(self, event):
        self.tell(self.loop.mouse_down, *self.at(event), modifiers_of(event.state))

    def button_up(self, event):
        self.tell(self.loop.mouse_up, *self.at(event), modifiers_of(event.state))

    def moved(self, event):
        self.tell(self.loop.mouse_moved, *self.at(event))

    def key_down(self, event):
        code = code_of(event)
        if code is not None:
            self.tell(self.loop.key_down, code, *self.mouse, modifiers_of(event.state))

    def key_up(self, event):
        code = code_of(event)
        if code is not None:
            self.tell(self.loop.key_up, code, *self.mouse, modifiers_of(event.state))

    def pass_time(self):
        """Tells again and again that time has passed. Tk lets Python see a signal then, and else only once the mouse moves."""
        self.tell(self.loop.time_passed)
        self.root.after(PERIOD, self.pass_time)

    def tell(self, action, *words):
        """Tells the loop of something, and shows what came of it. Once the program is at fault nothing is told any more."""
        if self.is_at_fault:
            return
        try:
            action(*words)
            self.refresh()
        except Fault as fault:
            self.is_at_fault = True
            self.status.configure(text=str(fault))
            print(f"desk-view: {fault}", file=sys.stderr, flush=True)

    def refresh(self):
        """Shows the screen where it has changed, and what is said below it."""
        rows = self.loop.image()
        if rows:
            head = f"P5 {self.width} {self.height} 255\n".encode("ascii")
            self.source.configure(data=head + b"".join(rows).translate(GRAYS))
            self.root.tk.call(self.enlarged, "copy", self.source, "-zoom", self.scale)
        if self.status["text"] != self.loop.status:
            self.status.configure(text=self.loop.status)
        self.place.configure(text="{} {}".format(*self.mouse))
