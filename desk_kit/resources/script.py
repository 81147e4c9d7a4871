"""The script that is made of resources, as it grows. It knows what its lines make on a desk, so that none of them is refused
there: a window, a menu or a control that would be is not written, and that is told."""

from __future__ import annotations

from collections import Counter
from typing import NamedTuple

from desk_kit.resources.cursor import Rect
from desk_kit.resources.fork import Resource, Resources
from desk_kit.resources.words import comment, is_plain, quoted, text_word

# The coordinates of a desk, and what it has room for (docs/SCRIPT.md).
LEAST, MOST = -16384, 16383
MOST_WINDOWS, MOST_OF_A_KIND = 64, 16
MOST_CONTROLS_OF_A_KIND = MOST_IN_A_WINDOW = 64
MOST_OPERATIONS = 1024
LONGEST_LINE = 1024
LARGEST_SIDE = 1024
# How far the structure of each kind of window reaches past its content: to the left, up, to the right and down.
TITLED = (1, 19, 1, 1)
AROUND = {
    "document": TITLED, "nogrow": TITLED, "zoom": TITLED, "round": TITLED, "dialog": (8, 8, 8, 8), "plain": (1, 1, 1, 1),
    "shadow": (1, 1, 3, 3),
}  # fmt: skip
OF_VERSION_3 = ("round",)


class Told(NamedTuple):
    """What of a resource has no counterpart in a script."""

    resource: Resource
    why: str

    def sentence(self) -> str:
        """The sentence that tells it, without its end."""
        return f"{self.resource.label}: {self.why}"


class Window:
    """A window that a script has opened."""

    def __init__(self, number: int, rect: Rect) -> None:
        self.number = number
        # Its content on the screen.
        self.rect = rect
        self.controls = self.items = self.texts = self.operations = 0


class Script:
    """The lines that are written so far, and what they make."""

    def __init__(self, resources: Resources) -> None:
        self.resources = resources
        self.lines: list[str] = []
        self.told: list[Told] = []
        self.version = 1
        self.commands = 0
        self.windows: list[Window] = []
        # How many windows and controls of each kind were made.
        self.kinds: Counter[str] = Counter()
        # The numbers of the menus, and those in the bar.
        self.menus: dict[int, int] = {}
        self.bar: list[int] = []
        # The window that holds pictures of icons and the like, and how many it holds.
        self.shelf: Window | None = None
        self.on_shelf = 0
        # How many text records there are; those of dialogs are among them.
        self.text_records = 0

    def note(self, text: str) -> None:
        """Writes a comment."""
        self.lines.append(comment(text))

    def head(self, resource: Resource, what: str = "") -> None:
        """Writes the comment with which a resource begins."""
        name = f" {quoted(resource.name)}" if resource.name else ""
        self.note(f"{resource.label}{name}{f': {what}' if what else ''}")

    def tell(self, resource: Resource, why: str) -> None:
        """Tells what of a resource has no counterpart, in a comment too."""
        self.told.append(Told(resource, why))
        self.note(f"{resource.label}: {why}")

    def do(self, command: str, version: int = 1) -> None:
        """Writes a command, of this version of the script or a later one."""
        self.lines.append(command)
        self.commands += 1
        self.version = max(self.version, version)

    def text(self, resource: Resource, what: str, data: bytes) -> str:
        """A text of a command. That it is not the resource's own is told where it is not."""
        if not is_plain(data):
            self.tell(resource, f"{what} {quoted(data)} has bytes that no text of a script has, and others stand for these")
        return text_word(data)

    def window(self, resource: Resource, kind: str, rect: Rect, flags: tuple[bool, bool], title: bytes) -> Window | None:
        """Opens a window of this kind, with this content on the screen, shown or not, with a go-away box or without. Where it
        cannot be opened that is told, and there is none."""
        why = self.why_no_window(kind, rect)
        if why:
            self.tell(resource, why)
            return None
        shown, away = map(int, flags)
        word = self.text(resource, "the title", title)
        version = 3 if kind in OF_VERSION_3 else 1
        self.do(f"window {kind} {rect.left} {rect.top} {rect.width} {rect.height} {shown} {away} {word}", version)
        self.kinds[kind] += 1
        self.windows.append(Window(len(self.windows) + 1, rect))
        return self.windows[-1]

    def why_no_window(self, kind: str, rect: Rect) -> str:
        """Why no such window can be opened, or nothing."""
        if rect.width < 1 or rect.height < 1:
            return f"its rectangle is empty, {rect.width} by {rect.height}, and no window is"
        left, up, right, down = AROUND[kind]
        for at in (rect, rect.moved(-rect.left, -rect.top)):
            sides = (at.left - left, at.top - up, at.right + right, at.bottom + down)
            if min(sides) < LEAST or max(sides) > MOST:
                return f"its window would lie outside of the coordinates {LEAST}..{MOST}"
        if self.kinds[kind] == MOST_OF_A_KIND:
            return f"a script has {MOST_OF_A_KIND} windows of the kind {kind}, and there are as many"
        return f"a desk has {MOST_WINDOWS} windows, and there are as many" if len(self.windows) == MOST_WINDOWS else ""

    def own_window(self, resource: Resource, width: int, height: int) -> Window | None:
        """Opens a plain window of this size for what needs one and has none."""
        return self.window(resource, "plain", Rect(40, 20, 40 + height, 20 + width), (True, False), b"")

    def draw(self, window: Window, operation: str, version: int = 1) -> bool:
        """Draws in a window, and tells whether there is room for it, in the window's picture and in a line."""
        command = f"draw {window.number} {operation}"
        if window.operations == MOST_OPERATIONS or len(command) > LONGEST_LINE:
            return False
        window.operations += 1
        self.do(command, version)
        return True

    def finished(self) -> list[str]:
        """All lines, with the version at their begin."""
        return [f"version {self.version}", *self.lines]


def is_in_range(rect: Rect) -> bool:
    """Whether a rectangle lies in the coordinates of a desk."""
    return LEAST <= min(rect) and max(rect) <= MOST
