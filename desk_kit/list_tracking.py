"""A list follows the mouse as long as its button is down: the cells that the mouse comes to are selected."""

from desk_kit.mouse_tracking import Tracking

COMMAND, SHIFT = 256, 512


class ListTracking(Tracking):
    """A list of a window whose content begins at this point of the screen. It is told of a click where the button went down.
    Where the mouse is dragged on, the cells from there to the mouse are selected, as by a second click with the Shift key:
    the list's own flags say what that does. With the Shift or the Command key each further cell that the mouse comes to is
    told of a click with that key, once."""

    def __init__(self, loop, its, left, top):
        self.loop, self.its, self.left, self.top = loop, its, left, top
        self.call = f"{its.window} {its.number}"

    def at(self, h, v):
        """The point of the view that is nearest to a point of the screen."""
        return self.its.nearest(h - self.left, v - self.top)

    def click(self, point, modifiers):
        """Whether there was a cell at a point of the content that was clicked."""
        return self.loop.numbers("lclick {} {} {} {}".format(self.call, *point, modifiers)) != [0]

    def begun(self, event):
        self.first = self.last = self.at(event.h, event.v)
        self.modifiers, self.clicked = event.modifiers, {self.its.place_of(*self.first)}
        if not self.click(self.first, self.modifiers):
            self.loop.status = f"List {self.its.number}, on no cell"
            return False
        self.tell_selected()
        return True

    def moved(self, h, v):
        point = self.at(h, v)
        if self.its.place_of(*point) == self.its.place_of(*self.last):
            return
        if self.modifiers & (COMMAND | SHIFT):
            self.click_once(point)
        else:
            self.select_to(point)
        self.tell_selected()

    def click_once(self, point):
        """Tells the list of a cell that was not told yet."""
        self.last = point
        if self.its.place_of(*point) not in self.clicked:
            self.clicked.add(self.its.place_of(*point))
            self.click(point, self.modifiers)

    def select_to(self, point):
        """Selects from the first cell to the one at a point. Where none is there, the cell before stays the last one."""
        if not self.is_first(self.last):
            self.click(self.first, self.modifiers)
        if self.is_first(point) or self.click(point, self.modifiers | SHIFT):
            self.last = point
        elif not self.is_first(self.last):
            self.click(self.last, self.modifiers | SHIFT)

    def is_first(self, point):
        return self.its.place_of(*point) == self.its.place_of(*self.first)

    def released(self, event):
        self.moved(event.h, event.v)

    def tell_selected(self):
        """Says which cell is the first of those that are selected."""
        found, *cell = self.loop.numbers(f"lgetsel {self.call} 1 0 0")
        self.loop.status = f"List {self.its.number}, no selected cell"
        if found:
            at = " ".join(map(str, cell))
            data = self.loop.tell(f"lget {self.call} {at}").removeprefix("ok ")
            self.loop.status = f"List {self.its.number}, first selected cell: {at}, {data}"
