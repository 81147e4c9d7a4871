"""The tests of desk-web's page in a browser without a window. The browser is told of the mouse and the keys over two pipes, by
its own protocol, and gives the pixels that it shows. Where there is none, nothing is tested. Every wait has an end.
"""

import contextlib
import json
import os
import select
import shutil
import signal
import subprocess
import sys
import tempfile
import time

from desk_kit.driven import rows_of
from place import Differs, same
from web_served import HINT, SECONDS, Served, eventually

BROWSERS = ("chromium", "chromium-browser")
# Starts a browser with its two pipes at the numbers at which it wants them.
LAUNCH = """\
import fcntl, os, sys
ends = [fcntl.fcntl(int(it), fcntl.F_DUPFD, 20) for it in sys.argv[1:3]]
for number, end in zip((3, 4), ends):
    os.dup2(end, number)
os.execvp(sys.argv[3], sys.argv[3:])
"""
# The width, the height and the pixels of a picture, of which the browser takes the bytes apart: each as how light it is, or -1
# where it is colored. Black and white are the signs of an image.
LOOK = """(async () => {
  const it = new Image();
  it.src = "data:image/png;base64,%s";
  await it.decode();
  const pen = new OffscreenCanvas(it.width, it.height).getContext("2d");
  pen.drawImage(it, 0, 0);
  const bytes = pen.getImageData(0, 0, it.width, it.height).data;
  const isGray = at => bytes[at] === bytes[at + 1] && bytes[at] === bytes[at + 2];
  return [it.width, it.height, Array.from({ length: bytes.length / 4 }, (_, at) => isGray(4 * at) ? bytes[4 * at] : -1)];
})()"""
SIGNS = {0: "1", 255: "0"}
WIDTH, HEIGHT = 240, 160
# The script of view_window.py, with a menu less, and with a text in the first window: its first byte begins in column 19 of the
# screen, and its line has the rows 92 to 101.
SCRIPT = f"""\
version 3
desk {WIDTH} {HEIGHT} 20
menu 1 "File"
mappend 1 "New/N;Close/W;-;Quit/Q"
minsert 1 0
window document 10 44 90 60 1 1 "One"
draw 1 fill 8 8 60 40 patCopy ltGray
text 1 8 48 60 8 48 60 10 0 1
window nogrow 60 70 140 70 1 1 "Two"
control 2 check 8 6 60 14 1 0 1 0 "Grid"
control 2 button 8 40 60 18 1 0 1 0 "OK"
control 2 scroll 76 6 16 60 1 0 3 0 ""
"""
# The page's room, and how many of its pixels a pixel of the desk is wide then: three fit into 800 by 560, and four into 1200
# by 840, which is the room in pixels of a display that has half as many again.
ROOM = {"width": 800, "height": 600, "mobile": False}
SCALES = {1: 3, 1.5: 4}
# The room of a page that is too narrow for 240 pixels, and for 120: three by three of them are one of the display's.
NARROW = {**ROOM, "width": 100}
SIDE = 3
SETTLED = 0.3


def browser():
    """The path of a browser, or None."""
    return next(filter(None, map(shutil.which, BROWSERS)), None)


class NotNow(Differs):
    """The browser refuses a call, as it may while one page takes the place of another."""


def at_last(look, what):
    """Looks until that gives something, also where the browser refuses it meanwhile."""

    def tried():
        try:
            return look()
        except NotNow:
            return None

    return eventually(tried, what)


class Browser:
    """A browser that shows one page, for as long as a block goes on."""

    def __init__(self, folder):
        theirs, self.writer = os.pipe()
        self.reader, other = os.pipe()
        words = ["--headless", "--no-sandbox", "--disable-gpu", "--remote-debugging-pipe", f"--user-data-dir={folder}"]
        called = [sys.executable, "-c", LAUNCH, str(theirs), str(other), browser(), *words, "about:blank"]
        quiet = {"stdout": subprocess.DEVNULL, "stderr": subprocess.DEVNULL}
        self.ran = subprocess.Popen(called, pass_fds=[theirs, other], start_new_session=True, **quiet)
        os.close(theirs)
        os.close(other)
        self.found, self.number, self.session, self.scale = b"", 0, None, 1

    def __enter__(self):
        try:
            target = self.call("Target.createTarget", url="about:blank")["targetId"]
            self.session = self.call("Target.attachToTarget", targetId=target, flatten=True)["sessionId"]
        except (Differs, OSError):
            self.end()
            raise
        return self

    def __exit__(self, *_):
        self.end()

    def end(self):
        os.close(self.writer)
        os.close(self.reader)
        self.ran.terminate()
        try:
            self.ran.wait(SECONDS)
        except subprocess.TimeoutExpired:
            self.ran.kill()
            self.ran.wait()
        # Other processes of the browser may outlive the first one, and write to its folder.
        with contextlib.suppress(ProcessLookupError):
            os.killpg(self.ran.pid, signal.SIGKILL)

    def call(self, method, **words):
        """What the browser answers to a call of its protocol. What it tells beside that is dropped."""
        self.number += 1
        message = {"id": self.number, "method": method, "params": words}
        message.update({"sessionId": self.session} if self.session else {})
        os.write(self.writer, json.dumps(message).encode() + b"\0")
        while (answer := self.message()).get("id") != self.number:
            pass
        if "result" not in answer:
            raise NotNow(f"{method}: {answer}")
        return answer["result"]

    def message(self):
        """The next message of the browser."""
        while b"\0" not in self.found:
            if not select.select([self.reader], [], [], SECONDS)[0]:
                raise Differs("the browser is silent")
            more = os.read(self.reader, 1 << 16)
            if not more:
                raise Differs("the browser has ended")
            self.found += more
        message, _, self.found = self.found.partition(b"\0")
        return json.loads(message)

    def value(self, expression):
        """What an expression is in the page."""
        found = self.call("Runtime.evaluate", expression=expression, awaitPromise=True, returnByValue=True)
        return found["result"].get("value")

    def show(self, address, ratio):
        """Shows the page, on a display with so many pixels for one of the page."""
        self.call("Emulation.setDeviceMetricsOverride", deviceScaleFactor=ratio, **ROOM)
        self.call("Page.navigate", url=address)
        self.scale = SCALES[ratio] / ratio

    def mouse(self, kind, h, v, buttons=1):
        """The mouse does this in the middle of a pixel of the desk, with these buttons down."""
        at = {"x": (h + 0.5) * self.scale, "y": (v + 0.5) * self.scale}
        button = {"button": "left", "buttons": buttons, "clickCount": 1}
        self.call("Input.dispatchMouseEvent", type=kind, **at, **button)

    def drag(self, *points):
        self.mouse("mousePressed", *points[0])
        for point in points[1:]:
            self.mouse("mouseMoved", *point)
        self.mouse("mouseReleased", *points[-1], buttons=0)

    def key(self, key, code, modifiers=0):
        for kind in ("rawKeyDown", "keyUp"):
            self.call("Input.dispatchKeyEvent", type=kind, key=key, windowsVirtualKeyCode=code, modifiers=modifiers)

    def says(self, wanted):
        """Waits until the page says this below its screen."""
        try:
            at_last(lambda: self.value("document.getElementById('status').textContent") == wanted, "what has to be")
        except Differs:
            raise Differs(f"the page says {self.value('document.body.innerText')!r} in place of {wanted!r}") from None

    def picture(self, ratio):
        """The rows of the pixels that are shown where the screen is, each a text of 1 for black, 0 for white and ? else."""
        rows = self.lights(WIDTH * SCALES[ratio], HEIGHT * SCALES[ratio], ratio)
        return ["".join(SIGNS.get(it, "?") for it in row) for row in rows]

    def lights(self, wide, high, ratio=1):
        """The rows of so many pixels that are shown in the corner of the page, each as how light it is."""
        part = {"x": 0, "y": 0, "width": wide / ratio, "height": high / ratio, "scale": 1}
        data = self.call("Page.captureScreenshot", format="png", clip=part)["data"]
        found = self.value(LOOK % data)
        same("the size of the picture", found[:2], [wide, high])
        return [found[2][start : start + wide] for start in range(0, wide * high, wide)]


class Page:
    """The page of a desk that is served, in a browser."""

    def __init__(self, browser, served, ratio):
        self.browser, self.served, self.ratio = browser, served, ratio
        browser.show(served.address, ratio)

    def shows_the_screen(self):
        """Waits until each pixel of the program's image is a square of pixels of the display."""
        scale = SCALES[self.ratio]

        def look():
            rows = [row.decode("ascii") for row in rows_of(self.served.image())]
            wide = [row.replace("0", "0" * scale).replace("1", "1" * scale) for row in rows]
            return self.browser.picture(self.ratio) == [row for row in wide for _ in range(scale)]

        at_last(look, "the image of the program in the page")


def the_page_shows_the_screen(page):
    page.browser.says(HINT)
    page.shows_the_screen()


def a_click_selects_a_window(page):
    page.browser.drag((20, 60))
    page.browser.says('Window 1 "One" is selected')
    page.shows_the_screen()


def a_window_is_dragged_by_its_title(page):
    page.browser.drag((150, 60), (140, 50), (160, 66))
    page.browser.says('Window 2 "Two" was moved to 70 76')
    page.shows_the_screen()


def a_check_box_is_clicked(page):
    page.browser.drag((85, 88))
    page.browser.says('Check box 1 "Grid" has the value 1')
    page.shows_the_screen()


def a_box_that_is_held_goes_on_to_the_end(page):
    page.browser.mouse("mousePressed", 154, 134)
    page.browser.says("Scroll bar 3 has the value 3")
    page.shows_the_screen()
    page.browser.mouse("mouseReleased", 154, 134, buttons=0)


def a_menu_is_pulled_down_and_an_item_chosen(page):
    page.browser.mouse("mousePressed", 20, 8)
    page.browser.mouse("mouseMoved", 20, 29)
    page.shows_the_screen()
    page.browser.mouse("mouseReleased", 20, 29, buttons=0)
    page.browser.says('"New" was chosen from "File": menu 1, item 1')
    page.shows_the_screen()


def a_drag_that_ends_beside_the_screen_ends(page):
    page.browser.drag((150, 66), (150, 70), (250, 100))
    page.browser.says('Window 2 "Two" stays where it is')


def keys_stand_for_items(page):
    page.browser.key("q", 81, modifiers=2)
    page.browser.says('"Quit" was chosen from "File": menu 1, item 4')
    page.browser.key("ArrowLeft", 37)
    page.browser.says("Key 28")


def a_text_is_typed_and_selected(page):
    page.browser.drag((60, 96))
    page.browser.says("Text record 1, the caret is at offset 0")
    for key, code in (("w", 87), ("o", 79), (" ", 32), ("x", 88), ("Backspace", 8), ("d", 68)):
        page.browser.key(key, code)
    page.browser.says("Key d, for text record 1")
    page.shows_the_screen()
    page.browser.drag((46, 96), (30, 97), (25, 96))
    page.browser.says("Text record 1, selected from offset 1 to 4")
    page.shows_the_screen()


def a_double_click_takes_a_word(page):
    """On a busy machine the second click may come too late: then there is another pair."""

    def look():
        page.browser.drag((22, 96))
        page.browser.drag((22, 96))
        time.sleep(SETTLED)
        said = page.browser.value("document.getElementById('status').textContent")
        return said == "Text record 1, selected from offset 0 to 2"

    at_last(look, "a word that is selected")
    page.shows_the_screen()


def a_key_records_an_image_and_the_page_stays(page):
    page.browser.value("window.mark = 7")
    page.browser.key("F5", 116)
    page.browser.says("Image 1 is recorded")
    time.sleep(SETTLED)
    same("the page", page.browser.value("window.mark"), 7)


def lights_of(rows):
    """How light the squares of an image are: the means of their pixels. The last row of squares has one row of pixels."""
    lights = []
    for top in range(0, len(rows), SIDE):
        band = [[int(it) for it in row] for row in rows[top : top + SIDE]]
        squares = [sum((row[left : left + SIDE] for row in band), []) for left in range(0, len(band[0]), SIDE)]
        lights.append([round(255 * it.count(0) / len(it)) for it in squares])
    return lights


def a_narrow_page_shows_the_mean_of_squares(page):
    """It is made narrow and wide again while the screen is shown."""
    page.browser.call("Emulation.setDeviceMetricsOverride", deviceScaleFactor=1, **NARROW)
    rows = [row.decode("ascii") for row in rows_of(page.served.image())]
    at_last(lambda: page.browser.lights(80, 54) == lights_of(rows), "the image of the program in squares")
    for (h, v), wanted in [((0, 0), "1 1"), ((6, 20), "19 61"), ((79, 53), "238 159")]:
        page.browser.call("Input.dispatchMouseEvent", type="mouseMoved", x=h, y=v)
        same(f"the place of {h} {v}", page.browser.value("document.getElementById('place').textContent"), wanted)
    page.browser.call("Input.dispatchMouseEvent", type="mousePressed", x=6, y=20, button="left", buttons=1, clickCount=1)
    page.browser.call("Input.dispatchMouseEvent", type="mouseReleased", x=6, y=20, button="left", buttons=0, clickCount=1)
    page.browser.says('Window 1 "One" is selected')
    page.browser.call("Emulation.setDeviceMetricsOverride", deviceScaleFactor=1, **ROOM)
    page.shows_the_screen()


def another_page_tells_nothing(page):
    """It is of another origin, though it knows the address."""
    page.browser.call("Page.navigate", url="data:text/html,other")
    at_last(lambda: page.browser.value("document.body.textContent") == "other", "another page")
    body = '{"seen":0,"events":[["keydown","x",false,0,0,0]]}'
    sent = f"fetch('{page.served.address}events', {{method: 'POST', mode: 'no-cors', body: '{body}'}})"
    page.browser.value(f"{sent}.then(() => 'sent', () => 'refused')")
    same("what came of it", page.served.says(["time"]), "Image 1 is recorded")


def a_server_that_has_ended_is_told(page):
    """The page is shown on a display of other pixels, and stays there when the server ends."""
    page.browser.says("Image 1 is recorded")
    page.shows_the_screen()
    page.served.end()
    page.browser.drag((20, 60))
    page.browser.says("desk-web does not answer: Failed to fetch")


TESTS = [
    the_page_shows_the_screen,
    a_click_selects_a_window,
    a_window_is_dragged_by_its_title,
    a_check_box_is_clicked,
    a_box_that_is_held_goes_on_to_the_end,
    a_menu_is_pulled_down_and_an_item_chosen,
    a_drag_that_ends_beside_the_screen_ends,
    keys_stand_for_items,
    a_narrow_page_shows_the_mean_of_squares,
    a_text_is_typed_and_selected,
    a_double_click_takes_a_word,
    a_key_records_an_image_and_the_page_stays,
    another_page_tells_nothing,
]


def tried(browser, served):
    """What is wrong, test by test, and nothing for one that passes. Each goes on where the one before it ended, so that after
    one that fails no other is tried. The last one has a page of its own."""
    for test in [*TESTS, a_server_that_has_ended_is_told]:
        try:
            if test in (TESTS[0], a_server_that_has_ended_is_told):
                page = Page(browser, served, 1 if test == TESTS[0] else 1.5)
            test(page)
            yield None
        except (Differs, OSError, subprocess.TimeoutExpired) as fault:
            yield f"the browser: {test.__name__.replace('_', ' ')}: {fault}"
            return


def faults(program):
    """What is wrong, and nothing for each test that passes."""
    # What a browser that was killed writes last may come after the folder is gone through.
    with tempfile.TemporaryDirectory(prefix="desk-browser-", ignore_cleanup_errors=True) as folder:
        try:
            with Served(program, folder, SCRIPT) as served, Browser(os.path.join(folder, "profile")) as browser:
                yield from tried(browser, served)
        except (Differs, OSError) as fault:
            yield f"the browser: it does not begin: {fault}"
