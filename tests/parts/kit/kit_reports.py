"""Tests of the reports of desk-test, for kit-tests: JUnit's XML is read back, and the page of HTML is read, and looked at in a
browser where there is Debian's chromium."""

import base64
import os
import shutil
import struct
import subprocess
import zlib
from html.parser import HTMLParser
from xml.etree import ElementTree

from desk_kit.answers import Fault
from desk_kit.pictures import pixels_of
from desk_kit.report_page import near, overlaid
from kit_place import OTHER_DIFFERS, OTHER_IMAGE, POINTS, POINTS_OUT, SQUARE, SQUARE_IMAGE, scaled, square_out
from place import TOP, Skipped, same

# The other image over the square, which is what was found: 2 is black in the square alone, and 3 in the other one alone.
BOTH = ["11111111", "10000001", "10300001", "10021001", "10011301", "10000001", "10030001", "11111111"]
# The colors of white, black, and these two.
COLORS = "ffffff 000000 d55e00 0072b2"
BROWSERS = ("chromium", "chromium-browser")
# Tells a browser to write into the page what it shows of each picture: its name, its size, and its pixels, of which red says
# whether they are white or black. Then its first check box is clicked, and those are named that are shown; and at last how wide
# the page is, and the window.
LOOK = """<pre id="seen"></pre><script>
for (const it of document.images) {
  const canvas = document.createElement("canvas"), width = it.naturalWidth, height = it.naturalHeight;
  [canvas.width, canvas.height] = [width, height];
  const pen = canvas.getContext("2d");
  pen.drawImage(it, 0, 0);
  const bytes = pen.getImageData(0, 0, width, height).data, box = it.getBoundingClientRect();
  const rows = [...Array(height).keys()].map(v => [...Array(width).keys()].map(h => +(bytes[4 * (v * width + h)] < 128)));
  const said = [it.alt, box.width, box.height, box.top, ...rows.map(row => row.join(""))];
  document.getElementById("seen").textContent += said.join(" ") + "\\n";
}
document.querySelector("input").click();
const shown = [...document.images].filter(it => it.getBoundingClientRect().width).map(it => it.alt).slice(0, 5);
const wide = [document.documentElement.scrollWidth, window.innerWidth];
document.getElementById("seen").textContent += [...shown, ...wide].join(" ") + "\\n";
</script>"""
SECONDS = 60
# What is said of the square whose other image is stored, and of the points whose third answer is.
IMAGE_SAID = "line 4, 'image': an image that differs in 4 pixels, the first at 2 2, white in place of black"
IMAGE_NAMES = "square.line-4.found.png and square.line-4.due.png and square.line-4.differ.png"
POINT_SAID = "line 7, 'find 6 4': 'ok 0 1' in place of 'ok 3 1'"


def differing(place):
    """Two folders: in one a text and an image differ, and a file belongs to no script; in the other one a script passes."""
    place.write("one/points.desk", POINTS)
    place.write("one/points.out", POINTS_OUT.replace("ok 0 1", "ok 3 1"))
    place.write("one/square.desk", SQUARE)
    place.write("one/square.out", square_out(OTHER_IMAGE))
    place.write("one/gone.out", "")
    place.write("two/points.desk", POINTS)
    place.write("two/points.out", POINTS_OUT)


def read_back(place, name):
    """A report in JUnit's XML: what its root says, and its suites, each with its cases."""
    root = ElementTree.parse(place.path(name)).getroot()
    suites = [(dict(suite.attrib), [case_of(it) for it in suite]) for suite in root]
    return root.tag, dict(root.attrib), suites


def case_of(case):
    """A test case: what it says, and what of it failed, by its message and its text."""
    failures = [(it.tag, it.get("message"), it.text) for it in case]
    return case.tag, dict(case.attrib), failures


def without_time(said):
    """The same without its time, which has to be a number with three places."""
    seconds = said.pop("time")
    same(f"the form of {seconds}", f"{float(seconds):.3f}", seconds)
    return said


def a_report_for_machines_has_a_case_for_each_script(place):
    differing(place)
    shown = f"{IMAGE_SAID}. See {IMAGE_NAMES} in one/differences"
    lost = "it belongs to no script here"
    ones = [("points", "one/points.desk", POINT_SAID), ("square", "one/square.desk", shown), ("gone.out", "one/gone.out", lost)]
    wanted = [("one", 3, 3, ones), ("two", 1, 0, [("points", "two/points.desk", None)])]
    for count in "14":
        place.call("--program", place.program, "--jobs", count, "--junit", "it.xml", "one", "two")
        tag, said, suites = read_back(place, "it.xml")
        same("the root", (tag, without_time(said)), ("testsuites", counted("desk-test", 4, 3)))
        for (found, cases), (name, tests, failures, its) in zip(suites, wanted, strict=True):
            same("a suite", without_time(found), counted(name, tests, failures))
            found = [(tag, without_time(it), failed) for tag, it, failed in cases]
            same("its cases", found, [due_case(name, *it) for it in its])


def counted(name, tests, failures):
    return {"name": name, "tests": str(tests), "failures": str(failures), "errors": "0"}


def due_case(folder, name, path, sentence):
    """A case that is due, which failed where there is a sentence."""
    failures = [("failure", sentence, sentence)] if sentence else []
    return "testcase", {"classname": folder, "name": name, "file": path}, failures


def a_report_has_the_time_of_each_script(place):
    place.write("sleeps", '#!/bin/sh\nread -r _ seconds\nsleep "$seconds"\necho ok\n', 0o755)
    for name, seconds in [("a", "0.7"), ("b", "0")]:
        place.write(f"screens/{name}.desk", f"sleep {seconds}\n")
        place.write(f"screens/{name}.out", "ok\n")
    place.says("2 passed, 0 failed\n", "--jobs", "1", "--junit", "it.xml", "screens", program="./sleeps")
    _, said, [(suite, cases)] = read_back(place, "it.xml")
    slow, fast, all_of_them, root = (float(it["time"]) for it in (cases[0][1], cases[1][1], suite, said))
    same(f"whether {slow} s are those of the slow one", 0.7 <= slow < SECONDS, True)
    same(f"whether {fast} s are those of the fast one", 0 < fast < slow, True)
    same("the sum", (abs(all_of_them - slow - fast) < 0.002, root), (True, all_of_them))


def names_that_no_report_can_hold_are_escaped(place):
    """A byte of a control, one that is no text, and signs of the two languages."""
    name = os.fsdecode(b"<a> &\"\x01\xff")
    with open(place.path(f"{name}.desk"), "wb") as file:
        file.write(b"frontwin\n")
    place.call("--program", place.program, "--junit", "it.xml", "--report", "it.html", ".")
    _, _, [(suite, [(_, case, [(_, message, _)])])] = read_back(place, "it.xml")
    legible = '<a> &"\\x01\\udcff'
    said = f"there is no stored output {legible}.out; --accept makes one"
    same("the case", (suite["name"], case["name"], case["file"], message), (".", legible, f"./{legible}.desk", said))
    page = Page(place.read("it.html"))
    same("the page", (page.texts["h2"], page.texts["p"]), ([f"./{legible}.desk"], [said]))


class Page(HTMLParser):
    """A page of HTML: its texts by their elements, the pictures of each section, and all that it names outside of itself."""

    def __init__(self, text):
        super().__init__()
        self.texts = {"title": [], "h1": [], "h2": [], "p": [], "figcaption": [], "pre": [], "summary": [], "li": []}
        self.sections, self.outside, self.marked, self.open, self.is_marked = [], [], [], None, False
        self.feed(text)
        self.close()

    def handle_starttag(self, tag, attrs):
        said = dict(attrs)
        if tag in self.texts:
            self.open = self.texts[tag]
            self.open.append("")
        if tag == "section":
            self.sections.append([])
        self.is_marked = tag == "mark"
        if tag == "img":
            self.sections[-1].append((said["alt"], int(said["width"]), pixels_in(said["src"])))
        elif tag in ("script", "link", "iframe") or {"src", "href", "style"} & {*said}:
            self.outside.append((tag, said))

    def handle_endtag(self, tag):
        self.open = None if tag in self.texts else self.open

    def handle_data(self, data):
        if self.open:
            self.open[-1] += data
        if self.is_marked:
            self.marked.append(data)
            self.is_marked = False


def pixels_in(source):
    """The rows of a picture that is the source itself."""
    kind, _, data = source.partition(",")
    same("the kind of a picture", kind, "data:image/png;base64")
    png = base64.b64decode(data, validate=True)
    return pixels_of(png) if b"PLTE" not in png else digits_of(png)


def digits_of(png):
    """The rows of a picture in colors, each pixel as the number of its color, once these are as they are due."""
    width, height = struct.unpack_from(">II", png, 16)
    chunks = {name: png.index(name) + 4 for name in (b"PLTE", b"IDAT")}
    parts = {name: png[at : at + struct.unpack_from(">I", png, at - 8)[0]] for name, at in chunks.items()}
    same("the colors", parts[b"PLTE"].hex(" ", 3), COLORS)
    rows = zlib.decompress(parts[b"IDAT"]).hex()[1::2]
    return [rows[1 + v * (width + 1) : (v + 1) * (width + 1)] for v in range(height)]


def a_report_for_people_has_what_failed_with_its_pictures(place):
    """A pixel is a square of 8 by 8 in the browser, of which 8 beside each other are 64; near what differs, which is all
    here, a square of 4 by 4; and at last as it is."""
    differing(place)
    place.call("--program", place.program, "--report", "it.html", "one", "two")
    page = Page(place.read("it.html"))
    same("the count", (page.texts["title"], page.texts["h1"]), (["1 passed, 3 failed"],) * 2)
    same("what failed", page.texts["h2"], ["one/points.desk", "one/square.desk", "one/gone.out"])
    shown = f"{IMAGE_SAID}. See {IMAGE_NAMES} in one/differences"
    same("why", page.texts["p"], [POINT_SAID, shown, "it belongs to no script here"])
    images = [("found", 64, SQUARE_IMAGE), ("due", 64, OTHER_IMAGE), ("differ", 64, OTHER_DIFFERS)]
    images += [*compared(32), *compared(8)]
    same("the pictures", page.sections, [[], images, []])
    both = "both: black in what was found alone, black in what is due alone"
    same("their captions", page.texts["figcaption"], ["found", "due", "where they differ, black", both, both])
    same("what lies outside", page.outside, [])
    one = place.read("it.html")
    place.call("--program", place.program, "--report", "it.html", "--jobs", "1", "one", "two")
    same("the page of one job", place.read("it.html"), one)
    same("the pictures of the folder", place.picture("one/differences/square.line-4.due.png"), scaled(OTHER_IMAGE))


def compared(width):
    """The pictures in one place, and the one over the other, of which each is so wide."""
    return [("found", width, SQUARE_IMAGE), ("due", width, OTHER_IMAGE), ("both", width, BOTH)]


def a_report_has_the_lines_of_a_script_around_the_one_that_failed(place):
    differing(place)
    place.write("one/many.desk", "".join(f"find {it} 1 # <{it}>\n" for it in range(9)))
    place.write("one/many.out", "refused 15 BadSyntax\n" * 4 + "ok\n")
    place.call("--program", place.program, "--report", "it.html", "one", "two")
    page = Page(place.read("it.html"))
    many = "".join(f"\n     {it} find {it - 1} 1 # <{it - 1}>" for it in (3, 4, 5, 6, 7))
    points = "\n     5 \n     6 find 5 4\n     7 find 6 4\n     8 find 8 8"
    square = '\n     2 window plain 1 1 6 6 1 0 ""\n     3 draw 1 fill 2 2 4 4 patCopy black\n     4 image'
    same("the lines", page.texts["pre"], [many, points, square])
    same("those that failed", page.marked, ["     5 find 4 1 # <4>", "     7 find 6 4", "     4 image"])


def what_passed_is_folded_away(place):
    differing(place)
    place.call("--program", place.program, "--report", "it.html", "one", "two")
    page = Page(place.read("it.html"))
    same("its count, behind the whole images", page.texts["summary"], ["All of it", "1 passed"])
    same("its names", page.texts["li"], ["two/points.desk"])
    same("whether it is folded", place.read("it.html").count("<details>\n<summary>1 passed"), 1)


def the_part_around_what_differs_is_shown(_):
    def differ(*points):
        return ["".join("01"[(h, v) in points] for h in range(400)) for v in range(300)]

    for points, wanted in [
        ([(100, 50), (102, 52)], (84, 34, 119, 69)),
        ([(0, 0)], (0, 0, 17, 17)),
        ([(399, 299)], (383, 283, 400, 300)),
        ([(100, 50), (399, 299)], (84, 34, 244, 154)),
        ([(200, 0), (3, 299)], (0, 0, 160, 120)),
    ]:
        same(f"around {points}", near(differ(*points)), wanted)
    same("a row over one that is shorter", overlaid("1001", "110"), "1302")
    same("a row over a longer one", overlaid("0", "011"), "033")
    same("a row over none", overlaid("", "01"), "33")


def large_pictures_stand_beside_each_other_in_less_room(place):
    """Of 480 columns three are 1440 wide, with a pixel for each; of 160 and of 161 columns there are 3 and 2 for each. One of
    more than 200 columns at one pixel for each is smoothed where it is shown smaller."""
    for name, width in [("a", 481), ("b", 161), ("c", 160), ("d", 60)]:
        place.write(f"screens/{name}.desk", f"desk {width} 8 0\nimage\n")
        place.write(f"screens/{name}.out", "ok\nok\n")
    place.call("--program", place.program, "--report", "it.html", "screens")
    found = [section[0][:2] for section in Page(place.read("it.html")).sections]
    same("the sizes", found, [("found", width) for width in (481, 322, 480, 480)])
    same("how many are smoothed", place.read("it.html").count('class="wide"'), 1)


def a_report_of_scripts_that_pass_says_so(place):
    place.write("screens/points.desk", POINTS)
    place.write("screens/points.out", POINTS_OUT)
    for folder in ("desk_kit", "docs"):
        shutil.copytree(os.path.join(TOP, folder), place.path(folder))
    shutil.copy(os.path.join(TOP, "desk-test"), place.folder)
    unproved = "The program that ran is not proved: './desk --prove' proves and builds it."
    for word, notes in [("proved", []), ("unproved", [unproved])]:
        place.write("desk", f'#!/bin/sh\necho "{word} {place.program}"\n', 0o755)
        place.call("--report", "it.html", "screens", program="./desk-test")
        page = Page(place.read("it.html"))
        found = page.texts["h1"], page.texts["p"], page.sections
        same(f"the page where the program is {word}", found, (["1 passed, 0 failed"], notes, []))


def a_report_that_cannot_be_written_is_a_failure(place):
    place.write("screens/points.desk", POINTS)
    place.write("screens/points.out", POINTS_OUT)
    found = place.call("--program", place.program, "--junit", "/dev/full", "--report", "it.html", "screens")
    said = "desk-test: /dev/full cannot be written: No space left on device.\n"
    same("what is said", found, ("1 passed, 0 failed\n", 1, said))
    same("the other report", Page(place.read("it.html")).texts["h1"], ["1 passed, 0 failed"])


def a_browser_shows_the_pictures_of_a_report(place):
    """Beside each other, which is at one height, and each pixel as it is due. Found and due are exchanged by a click."""
    differing(place)
    place.call("--program", place.program, "--report", "it.html", "one", "two")
    *lines, last = looked_at(place, 1400)
    images = [("found", SQUARE_IMAGE), ("due", OTHER_IMAGE), ("differ", OTHER_DIFFERS)]
    # What is black in the other image has no red in it, and what is black in the square alone has.
    near_images = [("found", "32", SQUARE_IMAGE), ("due", "0", OTHER_IMAGE), ("both", "32", OTHER_IMAGE)]
    wanted = [[name, "64", "64", *rows] for name, rows in images]
    wanted += [[name, side, side, *rows] for name, side, rows in near_images]
    same("the pictures", [[*it[:3], *it[4:]] for it in lines[:6]], wanted)
    same("how many heights they stand at", len({it[3] for it in lines[:3]}), 1)
    same("what is shown after a click", last[:5], ["found", "due", "differ", "due", "both"])


def a_page_is_no_wider_than_the_browser(place):
    place.write("one/wide.desk", "desk 512 342 20\nimage\n")
    black = ("1" * 70 + "\n") * 7 + "1" * 22 + "\n"
    place.write("one/wide.out", f"ok\nP1\n512 342\n{black * 342}")
    place.call("--program", place.program, "--report", "it.html", "one")
    for width in (800, 1400):
        *lines, last = looked_at(place, width)
        same(f"the page and the window, {width} wide", last[5:], [str(width)] * 2)
        found = [float(it[1]) for it in lines[:3]]
        same(f"whether {found} are as wide as three can be", width / 3 - 40 < min(found) and max(found) < width / 3, True)


def looked_at(place, width):
    """The words of the lines that LOOK writes in a window of this width."""
    browser = next(filter(None, map(shutil.which, BROWSERS)), None)
    if browser is None:
        raise Skipped(f"here is no {' or '.join(BROWSERS)}", "chromium")
    place.write("looked.html", place.read("it.html").replace("</body>", LOOK + "</body>"))
    words = ["--headless", "--no-sandbox", "--disable-gpu", f"--user-data-dir={place.path('profile')}", "--dump-dom"]
    called = [browser, *words, f"--window-size={width},900", "--hide-scrollbars", f"file://{place.path('looked.html')}"]
    try:
        ran = subprocess.run(called, capture_output=True, timeout=SECONDS)
    except subprocess.TimeoutExpired:
        raise Fault(f"{browser} had not ended after {SECONDS} seconds") from None
    _, _, seen = ran.stdout.decode("utf-8").partition('<pre id="seen">')
    return [line.split(" ") for line in seen.partition("</pre>")[0].splitlines()]


TESTS = [
    a_report_for_machines_has_a_case_for_each_script,
    a_report_has_the_time_of_each_script,
    names_that_no_report_can_hold_are_escaped,
    a_report_for_people_has_what_failed_with_its_pictures,
    a_report_has_the_lines_of_a_script_around_the_one_that_failed,
    what_passed_is_folded_away,
    the_part_around_what_differs_is_shown,
    large_pictures_stand_beside_each_other_in_less_room,
    a_report_of_scripts_that_pass_says_so,
    a_report_that_cannot_be_written_is_a_failure,
    a_browser_shows_the_pictures_of_a_report,
    a_page_is_no_wider_than_the_browser,
]
