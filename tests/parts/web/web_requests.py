"""The tests of desk-web by requests of HTTP. Each sentence, byte and status was worked out by hand."""

import base64
import json
import os
import signal
import socket
import tempfile

from desk_kit.driven import rows_of
from desk_kit.pictures import packed
from desk_kit.web_server import FOLDER
from place import same
from web_served import HINT, Served, called, eventually

# The windows of view_loop.py, the second one in front; and a menu. A scroll bar in the second one has its lower box in the
# columns 80 to 95 and the rows 110 to 125 of the screen.
SCRIPT = """\
desk 200 150 20
menu 1 "File"
mappend 1 "New/N;Quit/Q"
minsert 1 0
window document 10 44 90 60 1 1 "One"
window zoom 60 70 100 60 1 1 "Two"
control 2 scroll 20 6 16 50 1 0 3 0 ""
"""
# Bytes are 6 columns wide, and the first one of the text begins in column 9 of the screen; its line has the rows 8 to 17.
TEXT = """\
version 3
desk 80 40 0
window plain 4 4 70 30 1 0 ""
text 1 4 4 60 4 4 60 20 0 1
"""
EMPTY = "desk 8 8 0\n"
FRAME = 'desk 8 8 0\nwindow plain 1 1 6 6 1 0 ""\n'
WIDE = "desk 12 8 0\n"

TIME = ["time"]
CLICK = [["down", 20, 60, 0], ["up", 20, 60, 0]]
SELECTED = 'Window 1 "One" is selected'


def the_page_has_its_files(served):
    for name, file_name, kind in (
        ("", "web_page.html", "text/html"),
        ("page.js", "web_page.js", "text/javascript"),
        ("page.css", "web_page.css", "text/css"),
    ):
        status, headers, body = served.get(name)
        with open(os.path.join(FOLDER, file_name), "rb") as file:
            same(name, (status, headers["Content-Type"], body), (200, f"{kind}; charset=utf-8", file.read()))
        for header, value in (
            ("Cache-Control", "no-store"),
            ("Referrer-Policy", "no-referrer"),
            ("X-Content-Type-Options", "nosniff"),
            ("Cross-Origin-Resource-Policy", "same-origin"),
        ):
            same(header, headers[header], value)
        for rule in ("default-src 'none'", "frame-ancestors 'none'"):
            same(f"it has {rule}", rule in headers["Content-Security-Policy"], True)


def the_screen_comes_as_bits(served):
    """In the gray desktop a pixel is black where its column and row are both even or both odd."""
    bits = base64.b64encode(bytes.fromhex("AA55" * 4)).decode()
    same("it", served.tell(TIME), {"version": 1, "status": HINT, "width": 8, "height": 8, "screen": bits})
    same("it again", served.tell(TIME, seen=1), {"version": 1, "status": HINT})


def a_frame_comes_as_bits(served):
    same("it", served.tell(TIME)["screen"], base64.b64encode(bytes.fromhex("FF" + "81" * 6 + "FF")).decode())


def what_is_left_of_a_row_is_white(served):
    same("it", served.tell(TIME)["screen"], base64.b64encode(bytes.fromhex("AAA05550" * 4)).decode())


def a_click_selects_a_window(served):
    answer = served.tell(*CLICK, seen=1)
    same("it", (answer["version"], answer["status"]), (2, SELECTED))
    rows = rows_of(served.image())
    bits = b"".join(packed(row.decode()) for row in rows)
    same("the screen", base64.b64decode(answer["screen"]), bits)
    same("another page", served.tell(TIME, seen=1)["screen"], answer["screen"])


def a_window_is_dragged(served):
    same("it", served.says(["down", 40, 34, 0], ["move", 60, 40]), 'Window 1 "One" goes to 30 50')
    same("its end", served.says(["move", 70, 54], ["up", 70, 54, 0]), 'Window 1 "One" was moved to 40 64')


def a_box_that_is_held_goes_on(served):
    bar = "Scroll bar 1 has the value"
    same("its begin", served.says(["down", 88, 118, 0], TIME), "Scroll bar 1 is tracked")
    eventually(lambda: served.says(TIME) == f"{bar} 3", "the value 3")
    same("its end", served.says(["up", 88, 118, 0]), f"{bar} 3")


def keys_have_their_codes(served):
    for key, is_on_keypad, modifiers, said in (
        ("x", False, 0, "Key x"),
        ("Enter", False, 0, "Key 13"),
        ("Enter", True, 0, "Key 3"),
        ("ArrowLeft", False, 512, "Key 28"),
        ("\u00e9", False, 0, "Key 142"),
        ("Shift", False, 512, "Key 142"),
        ("\u65e5", False, 0, "Key 142"),
        ("q", False, 256, '"Quit" was chosen from "File": menu 1, item 2'),
    ):
        words = [key, is_on_keypad, 5, 30, modifiers]
        same(key, served.says(["keydown", *words], ["keyup", *words]), said)


def a_text_is_typed_and_selected(served):
    click = [["down", 40, 12, 0], ["up", 40, 12, 0]]
    same("a click", served.says(*click), "Text record 1, the caret is at offset 0")
    keys = [[kind, key, False, 5, 5, 0] for key in ("a", "b", " ", "c", "Backspace", "d") for kind in ("keydown", "keyup")]
    same("keys", served.says(*keys), "Key d, for text record 1")
    dragged = [["down", 9, 12, 512], ["move", 20, 12], ["up", 15, 12, 512]]
    same("the Shift key", served.says(*dragged), "Text record 1, selected from offset 1 to 4")
    same("two clicks", served.says(*click, *click), "Text record 1, selected from offset 3 to 4")
    with open(served.recorded) as file:
        lines = file.read().split("\n")
    told = [line for line in lines if line.startswith(("tkey", "tclick", "tend"))]
    same("what is recorded", told, [
        "tclick 1 1 36 8 0", "tend 36 8", "tkey 1 1 97", "tkey 1 1 98", "tkey 1 1 32", "tkey 1 1 99", "tkey 1 1 8", "tkey 1 1 100",
        "tclick 1 1 5 8 1", "tend 11 8", "tclick 1 1 36 8 0", "tend 36 8", "tclick 1 1 36 8 2", "tend 36 8",
    ])  # fmt: skip


def a_page_is_told_where_something_blinks(served):
    same("before", "blinks" in served.tell(TIME), False)
    same("with a caret", served.tell(["down", 40, 12, 0], ["up", 40, 12, 0])["blinks"], True)
    versions = set()
    eventually(lambda: versions.add(served.tell(TIME)["version"]) or len(versions) > 2, "a caret that blinks")


def an_image_is_recorded(served):
    same("it", served.says(*CLICK, ["image"]), "Image 1 is recorded")
    with open(served.recorded, "rb") as file:
        lines = file.read()
    same("its begin", lines.startswith(SCRIPT.encode()), True)
    same("its end", lines.endswith(b"next 65535\nimage\n"), True)


def only_the_loopback_address_is_served(served):
    same("its address", served.host, f"127.0.0.1:{served.port}")
    with open("/proc/net/tcp") as file:
        listening = [line.split()[1] for line in file if line.split()[3] == "0A"]
    same("what listens", [it for it in listening if it.endswith(f":{served.port:04X}")], [f"0100007F:{served.port:04X}"])


def without_the_token_there_is_nothing(served):
    token, other = served.token, "x" * len(served.token)
    for path in ("/", "//", f"/{token}", f"/{other}/", f"/{token[:-1]}/", f"/{token}x/", f"/{token}/x", f"/{token}/events",
                 f"/{token}/../page.js", f"/{token}/page.js?", "/page.js", "/%ff/", "*", f"{served.address}"):  # fmt: skip
        status, headers, body = served.request("GET", path, [("Host", served.host)])
        same(path, (status, body), (404, b"There is nothing here.\n"))
    body = json.dumps({"seen": 0, "events": CLICK}).encode()
    headers = [("Host", served.host), ("Origin", f"http://{served.host}"), ("Content-Type", "application/json")]
    status, _, _ = served.request("POST", f"/{other}/events", [*headers, ("Content-Length", str(len(body)))], body)
    same("a message", (status, served.says(TIME)), (404, HINT))
    same("how long it is", len(token) >= 32, True)


def other_names_of_the_host_are_refused(served):
    port = served.port
    path, refused = f"/{served.token}/", (403, b"This is no name of this host.\n")
    two = [f"127.0.0.1:{port}", f"localhost:{port}"]
    for names in ([], ["127.0.0.1"], [f"127.0.0.1:{port + 1}"], [f"desk.example:{port}"], two):
        status, _, body = served.request("GET", path, [("Host", name) for name in names])
        same(f"{names}", (status, body), refused)
    same("localhost", served.request("GET", path, [("Host", f"localhost:{port}")])[0], 200)
    body = json.dumps({"seen": 0, "events": CLICK}).encode()
    same("a message", served.post(body, host=f"desk.example:{port}", origin=f"http://desk.example:{port}")[0], 403)
    same("what came of it", served.says(TIME), HINT)


def pages_of_other_origins_are_refused(served):
    body = json.dumps({"seen": 0, "events": CLICK}).encode()
    host, other = served.host, f"127.0.0.1:{served.port + 1}"
    near = f"http://{other}", f"https://{host}", f"http://localhost:{served.port}"
    for origin in (None, "null", "http://desk.example", *near):
        status, _, why = served.post(body, origin=origin)
        same(f"{origin}", (status, why), (403, b"This comes from no page of this host.\n"))
    same("the page itself", served.get("", Origin="http://desk.example")[0], 403)
    same("what came of it", served.says(TIME), HINT)
    same("localhost", served.post(body, host=f"localhost:{served.port}", origin=f"http://localhost:{served.port}")[0], 200)


def what_is_no_message_does_nothing(served):
    events = [["down", 20, 60], ["down", 20, 60, 1], ["down", 20, 60, 4096], ["down", 20.5, 60, 0], ["down", True, 60, 0]]
    events += [["down", 40000, 60, 0], ["fly"], [], "down", 7, None, [["down"]], ["time", 1], ["keydown", 65, False, 1, 1, 0]]
    bodies = [json.dumps({"seen": 0, "events": [*CLICK, event]}) for event in events]
    bodies += ["", "{", "[]", "7", '{"seen": 0}', '{"seen": -1, "events": []}', '{"seen": 0, "events": {}}', "[" * 60000]
    bodies += [json.dumps({"seen": 0, "events": [TIME] * 1001})]
    for body in bodies:
        status, _, why = served.post(body.encode())
        same(body[:80], (status, why.startswith(b"This is no message: ")), (400, True))
    same("what came of it", served.says(TIME), HINT)


def requests_of_other_forms_are_refused(served):
    body = json.dumps({"seen": 0, "events": CLICK}).encode()
    for others, wanted in (
        ({"kind": "text/plain"}, 415),
        ({"kind": None}, 415),
        ({"length": None}, 411),
        ({"length": "-1"}, 411),
        ({"length": "65537"}, 413),
        ({"length": "9" * 5000}, 413),
    ):
        same(f"{others}", served.post(body, **others)[0], wanted)
    for method in ("PUT", "OPTIONS", "HEAD", "DELETE"):
        same(method, served.request(method, f"/{served.token}/", [("Host", served.host)])[0], 501)
    same("what came of it", served.says(TIME), HINT)


def who_is_silent_holds_up_nobody(served):
    with socket.create_connection(("127.0.0.1", served.port)) as silent:
        silent.sendall(b"POST /")
        same("a click", served.says(*CLICK), SELECTED)


def a_program_that_ends_is_told(served):
    with open(served.number) as file:
        os.kill(int(file.read()), signal.SIGKILL)
    said = served.says(*CLICK)
    same("its end", said.endswith("has ended, with status -9"), True)
    same("it again", served.says(*CLICK), said)
    same("standard error", served.said(), f"desk-web: {said}\n")


def lines_that_are_refused_are_told(served):
    same("standard error", served.said(), "desk-web: line 2 is refused 15 BadSyntax: fly\n")
    same("the page", served.says(TIME), HINT)


TESTS = {
    the_page_has_its_files: SCRIPT,
    the_screen_comes_as_bits: EMPTY,
    a_frame_comes_as_bits: FRAME,
    what_is_left_of_a_row_is_white: WIDE,
    a_click_selects_a_window: SCRIPT,
    a_window_is_dragged: SCRIPT,
    a_box_that_is_held_goes_on: SCRIPT,
    keys_have_their_codes: SCRIPT,
    a_text_is_typed_and_selected: TEXT,
    a_page_is_told_where_something_blinks: TEXT,
    an_image_is_recorded: SCRIPT,
    only_the_loopback_address_is_served: EMPTY,
    without_the_token_there_is_nothing: SCRIPT,
    other_names_of_the_host_are_refused: SCRIPT,
    pages_of_other_origins_are_refused: SCRIPT,
    what_is_no_message_does_nothing: SCRIPT,
    requests_of_other_forms_are_refused: SCRIPT,
    who_is_silent_holds_up_nobody: SCRIPT,
    a_program_that_ends_is_told: SCRIPT,
    lines_that_are_refused_are_told: "desk 8 8 0\nfly\n",
}


def an_interrupt_ends_it_well(program, folder):
    with Served(program, folder, EMPTY) as served:
        first = served.token
    same("its status", (served.ran.returncode, served.said()), (0, ""))
    with Served(program, folder, EMPTY) as served:
        same("one token is the other", first == served.token, False)


def its_words_are_checked(program, folder):
    script = os.path.join(folder, "it.desk")
    with open(script, "w") as file:
        file.write(EMPTY)
    with socket.socket() as taken:
        taken.bind(("127.0.0.1", 0))
        taken.listen()
        port = str(taken.getsockname()[1])
        for words, status, said in (
            (["--port", "x"], 2, "'x' is no number from 0 to 65535"),
            (["--port", "65536"], 2, "'65536' is no number from 0 to 65535"),
            (["--record", script, script], 2, "--record would replace SCRIPT"),
            ([script, script], 2, "unrecognized arguments"),
            ([f"{script}.none"], 1, f"the script {script}.none cannot be read: No such file or directory"),
            (["--record", "/dev/full", script], 1, "/dev/full cannot be written: No space left on device"),
            (["--port", port, script], 1, f"the port {port} cannot be had: Address already in use"),
        ):
            found, why = called("--program", program, *words)
            same(f"{words}", (found, why.startswith("desk-web: "), said in why), (status, True, True))
    same("no program", called("--program", f"{script}.none", script)[0], 3)
    same("its help", called("--help"), (0, ""))


ALONE = [an_interrupt_ends_it_well, its_words_are_checked]


def tests():
    """Each test, as its name and what it does with a program."""
    for test, script in TESTS.items():
        yield test.__name__, lambda program, test=test, script=script: with_served(test, script, program)
    for test in ALONE:
        yield test.__name__, lambda program, test=test: with_folder(test, program)


def with_served(test, script, program):
    with tempfile.TemporaryDirectory(prefix="desk-web-") as folder, Served(program, folder, script) as served:
        test(served)


def with_folder(test, program):
    with tempfile.TemporaryDirectory(prefix="desk-web-") as folder:
        test(program, folder)
