"""desk-web as a test starts it: its page is asked for by requests of HTTP, and it is ended by an interrupt."""

import http.client
import json
import os
import select
import signal
import subprocess
import sys
import time
from place import TOP, Differs, same

WEB = os.path.join(TOP, "desk-web")
# How long anything may take, and the pause between two looks.
SECONDS, PAUSE = 60.0, 0.05
HINT = "Control is Command here, and Alt is Option"
JSON = "application/json"


def eventually(look, what):
    """Looks until that gives something, and gives it."""
    end = time.monotonic() + SECONDS
    while not (found := look()):
        if time.monotonic() > end:
            raise Differs(f"after {SECONDS:g} seconds there is not {what}")
        time.sleep(PAUSE)
    return found


def called(*words):
    """The status of desk-web with these words, and what it says on standard error."""
    ran = subprocess.run([sys.executable, WEB, *words], stdin=subprocess.DEVNULL, capture_output=True, timeout=SECONDS)
    return ran.returncode, ran.stderr.decode()


class Served:
    """desk-web over a script, for as long as a block goes on. Its files lie in a folder, where its script is recorded too, and
    where the number of the program's process stands."""

    def __init__(self, program, folder, script):
        self.program = program
        self.script, self.recorded, self.number, self.errors = (
            os.path.join(folder, name) for name in ("it.desk", "recorded.desk", "number", "errors")
        )
        way = os.path.join(folder, "program")
        for path, text in ((self.script, script), (way, f"#!/bin/sh\necho $$ > '{self.number}'\nexec '{program}'\n")):
            with open(path, "w") as file:
                file.write(text)
        os.chmod(way, 0o755)
        words = [sys.executable, WEB, "--program", way, "--record", self.recorded, self.script]
        with open(self.errors, "wb") as file:
            self.ran = subprocess.Popen(words, stdout=subprocess.PIPE, stderr=file)

    def __enter__(self):
        if not select.select([self.ran.stdout], [], [], SECONDS)[0]:
            self.ran.kill()
            raise Differs("no address is told")
        self.address = self.ran.stdout.readline().decode().removesuffix("\n")
        scheme, _, self.host, self.token, _ = [*self.address.split("/"), "", "", "", ""][:5]
        self.port = int(self.host.rpartition(":")[2] or 0)
        if scheme != "http:" or not self.token:
            self.ran.kill()
            raise Differs(f"the address is {self.address!r}, and this is said: {self.said()}")
        return self

    def __exit__(self, *_):
        self.end()
        self.ran.stdout.close()

    def end(self):
        """Ends it by an interrupt, as Ctrl+C does."""
        self.ran.send_signal(signal.SIGINT)
        try:
            self.ran.wait(SECONDS)
        except subprocess.TimeoutExpired:
            self.ran.kill()
            self.ran.wait()

    def said(self):
        with open(self.errors) as file:
            return file.read()

    def request(self, method, path, headers=(), body=b""):
        """The status, the headers and the body of an answer. Only these headers are sent."""
        connection = http.client.HTTPConnection("127.0.0.1", self.port, timeout=SECONDS)
        connection.putrequest(method, path, skip_host=True, skip_accept_encoding=True)
        for name, value in headers:
            connection.putheader(name, value)
        connection.endheaders(body)
        answer = connection.getresponse()
        found = answer.status, dict(answer.getheaders()), answer.read()
        connection.close()
        return found

    def get(self, name, **others):
        """The same for a file of the page."""
        headers = {"Host": self.host, **others}
        return self.request("GET", f"/{self.token}/{name}", headers.items())

    def post(self, body, **others):
        """The same for a message, with other headers where some are named, and without those that are None."""
        names = {"origin": "Origin", "host": "Host", "kind": "Content-Type", "length": "Content-Length"}
        headers = {"Host": self.host, "Origin": f"http://{self.host}", "Content-Type": JSON, "Content-Length": str(len(body))}
        headers.update({names[name]: value for name, value in others.items()})
        sent = [(name, value) for name, value in headers.items() if value is not None]
        return self.request("POST", f"/{self.token}/events", sent, body)

    def tell(self, *events, seen=0):
        """What the page is answered to these events."""
        status, headers, body = self.post(json.dumps({"seen": seen, "events": events}).encode())
        same("the status and kind of an answer", (status, headers.get("Content-Type")), (200, JSON))
        return json.loads(body)

    def says(self, *events):
        """The sentence that the page shows after these events."""
        return self.tell(*events)["status"]

    def image(self):
        """The image that the program makes of what is recorded, as its answer."""
        with open(self.recorded, "rb") as file:
            script = file.read() + b"image\n"
        ran = subprocess.run([self.program], input=script, capture_output=True, timeout=SECONDS)
        return b"P1\n" + ran.stdout.rpartition(b"P1\n")[2].removesuffix(b"\n")
