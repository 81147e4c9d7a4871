"""A page in a browser over HTTP, on the loopback address alone. Its address has a token, which no other page knows; and what
asks under the name of another host, or from a page of another origin, is refused."""

import hmac
import os
import secrets
from http.server import BaseHTTPRequestHandler, ThreadingHTTPServer
from socketserver import TCPServer

from desk_kit.web_session import Wrong

ADDRESS = "127.0.0.1"
NAMES = (ADDRESS, "localhost")
FOLDER = os.path.dirname(os.path.realpath(__file__))
FILES = {
    "": ("web_page.html", "text/html; charset=utf-8"),
    "page.js": ("web_page.js", "text/javascript; charset=utf-8"),
    "page.css": ("web_page.css", "text/css; charset=utf-8"),
}
JSON, TEXT = "application/json", "text/plain; charset=utf-8"

# The longest message of a page, and for how many seconds a connection may be silent.
LONGEST, SECONDS = 65536, 60

# What each answer says: the page takes nothing from elsewhere, stands in no other page, and is kept nowhere.
HEADERS = {
    "Cache-Control": "no-store",
    "Content-Security-Policy": "default-src 'none'; script-src 'self'; style-src 'self'; connect-src 'self'; img-src data:; "
    "base-uri 'none'; form-action 'none'; frame-ancestors 'none'",
    "Cross-Origin-Resource-Policy": "same-origin",
    "Referrer-Policy": "no-referrer",
    "X-Content-Type-Options": "nosniff",
}


class Refusal(Exception):
    """A request that is refused, with its status and a sentence."""


class Handler(BaseHTTPRequestHandler):
    protocol_version, server_version, sys_version, timeout = "HTTP/1.1", "desk-web", "", SECONDS

    def do_GET(self):
        self.answered(self.file_asked)

    def do_POST(self):
        self.answered(self.message_told)

    def answered(self, action):
        """Answers by what an action gives, or by why it refuses. What a refused request still holds is not read."""
        try:
            self.give(200, *action())
        except Refusal as refusal:
            status, why = refusal.args
            self.close_connection = True
            self.give(status, f"{why}\n".encode("ascii"), TEXT)

    def give(self, status, body, kind):
        self.send_response(status)
        headers = {**HEADERS, "Content-Type": kind, "Content-Length": len(body)}
        if self.close_connection:
            headers["Connection"] = "close"
        for name, value in headers.items():
            self.send_header(name, str(value))
        self.end_headers()
        self.wfile.write(body)

    def name_asked(self, needs_origin):
        """What of the page is asked for, by somebody who may."""
        hosts, origins = self.headers.get_all("Host", []), self.headers.get_all("Origin", [])
        if hosts not in [[f"{name}:{self.server.server_port}"] for name in NAMES]:
            raise Refusal(403, "This is no name of this host.")
        if origins != [f"http://{hosts[0]}"] and (origins or needs_origin):
            raise Refusal(403, "This comes from no page of this host.")
        parts = self.path.split("/")
        if len(parts) != 3 or parts[0] or not hmac.compare_digest(parts[1].encode(), self.server.token.encode()):
            raise Refusal(404, "There is nothing here.")
        return parts[2]

    def file_asked(self):
        """A file of the page, and its kind."""
        name = self.name_asked(needs_origin=False)
        if name not in FILES:
            raise Refusal(404, "There is nothing here.")
        file_name, kind = FILES[name]
        with open(os.path.join(FOLDER, file_name), "rb") as file:
            return file.read(), kind

    def message_told(self):
        """The answer to a message of the page, and its kind."""
        if self.name_asked(needs_origin=True) != "events":
            raise Refusal(404, "There is nothing here.")
        if self.headers.get("Content-Type") != JSON:
            raise Refusal(415, "A message is of JSON.")
        length = self.headers.get("Content-Length", "")
        if not (length.isascii() and length.isdigit()) or "Transfer-Encoding" in self.headers:
            raise Refusal(411, "A message has a length.")
        if len(length) > 9 or int(length) > LONGEST:
            raise Refusal(413, "This message is too long.")
        try:
            return self.server.session.answer(self.rfile.read(int(length))), JSON
        except Wrong as wrong:
            raise Refusal(400, f"This is no message: {wrong}.") from None

    def log_message(self, *_):
        """Nothing is told of requests: the address would be among it."""


class Server(ThreadingHTTPServer):
    """The page of a session at a port, 0 for one that is free."""

    daemon_threads = True

    def __init__(self, port, session):
        self.session, self.token = session, secrets.token_urlsafe(24)
        super().__init__((ADDRESS, port), Handler)
        self.address = f"http://{ADDRESS}:{self.server_port}/{self.token}/"

    def server_bind(self):
        """As a server of HTTP, but without asking for the name of the host."""
        TCPServer.server_bind(self)
        self.server_name, self.server_port = self.server_address[:2]

    def handle_error(self, *_):
        """A connection that breaks is no fault."""
