#!/usr/bin/env python3
"""Serves the screen to this machine: the page, the card that it was started with, and the one endpoint of answers.py.

The server is bound to loopback and keeps nothing between requests. A request names no file: what is served stands in a table that is read
at the start. Prints the page's address when it is ready. Status 2: the card, the page, the library or the port cannot be used.
"""

import argparse
import http.server
import io
import json
import os
import re
import socket
import socketserver
import sys
import threading
import time
from pathlib import Path

import answers
import newelsage

HERE = Path(__file__).resolve().parent
TOP = HERE.parent
DEFAULT_LIBRARY = TOP / "target" / "library" / "libnewelsage.so"
DEFAULT_CHECKER = TOP / "checker" / "target" / "release" / "checker"
DEFAULT_PORT = 8377

INDEX = "index.html"
PAGES = (INDEX, "style.css", "app.js", "words.js", "table.js", "draft.js", "views.js", "icon.svg")
TYPES = {
    ".html": "text/html; charset=utf-8",
    ".css": "text/css; charset=utf-8",
    ".js": "text/javascript; charset=utf-8",
    ".json": "application/json",
    ".svg": "image/svg+xml",
}
JSON = TYPES[".json"]
ENDPOINT = "/answer"

BODY_BYTES = 1 << 20
LABEL_BYTES = 1 << 20
WORKERS = 16
# For a whole request to come in, and for a whole answer to go out.
SECONDS = 10.0
# A library call needs less than the stack that a thread gets here.
STACK_BYTES = 8 << 20
# Two names of one error since Python 3.10.
TIMEOUTS = (TimeoutError, socket.timeout)

HEADERS = {
    "Content-Security-Policy": "default-src 'none'; script-src 'self'; style-src 'self'; img-src 'self'; connect-src 'self'; "
    "base-uri 'none'; form-action 'none'; frame-ancestors 'none'",
    "X-Content-Type-Options": "nosniff",
    "Referrer-Policy": "no-referrer",
    "Cross-Origin-Resource-Policy": "same-origin",
    "Cross-Origin-Opener-Policy": "same-origin",
    "Cache-Control": "no-store",
}


class Unusable(Exception):
    """The server cannot be started; the words say why."""


class Refused(Exception):
    """A request that gets a status and words in the place of an answer."""

    def __init__(self, status, words, **headers):
        super().__init__(words)
        self.status = status
        self.headers = headers


def warn(words):
    print(f"screen: {words}", file=sys.stderr, flush=True)


def encoded(value):
    return json.dumps(value).encode("ascii")


# What is read at the start


def read_bytes(path, most):
    try:
        with open(path, "rb") as file:
            return file.read(most)
    except OSError as error:
        raise Unusable(f"{path} cannot be read: {error.strerror}") from error


def read_pages(folder):
    """What a GET can name, with its type."""
    pages = {f"/{name}": (TYPES[Path(name).suffix], read_bytes(folder / name, -1)) for name in PAGES}
    pages["/"] = pages.pop(f"/{INDEX}")
    return pages


def read_opened(card):
    """The card file that the server is started with, and the names for its numbers."""
    data = read_bytes(card, answers.CARD_BYTES)
    return {"card": data.hex(), "name": card.name, "labels": read_labels(card)}


def read_labels(card):
    path = card.with_suffix(".labels.json")
    if card.suffix != ".card" or not path.exists():
        return None
    data = read_bytes(path, LABEL_BYTES + 1)
    try:
        labels = answers.strict_json(data.decode("utf-8"))
    except (ValueError, RecursionError) as error:
        raise Unusable(f"{path} is not JSON: {error}") from error
    if len(data) > LABEL_BYTES or type(labels) is not dict:
        raise Unusable(f"{path} is not an object of names, of at most {LABEL_BYTES} bytes")
    return labels


# The server


class Timed(io.RawIOBase):
    """Reads from a connection until a time that holds for all that is read."""

    def __init__(self, connection, seconds):
        self.connection = connection
        self.end = time.monotonic() + seconds

    def readable(self):
        return True

    def readinto(self, buffer):
        left = self.end - time.monotonic()
        if left <= 0:
            raise TimeoutError
        self.connection.settimeout(left)
        return self.connection.recv_into(buffer)


class Handler(http.server.BaseHTTPRequestHandler):
    """One request of one connection."""

    def setup(self):
        super().setup()
        self.rfile.close()
        self.rfile = io.BufferedReader(Timed(self.connection, self.server.seconds))

    def do_GET(self):
        self.serve(self.page)

    def do_POST(self):
        self.serve(self.answer)

    def serve(self, content):
        try:
            self.check_host()
            kind, data = content()
        except Refused as refused:
            self.refuse(refused)
        except answers.BadRequest as error:
            self.refuse(Refused(400, str(error)))
        except answers.Failure as error:
            warn(str(error))
            self.refuse(Refused(500, str(error)))
        except ConnectionError:
            raise
        except Exception as error:
            warn(f"the screen fails: {type(error).__name__}")
            self.refuse(Refused(500, "the screen fails"))
        else:
            self.reply(200, kind, data)

    def page(self):
        if "Origin" in self.headers:
            self.check_origin()
        if self.path == ENDPOINT:
            raise Refused(405, "this is asked by POST", Allow="POST")
        if self.path not in self.server.pages:
            raise Refused(404, "there is no such page")
        return self.server.pages[self.path]

    def answer(self):
        if self.path in self.server.pages:
            raise Refused(405, "this is asked by GET", Allow="GET")
        if self.path != ENDPOINT:
            raise Refused(404, "there is no such page")
        self.check_origin()
        self.check_type()
        return JSON, encoded(self.server.gateway.answer(self.body()))

    # who asks

    def check_host(self):
        if self.request_version == "HTTP/0.9" or self.only("Host") not in self.server.hosts:
            raise Refused(403, "the host is not this screen")
        if not {"same-origin", "none"}.issuperset(self.headers.get_all("Sec-Fetch-Site", [])):
            raise Refused(403, "another site asks")

    def check_origin(self):
        if self.only("Origin") != f"http://{self.only('Host')}":
            raise Refused(403, "another site asks")

    def only(self, name):
        """The value of a header that is there once, or None."""
        values = self.headers.get_all(name, [])
        return values[0] if len(values) == 1 else None

    # the body

    def check_type(self):
        kind = self.only("Content-Type")
        if kind is None or kind.split(";")[0].strip().lower() != JSON:
            raise Refused(415, f"the content type is not {JSON}")

    def body(self):
        length = self.length()
        try:
            data = self.rfile.read(length)
        except TIMEOUTS as error:
            raise Refused(408, "the body does not come in time") from error
        if len(data) != length:
            raise Refused(400, "the body is shorter than its length")
        return data

    def length(self):
        if "Transfer-Encoding" in self.headers or "Content-Length" not in self.headers:
            raise Refused(411, "the body has no length")
        length = self.only("Content-Length")
        if length is None or not re.fullmatch("[0-9]{1,20}", length):
            raise Refused(400, "the length is not a number")
        if int(length) > BODY_BYTES:
            raise Refused(413, f"the body has more than {BODY_BYTES} bytes")
        return int(length)

    # the reply

    def refuse(self, refused):
        self.reply(refused.status, JSON, encoded({"error": str(refused)}), refused.headers)
        self.drain()

    def send_error(self, code, message=None, explain=None):
        """The refusals of the base class: what is no request, and methods that there are not."""
        if code == 501:
            self.refuse(Refused(405, "there is no such method", Allow="GET, POST"))
        else:
            self.refuse(Refused(code, "the request is not as HTTP has it"))

    def reply(self, status, kind, data, more=None):
        self.close_connection = True
        self.connection.settimeout(self.server.seconds)
        self.send_response(status)
        for name, value in {**HEADERS, **(more or {})}.items():
            self.send_header(name, value)
        self.send_header("Content-Type", kind)
        self.send_header("Content-Length", str(len(data)))
        self.send_header("Connection", "close")
        self.end_headers()
        if self.command != "HEAD":
            self.wfile.write(data)

    def drain(self):
        """Takes in what still comes of a refused request, within bounds: the refusal would be lost with a connection that is reset."""
        rest = Timed(self.connection, 1.0)
        buffer = bytearray(1 << 16)
        try:
            self.connection.shutdown(socket.SHUT_WR)
            for _ in range(4 * BODY_BYTES // len(buffer)):
                if not rest.readinto(buffer):
                    break
        except OSError:
            pass

    def version_string(self):
        return "screen"

    def log_message(self, *arguments):
        """Requests are not logged: a card is the patient's."""


class Screen(http.server.ThreadingHTTPServer):
    """The server, with at most WORKERS requests at a time; further connections wait."""

    daemon_threads = True
    block_on_close = False
    request_queue_size = 64

    def __init__(self, port, pages, opened, gateway, seconds=SECONDS):
        self.pages = {**pages, "/opened": (JSON, encoded(opened))}
        self.gateway = gateway
        self.seconds = seconds
        self.workers = threading.Semaphore(WORKERS)
        super().__init__(("127.0.0.1", port), Handler)
        self.hosts = {f"{name}:{self.server_port}" for name in ("127.0.0.1", "localhost")}

    def server_bind(self):
        # that of HTTPServer looks up a name
        socketserver.TCPServer.server_bind(self)
        self.server_name, self.server_port = self.server_address

    @property
    def address(self):
        return f"http://127.0.0.1:{self.server_port}/"

    def process_request(self, request, client_address):
        self.workers.acquire()
        try:
            super().process_request(request, client_address)
        except Exception:
            self.workers.release()
            raise

    def process_request_thread(self, request, client_address):
        try:
            super().process_request_thread(request, client_address)
        finally:
            self.workers.release()

    def handle_error(self, request, client_address):
        error = sys.exc_info()[1]
        if not isinstance(error, (ConnectionError, *TIMEOUTS)):
            warn(f"a connection fails: {type(error).__name__}")


# The command


def port_number(text):
    value = int(text)
    if value != 0 and not 1024 <= value <= 65535:
        raise ValueError
    return value


def arguments():
    parser = argparse.ArgumentParser(prog="ui/server.py", description="Serves the screen to this machine.", allow_abbrev=False)
    parser.add_argument("card", type=Path, metavar="CARD", help="the card that the page opens")
    parser.add_argument("--port", type=port_number, default=DEFAULT_PORT, metavar="N", help="0 takes any free one (8377)")
    parser.add_argument("--library", type=Path, default=DEFAULT_LIBRARY, metavar="FILE", help="the shared library")
    parser.add_argument("--checker", type=Path, default=DEFAULT_CHECKER, metavar="FILE", help="the explaining program")
    return parser.parse_args()


def started(options):
    opened = read_opened(options.card)
    pages = read_pages(HERE)
    if not os.access(options.checker, os.X_OK):
        raise Unusable(f"{options.checker} cannot be run")
    try:
        library = newelsage.Library(options.library)
    except newelsage.Unusable as error:
        raise Unusable(str(error)) from error
    gateway = answers.Gateway(library, answers.Explainer(options.checker), warn)
    try:
        return Screen(options.port, pages, opened, gateway)
    except OSError as error:
        raise Unusable(f"port {options.port} cannot be used: {error.strerror}; --port 0 takes any free one") from error


def main():
    options = arguments()
    threading.stack_size(STACK_BYTES)
    try:
        screen = started(options)
    except Unusable as error:
        warn(str(error))
        return 2
    with screen:
        print(f"screen: {screen.address}", flush=True)
        try:
            screen.serve_forever()
        except KeyboardInterrupt:
            pass
    return 0


if __name__ == "__main__":
    sys.exit(main())
