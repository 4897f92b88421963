"""A door for tests that says what it is told to say.

It serves the page with the policy that the real door makes, the files that it is given, and for each question the reply
that the test's own function returns. It decides nothing, so it shows nothing about the door or the program: it is for
replies that the program seldom gives, and for doors and proxies that fail.
"""
import base64
import contextlib
import hashlib
import http.server
import json
import pathlib
import re
import socket
import threading

FRONT = pathlib.Path(__file__).resolve().parent.parent
SERVING = '{"state":"serving","records":3,"room":65533}'


def whole_page():
    """The page with the script's files in it, as the door sends it."""
    lines = (FRONT / "page.html").read_text("utf-8").splitlines(keepends=True)
    return "".join((FRONT / line[3:-4]).read_text("utf-8") if line.startswith("/* page/") else line for line in lines).encode()


def policy(page):
    """The policy that allows the page's own style and script, by the hashes of what is between their tags."""
    def hashes(tag):
        found = re.findall(rb"<%s>(.*?)</%s>" % (tag, tag), page, re.DOTALL)
        sums = (base64.b64encode(hashlib.sha256(text).digest()).decode() for text in found)
        return " ".join(f"'sha256-{one}'" for one in sums)
    return (f"default-src 'none'; script-src {hashes(b'script')}; style-src {hashes(b'style')}; connect-src 'self'; "
            "img-src data:; base-uri 'none'; form-action 'none'; frame-ancestors 'none'")


class Handler(http.server.BaseHTTPRequestHandler):
    protocol_version = "HTTP/1.1"

    def log_message(self, *_):
        """Says nothing: a test's output is its own."""

    def send(self, status, text, kind="application/json", **headers):
        body = text if isinstance(text, bytes) else text.encode()
        self.send_response(status)
        self.send_header("Content-Type", kind)
        self.send_header("Content-Length", str(len(body)))
        for name, value in headers.items():
            self.send_header(name.replace("_", "-"), value)
        self.end_headers()
        self.wfile.write(body)

    def do_GET(self):
        door = self.server.door
        if self.path == "/":
            page = whole_page()
            self.send(200, page, "text/html; charset=utf-8", Content_Security_Policy=policy(page))
        elif self.path[1:] in door.files:
            self.send(200, door.files[self.path[1:]], "text/plain; charset=utf-8")
        else:
            self.send(404, '{"error":"not made yet"}')

    def do_POST(self):
        door = self.server.door
        body = self.rfile.read(int(self.headers["Content-Length"]))
        question = json.loads(body.decode("utf-8", "surrogatepass"))
        door.asked.append((self.path, question, dict(self.headers)))
        self.send(*door.reply(self.path, question))


class Server(http.server.ThreadingHTTPServer):
    """Knows its connections, so that it can end them."""

    def __init__(self, *arguments):
        super().__init__(*arguments)
        self.connections = []

    def process_request(self, request, address):
        self.connections.append(request)
        super().process_request(request, address)

    def handle_error(self, *_):
        """Says nothing: a browser that goes on to another page closes its connections."""


class ScriptedDoor:
    """A server on a free port of 127.0.0.1. `reply(path, question)` gives the status and the text of each reply."""

    def __init__(self, files, reply):
        words = (FRONT / "words.json").read_text("utf-8")
        self.files, self.reply, self.asked = {"words.json": words, "health": SERVING, **files}, reply, []
        self.server = Server(("127.0.0.1", 0), Handler)
        self.server.door = self
        self.url = f"http://127.0.0.1:{self.server.server_address[1]}"
        self.thread = threading.Thread(target=self.server.serve_forever, daemon=True)
        self.thread.start()

    def close(self):
        self.server.shutdown()
        for connection in self.server.connections:
            with contextlib.suppress(OSError):
                connection.shutdown(socket.SHUT_RDWR)
        self.server.server_close()
        self.thread.join()

    def questions(self, ask=None):
        """What was asked so far, or what of one kind."""
        return [question for _, question, _ in self.asked if ask in (None, question["ask"])]
