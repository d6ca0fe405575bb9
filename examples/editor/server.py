"""The page and its calls over HTTP, for this machine alone."""
import http.server
import json
import pathlib
import queue
import sys
import urllib.parse

from desks import Meeting

PAGE = pathlib.Path(__file__).with_name("page")
TYPES = {".html": "text/html", ".css": "text/css", ".js": "text/javascript"}
LONGEST_CALL = 64 * 2**20
SECONDS_OF_SILENCE = 3


class Handler(http.server.BaseHTTPRequestHandler):
    """GET gives files of the page, `events` and texts; POST with JSON changes an author's program."""

    protocol_version = "HTTP/1.1"
    disable_nagle_algorithm = True
    meeting: Meeting

    def do_GET(self):
        url = urllib.parse.urlsplit(self.path)
        words = dict(urllib.parse.parse_qsl(url.query))
        if not self.is_from_here():
            return
        if url.path == "/" and "author" not in words:
            return self.redirect(words)
        if url.path in ("/events", "/print", "/canonical"):
            return self.tell(url.path[1:], self.author_in(words))
        self.send_file(PAGE / (url.path[1:] or "index.html"))

    def do_POST(self):
        if not self.is_from_here():
            return
        call = self.read_call()
        author = self.author_in(call)
        works = {
            "/act": lambda: self.meeting.act(author, str(call["line"])),
            "/undo": lambda: self.meeting.undo(author),
            "/redo": lambda: self.meeting.redo(author),
            "/take": lambda: self.meeting.take(author, str(call["edits"])),
            "/online": lambda: self.meeting.set_online(author, bool(call["online"])),
        }
        if author is None or self.path not in works:
            return self.send_error(404)
        try:
            told = works[self.path]()
        except KeyError as missing:
            return self.send_error(400, f"no {missing}")
        self.send_bytes(json.dumps(told).encode(), "application/json")

    def is_from_here(self) -> bool:
        """Pages of other sites may not use this server: they cannot name this host, nor send JSON to it."""
        host = self.headers.get("Host", "").rsplit(":", 1)[0]
        is_json = self.command == "GET" or self.headers.get_content_type() == "application/json"
        if host in ("localhost", "127.0.0.1") and is_json:
            return True
        self.close_connection = True
        self.send_error(403)
        return False

    def read_call(self) -> dict:
        """The object that a call has, or none where it has no such thing, or is too long to be read."""
        length = self.headers.get("Content-Length", "")
        if not length.isdecimal() or int(length) > LONGEST_CALL:
            self.close_connection = True
            return {}
        try:
            call = json.loads(self.rfile.read(int(length)))
        except ValueError:
            return {}
        return call if isinstance(call, dict) else {}

    def author_in(self, words: dict) -> int | None:
        try:
            author = int(words["author"])
        except (KeyError, TypeError, ValueError):
            return None
        return author if 0 < author < 2**32 else None

    def redirect(self, words: dict) -> None:
        """A page without an author gets one who has no window yet."""
        self.send_response(302)
        self.send_header("Location", "/?" + urllib.parse.urlencode({"author": self.meeting.free_author(), **words}))
        self.send_header("Content-Length", "0")
        self.end_headers()

    def tell(self, what: str, author: int | None) -> None:
        if author is None:
            self.send_error(404)
        elif what == "events":
            self.send_events(author)
        else:
            text = self.meeting.print_text(author) if what == "print" else self.meeting.canonical(author)
            self.send_bytes(text.encode(), "text/plain")

    def send_file(self, path: pathlib.Path) -> None:
        if path.parent != PAGE or path.suffix not in TYPES or not path.is_file():
            return self.send_error(404)
        self.send_bytes(path.read_bytes(), TYPES[path.suffix])

    def send_bytes(self, content: bytes, content_type: str) -> None:
        self.send_response(200)
        self.send_header("Content-Type", f"{content_type}; charset=utf-8")
        self.send_header("Content-Length", str(len(content)))
        self.send_header("Cache-Control", "no-store")
        self.end_headers()
        self.wfile.write(content)

    def send_events(self, author: int) -> None:
        """Messages until the window closes: first the whole program, then each change of it."""
        self.close_connection = True
        self.send_response(200)
        self.send_header("Content-Type", "text/event-stream")
        self.send_header("Cache-Control", "no-store")
        self.end_headers()
        window = self.meeting.open_window(author)
        try:
            while True:
                self.wfile.write(next_event(window))
        except OSError:
            return
        finally:
            self.meeting.close_window(window)

    def log_message(self, *_):
        """Nothing is written of good calls."""


def next_event(window) -> bytes:
    """The next message of a window, or after some silence a comment, whose writing shows whether the window is still there."""
    try:
        return f"data: {window.messages.get(timeout=SECONDS_OF_SILENCE)}\n\n".encode()
    except queue.Empty:
        return b": still here\n\n"


class Server(http.server.ThreadingHTTPServer):
    """A thread for each connection, of which none keeps the program from ending."""

    daemon_threads = True

    def handle_error(self, request, client_address):
        """A browser that goes away is no fault."""
        if not isinstance(sys.exception(), ConnectionError):
            super().handle_error(request, client_address)


def serve(meeting: Meeting, port: int) -> Server:
    """A server that is ready; port 0 takes any free one."""
    return Server(("127.0.0.1", port), type("MeetingHandler", (Handler,), {"meeting": meeting}))
