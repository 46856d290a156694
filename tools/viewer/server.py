"""The server of the window: one page, what it asks for, and the line over which its scripts come.

It listens on 127.0.0.1 alone. A request whose Host isn't this address is refused, so that no
foreign name that leads here gets an answer; so is a path that doesn't begin with the token, which
only the printed address tells. A script or a start has to come from the page itself, which its
Origin shows. No file is read from disk but those of page_files.py.

It is there before its model is: until then the page is told how far that is.

Scripts come by a WebSocket, a message each. The replies go back as bytes, since the page reads them
several times faster than Python could, after five numbers of 32 bits: the program's two times,
which front was marked before the script and which is now, and how many bytes the replies have.
Arrays may stand behind them (arrays.py). What went wrong goes back as a text.
"""
import hmac
import json
import struct
import time
from http.server import BaseHTTPRequestHandler
from pathlib import Path
from typing import Callable, Dict, Optional, Tuple

from .address import Address
from .arrays import packed
from .drape import Drape
from .model import tell
from .page_files import FILES, PAGE
from .program import ALL_MOVES, Answer, BadScript, ProgramEnded
from .showing import Showing
from .websocket import WebSocket, accepted

_KINDS = {".html": "text/html", ".css": "text/css", ".js": "text/javascript"}
Content = Tuple[str, Callable[[], bytes]]  # its kind, and what gives it
LONGEST_BODY = 1 << 10
BYTES = "application/octet-stream"
JSON = "application/json"
TEXT = "text/plain; charset=utf-8"
SAFETY = {
    "Cache-Control": "no-store",
    "Cross-Origin-Resource-Policy": "same-origin",
    "Referrer-Policy": "no-referrer",
    "X-Content-Type-Options": "nosniff",
}


def is_budget(text: str) -> bool:
    return text.isascii() and text.isdigit() and int(text) <= ALL_MOVES


class Page(BaseHTTPRequestHandler):
    """Serves the files of a page and what it asks for, and answers its scripts."""

    server: Address
    files: Dict[str, Path]  # by the names that the page has for them; "" is the page itself
    protocol_version = "HTTP/1.1"
    server_version, sys_version = "viewer", ""
    disable_nagle_algorithm = True
    wbufsize = 0  # what a page that was left doesn't take is dropped, and not tried again

    def do_GET(self) -> None:
        path = self._path()
        if path is None:
            return
        if path == "talk":
            self._talk()
            return
        file = self.files.get(path)
        if file is not None:
            self._send(200, f"{_KINDS[file.suffix]}; charset=utf-8", file.read_bytes())
            return
        found = self.told(path)
        if found is None and not self.server.is_ready:
            self._refuse(503, "the model isn't there yet")
            return
        found = found or self.content(path)
        if found is None:
            self._refuse(404, "there is no such page")
            return
        try:
            kind, content = found
            self._send(200, kind, content())
        except ProgramEnded as fault:
            self._refuse(502, str(fault))

    def told(self, path: str) -> Optional[Content]:
        """What is told whether a model is there or not: of it, and of the pages that are open."""
        server = self.server
        if path == "progress":
            server.awaited = time.monotonic()
            ready = {"isReady": server.is_ready}
            return JSON, lambda: json.dumps({**ready, **server.progress.told()}).encode()
        if path == "alive":
            pages = server.talks + (1 if server.is_awaited else 0)
            return JSON, lambda: json.dumps({"pages": pages}).encode()
        return None

    def content(self, path: str) -> Optional[Content]:
        """What the page asks for beside its files."""
        raise NotImplementedError

    def answer(self, script: str) -> Answer:
        """The replies to a script."""
        raise NotImplementedError

    def started(self, budget: int) -> Optional[bytes]:
        """What a start with a budget answers; None where the page has no such thing."""
        return None

    def do_POST(self) -> None:
        body = self._body()
        if body is None:
            return
        path = self._path()
        if path is None or not self._is_from_page():
            return
        if path == "end" and not self.server.is_ready:
            self._send(200, TEXT, b"")
            tell("cancelled in the window")
            self.server.cancel()
        elif path != "start" or not self.server.is_ready:
            self._refuse(404, "there is no such page")
        elif not is_budget(body):
            self._refuse(400, f"a budget is a number from 0 to {ALL_MOVES}")
        else:
            self._start(int(body))

    def _start(self, budget: int) -> None:
        try:
            about = self.started(budget)
        except ProgramEnded as fault:
            self._refuse(502, str(fault))
            return
        if about is None:
            self._refuse(404, "there is no such page")
        else:
            self._send(200, JSON, about)

    def _talk(self) -> None:
        """Answers scripts until the page is left."""
        if not self._is_from_page():
            return
        if not self.server.is_ready:
            self._refuse(503, "the model isn't there yet")
            return
        key = self.headers.get("Sec-WebSocket-Key")
        if key is None:
            self._refuse(400, "this is for a WebSocket")
            return
        self.send_response(101)
        self.send_header("Upgrade", "websocket")
        self.send_header("Connection", "Upgrade")
        self.send_header("Sec-WebSocket-Accept", accepted(key))
        self.end_headers()
        self.close_connection = True
        line = WebSocket(self.rfile, self.wfile)
        self.server.talks += 1
        try:
            script = line.receive()
            while script is not None:
                self._answer(line, script)
                script = line.receive()
        except (ConnectionError, struct.error):  # the page was left, and nobody waits for this
            pass
        finally:
            self.server.talks -= 1

    def _answer(self, line: WebSocket, script: str) -> None:
        try:
            answer = self.answer(script)
        except BadScript as fault:
            line.send_text(json.dumps({"reason": str(fault), "cure": ""}))
        except ProgramEnded as fault:
            line.send_text(json.dumps({"reason": fault.reason, "cure": fault.cure}))
        else:
            times, marks = (answer.first, answer.rest), (answer.before, answer.after)
            head = struct.pack("<2f3I", *times, *marks, len(answer.text))
            body = packed(answer.text, answer.arrays) if answer.arrays else answer.text
            line.send_bytes(head, body)

    def _body(self) -> Optional[str]:
        """The body; None where it was refused."""
        length = self.headers.get("Content-Length", "")
        if not length.isascii() or not length.isdigit() or int(length) > LONGEST_BODY:
            self.close_connection = True
            self._refuse(413, f"a body has its length told and at most {LONGEST_BODY} bytes")
            return None
        return self.rfile.read(int(length)).decode("latin-1")

    def _path(self) -> Optional[str]:
        """The path after the token; None where the request was refused."""
        if self.headers.get("Host", "") not in self.server.hosts:
            self._refuse(403, "this window answers to its own address alone")
            return None
        token, slash, path = self.path.split("?")[0][1:].partition("/")
        if not slash or not hmac.compare_digest(token.encode(), self.server.token.encode()):
            self._refuse(403, "the address has to be the whole one that ./viewer printed")
            return None
        return path

    def _is_from_page(self) -> bool:
        """Whether the request came from this page; it was refused where it didn't."""
        if self.headers.get("Origin", "") in {f"http://{host}" for host in self.server.hosts}:
            return True
        self._refuse(403, "scripts are taken from the window's page alone")
        return False

    def _refuse(self, status: int, reason: str) -> None:
        self._send(status, TEXT, reason.encode())

    def _send(self, status: int, kind: str, body: bytes) -> None:
        self.send_response(status)
        told = {"Content-Type": kind, "Content-Length": str(len(body))}
        policy = {"Content-Security-Policy": self.server.policy}
        for name, value in {**told, **policy, **SAFETY}.items():
            self.send_header(name, value)
        try:
            self.end_headers()
            self.wfile.write(body)
        except ConnectionError:  # the page was left, and nobody waits for this
            self.close_connection = True

    def log_message(self, format: str, *words: object) -> None:
        """Says nothing: a view is asked for many times a second."""


def drape_content(drape: Optional[Drape]) -> Dict[str, Content]:
    return {"drape": (drape.kind, lambda: drape.data)} if drape else {}


def dress_content(showing: Showing) -> Dict[str, Content]:
    """What nodes and faces have of a texture, and its pictures."""
    dress = showing.model.dress
    if dress is None:
        return {}
    found: Dict[str, Content] = {
        "spots": (BYTES, lambda: dress.painted.spots),
        "pages": (BYTES, lambda: dress.painted.pages),
    }
    for number, picture in enumerate(showing.pictures):
        if picture.data:
            found[f"picture/{number}"] = picture.kind, lambda data=picture.data: data
    return found


class Server(Address):
    """The window of one model, which may be on its way."""

    def __init__(
        self, showing: Optional[Showing], port: int = 0, token: Optional[str] = None
    ) -> None:
        super().__init__(port, Handler, token)
        self._showing = showing

    @property
    def is_ready(self) -> bool:
        return self._showing is not None

    @property
    def showing(self) -> Showing:
        if self._showing is None:
            raise ProgramEnded("the model isn't there yet")
        return self._showing

    @showing.setter
    def showing(self, showing: Showing) -> None:
        self._showing = showing


class Handler(Page):
    server: Server
    files = {**{name: PAGE / name for name in FILES}, "": PAGE / "index.html"}

    def content(self, path: str) -> Optional[Content]:
        showing = self.server.showing
        contents: Dict[str, Content] = {
            "about": (JSON, lambda: json.dumps(showing.about()).encode()),
            "stream": (BYTES, lambda: showing.model.stream),
            "colours": (BYTES, lambda: showing.model.colours or b""),
            "flight": (TEXT, showing.flight),
            **drape_content(showing.drape),
            **dress_content(showing),
        }
        return contents.get(path)

    def answer(self, script: str) -> Answer:
        return self.server.showing.ask(script)

    def started(self, budget: int) -> Optional[bytes]:
        self.server.showing.start(budget)
        return json.dumps(self.server.showing.about()).encode()
