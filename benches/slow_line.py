"""Measures how soon a model is seen over a slow line: seconds and kB to the first picture.

    python3 benches/slow_line.py [CELLS ..] [--program PATH] [--module FILE] [--pictures FOLDER]

A terrain of CELLS cells a side (benches/terrain.py; 100 and 316 where none is told, which are
20,000 and 199,712 faces) is looked at in a headless Chromium, by the window and by the page that
needs no server, of a plain and of a packed stream, over a relay that lets 1 Mbit a second through
each way, 20 ms late; it slows what a page's worker and its WebSocket bring too. Seconds are from
the page's address on; `before` are those in which `./viewer` opens the stream. The page has its
model packed always, so what is measured as plain is a page in which the step that unpacks is left
out. `beside` is a page without a model, which fetches the packed stream from its server: shown when
all of it has come, as with an engine that can't unpack its first records, and as it comes. The kB
count what comes while that picture is made.
"""
import argparse
import queue
import socket
import subprocess
import sys
import tempfile
import threading
import time
from http.server import BaseHTTPRequestHandler, ThreadingHTTPServer
from pathlib import Path
from typing import Callable, Iterator, NamedTuple, Optional

TOP = Path(__file__).resolve().parent.parent
sys.path.insert(0, str(TOP / "tools"))

from browser import Browser  # noqa: E402
from viewer.alone import page_of  # noqa: E402
from viewer.main import programs_of  # noqa: E402
from viewer.model import Model, Programs, model_of, with_packed_stream  # noqa: E402
from viewer.module import module_of  # noqa: E402
from viewer.server import Server  # noqa: E402
from viewer.showing import Showing  # noqa: E402

BITS, LATE = 1_000_000, 0.020  # a second, and seconds each way
PIECE = 4096
LONGEST = 1200.0
UNPACKS = "this.engine.unpack(model.packed)"
UNPACKS_FIRST = b"vdpm_unpack_first"
ADDRESS = "model.vdpz"  # of the stream beside a page
# Seconds since the page's address was opened, once there is a picture.
SEEN = """globalThis.viewer?.firstDrawn && (
  viewer.firstDrawn.then(() => { globalThis.seen ??= performance.now() / 1000; }),
  globalThis.seen
)"""


class Way:
    """One way of a line, which all connections share."""

    def __init__(self) -> None:
        self.lock, self.free, self.bytes = threading.Lock(), 0.0, 0

    def sent(self, size: int) -> float:
        """When the last of so many bytes has gone out."""
        with self.lock:
            self.free = max(self.free, time.monotonic()) + 8 * size / BITS
            self.bytes += size
            return self.free

    def carry(self, source: socket.socket, target: socket.socket) -> None:
        """Passes on what comes, late, until there is no more."""
        due: "queue.SimpleQueue[tuple[float, bytes]]" = queue.SimpleQueue()
        threading.Thread(target=self._deliver, args=(due, target), daemon=True).start()
        data = b"some"
        while data:
            try:
                data = source.recv(PIECE)
            except OSError:
                data = b""
            gone = self.sent(len(data))
            due.put((gone + LATE, data))
            time.sleep(max(0.0, gone - time.monotonic()))

    def _deliver(self, due: "queue.SimpleQueue[tuple[float, bytes]]", to: socket.socket) -> None:
        while True:
            at, data = due.get()
            time.sleep(max(0.0, at - time.monotonic()))
            try:
                if not data:
                    to.shutdown(socket.SHUT_WR)
                    return
                to.sendall(data)
            except OSError:
                return


class SlowLine:
    """A relay to a port of this machine."""

    def __init__(self, port: int) -> None:
        self.target, self.up, self.down = port, Way(), Way()
        self.listening = socket.create_server(("127.0.0.1", 0))
        self.port = self.listening.getsockname()[1]
        threading.Thread(target=self._accept, daemon=True).start()

    def _accept(self) -> None:
        while True:
            try:
                near, _ = self.listening.accept()
            except OSError:
                return
            far = socket.create_connection(("127.0.0.1", self.target))
            for way, ends in ((self.up, (near, far)), (self.down, (far, near))):
                threading.Thread(target=way.carry, args=ends, daemon=True).start()


class Shown(NamedTuple):
    """What is opened over a line, and the seconds that it took before."""

    line: SlowLine
    path: str
    end: Callable[[], None]
    before: float


def by_window(path: Path, programs: Programs) -> Shown:
    begun = time.monotonic()
    server = Server(Showing(programs.vdpm, model_of(path, programs)))
    before = time.monotonic() - begun
    threading.Thread(target=server.serve_forever, daemon=True).start()

    def end() -> None:
        server.shutdown()
        server.server_close()
        server.showing.close()

    line = SlowLine(server.server_port)
    server.hosts.add(f"127.0.0.1:{line.port}")
    return Shown(line, f"{server.token}/", end, before)


def by_page(text: bytes, beside: bytes = b"") -> Shown:
    """A page, which fetches what is beside it, if anything is."""

    class Handler(BaseHTTPRequestHandler):
        def do_GET(self) -> None:
            found = {"/": text, f"/{ADDRESS}": beside}.get(self.path.split("?")[0], b"")
            self.send_response(200 if found else 404)
            self.send_header("Content-Type", "text/html; charset=utf-8")
            self.send_header("Content-Length", str(len(found)))
            self.end_headers()
            self.wfile.write(found)

        def log_message(self, format: str, *words: object) -> None:
            pass

    server = ThreadingHTTPServer(("127.0.0.1", 0), Handler)
    threading.Thread(target=server.serve_forever, daemon=True).start()

    def end() -> None:
        server.shutdown()
        server.server_close()

    path = f"?model={ADDRESS}" if beside else ""
    return Shown(SlowLine(server.server_port), path, end, 0.0)


def pages(module: bytes, model: Model, programs: Programs) -> Iterator["tuple[str, bytes]"]:
    plain = page_of(module, model)
    assert plain.count(UNPACKS) == 1
    yield "plain", plain.replace(UNPACKS, "model.packed").encode()
    yield "packed", page_of(module, with_packed_stream(model, programs)).encode()


def tell(what: str, faces: int, kind: str, shown: Shown, picture: Optional[Path]) -> None:
    line, browser = shown.line, Browser(1280, 800)
    try:
        word = "&" if "?" in shown.path else "?"
        browser.go(f"http://127.0.0.1:{line.port}/{shown.path}{word}sharpness=0.2")
        browser.until(SEEN, LONGEST)
        kilobytes, seconds = line.down.bytes / 1000, browser.run("seen")
        before = f"{shown.before:.1f}" if shown.before else "–"
        print(f"| {what} | {faces:,} | {kind} | {before} | {kilobytes:,.0f} | {seconds:.1f} |",
              flush=True)
        if picture:
            browser.picture(picture)
        for complaint in browser.errors():
            print(complaint, file=sys.stderr)
    finally:
        browser.close()
        line.listening.close()
        shown.end()


def measure(cells: str, room: Path, asked: argparse.Namespace) -> None:
    programs = programs_of(asked.program)
    mesh = room / f"terrain-{cells}.obj"
    with mesh.open("wb") as out:
        command = [sys.executable, str(TOP / "benches" / "terrain.py"), cells]
        subprocess.run(command, stdout=out, check=True)
    model = model_of(mesh, programs)
    packed = with_packed_stream(model, programs).stream

    def picture(name: str) -> Optional[Path]:
        return asked.pictures / f"{name}-{cells}.png" if asked.pictures else None

    for kind, ending, stream in (("plain", "vdpm", model.stream), ("packed", "vdpz", packed)):
        path = mesh.with_suffix(f".{ending}")
        path.write_bytes(stream)
        shown = by_window(path, programs)
        tell("window", model.faces, kind, shown, picture(f"window-{kind}"))
    module = module_of(asked.module)
    for kind, text in pages(module, model, programs):
        tell("page", model.faces, kind, by_page(text), picture(f"page-{kind}"))
    whole = module.replace(UNPACKS_FIRST, UNPACKS_FIRST.upper())
    for kind, engine in (("whole", whole), ("as it comes", module)):
        shown = by_page(page_of(engine).encode(), packed)
        tell("beside", model.faces, kind, shown, picture(f"beside-{kind.split()[-1]}"))


def main() -> None:
    parser = argparse.ArgumentParser(description="Measures the first picture over a slow line.")
    parser.add_argument("cells", nargs="*", default=["100", "316"])
    parser.add_argument("--program", type=Path, default=TOP / "vdpm")
    parser.add_argument("--module", type=Path, help="the page's engine, else it is built")
    parser.add_argument("--pictures", type=Path, help="a folder for what is seen")
    asked = parser.parse_args()
    print("| by | faces | stream | before, s | kB | seconds |")
    print("|" + "---|" * 6)
    with tempfile.TemporaryDirectory() as folder:
        for cells in asked.cells:
            measure(cells, Path(folder), asked)


if __name__ == "__main__":
    main()
