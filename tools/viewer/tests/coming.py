"""A page that fetches its model from the server that it is from: the model is shown as it comes,
the whole at last, and what hinders that is told."""
import threading
from http.server import BaseHTTPRequestHandler, ThreadingHTTPServer
from typing import Callable, List, Optional, Tuple
from urllib.parse import urlparse

from viewer.alone import page_of

from .alone import Page, looked_at, module
from .common import STREAM
from .pages import COARSE

SETTLED = "globalThis.viewer?.isSettled"
WHOLE = f"alone.fetching === null && alone.times && {SETTLED}"
FIRST = 1 << 12  # bytes of a packed file from which on it is shown
UNPACKS_FIRST = b"vdpm_unpack_first"


class Tap:
    """A file, of which as many bytes go out as a test lets."""

    def __init__(self, data: bytes) -> None:
        self.data, self.allowed, self.breaks = data, 0, False
        self.changed = threading.Condition()

    def let(self, size: int) -> None:
        with self.changed:
            self.allowed = min(size, len(self.data))
            self.changed.notify_all()

    def break_off(self) -> None:
        with self.changed:
            self.breaks = True
            self.changed.notify_all()

    def pour(self, write: Callable[[bytes], object]) -> None:
        at = 0
        while at < len(self.data):
            with self.changed:
                self.changed.wait_for(lambda: self.breaks or self.allowed > at)
                end = self.allowed
            if end == at:
                return
            write(self.data[at:end])
            at = end


def served(page: bytes, tap: Tap, tells_length: bool = True) -> ThreadingHTTPServer:
    """A server of `page.html`, and of `model.vdpz` and `model.vdpm` as the tap lets."""

    class Handler(BaseHTTPRequestHandler):
        def do_GET(self) -> None:
            name = urlparse(self.path).path
            is_page, is_model = name == "/page.html", name.startswith("/model.")
            self.send_response(200 if is_page or is_model else 404)
            if is_page:
                self.send_header("Content-Type", "text/html; charset=utf-8")
            elif is_model and tells_length:
                self.send_header("Content-Length", str(len(tap.data)))
            self.end_headers()
            if is_page:
                self.wfile.write(page)
            elif is_model:
                tap.pour(self.wfile.write)

        def log_message(self, format: str, *words: object) -> None:
            pass

    server = ThreadingHTTPServer(("127.0.0.1", 0), Handler)
    server.daemon_threads = True
    threading.Thread(target=server.serve_forever, args=(0.02,), daemon=True).start()
    return server


class Coming(Page):
    def fetch(
        self, data: bytes, address: str = "model.vdpz", tells_length: bool = True,
        engine: Optional[bytes] = None,
    ) -> Tap:
        """Opens a page that fetches its model from that address."""
        tap = Tap(data)
        server = served(page_of(engine or module()).encode(), tap, tells_length)
        for close in (server.server_close, server.shutdown, tap.break_off):
            self.addCleanup(close)
        self.page.begin(
            f"http://127.0.0.1:{server.server_port}/page.html?model={address}&sharpness=0.2")
        self.page.until("globalThis.alone !== undefined")
        return tap

    def said(self, text: str) -> None:
        """The bar says how much has come."""
        self.page.until(f"document.getElementById('come').textContent === {text!r}")

    def faces(self) -> int:
        return int(self.value("viewer.hierarchy.faces"))

    def finer(self, tap: Tap, size: int) -> int:
        """Lets so many bytes go out, and waits for what they show: how many faces are there."""
        before = self.faces() if self.value("Boolean(globalThis.viewer)") else 0
        tap.let(size)
        self.page.until(f"globalThis.viewer?.hierarchy?.faces > {before} && {SETTLED}")
        return self.faces()

    def camera(self) -> List[object]:
        """Where the camera is. (From which height heights are stretched is of the model.)"""
        names = ("target", "distance", "yaw", "pitch", "upright")
        return [self.value(f"viewer.camera.{name}") for name in names]

    def settings(self) -> List[Tuple[str, object]]:
        names = ("edges", "glide", "tolerance", "outline", "budget")
        both = "(({ value, checked }) => [value, checked])"
        return [(name, self.value(f"{both}(document.getElementById('{name}'))")) for name in names]

    def is_hidden(self, name: str) -> bool:
        return bool(self.value(f"document.getElementById('{name}').hidden"))


class Showing(Coming):
    def test_first_bytes_are_shown_and_refined_as_more_come(self) -> None:
        model = looked_at("asteroid.obj")
        data = model.stream
        tap = self.fetch(data)
        tap.let(FIRST // 2)
        self.said(f"2 of {round(len(data) / 1024)} kB")
        self.assertFalse(self.value("Boolean(globalThis.viewer)"))
        first = self.finer(tap, FIRST)
        self.assertTrue(self.is_hidden("saves") and not self.is_hidden("come"))
        self.assertTrue(self.value("document.getElementById('beside').disabled"))
        self.page.key("ArrowLeft")
        for name, value in (("tolerance", COARSE), ("outline", 2), ("budget", 12)):
            self.value(
                f"(() => {{ const s = document.getElementById('{name}'); s.value = {value};"
                " s.dispatchEvent(new Event('input', { bubbles: true })); })()")
        for name in ("edges", "glide"):
            self.value(f"document.getElementById('{name}').click()")
        self.page.until(SETTLED)
        camera, settings = self.camera(), self.settings()
        second = self.finer(tap, 2 * FIRST)
        self.assertEqual((self.camera(), self.settings()), (camera, settings))
        tap.let(len(data))
        self.page.until(WHOLE)
        self.assertEqual((self.camera(), self.settings()), (camera, settings))
        self.assertTrue(0 < first < second < self.faces() == model.faces)
        self.assertTrue(self.is_hidden("come") and not self.is_hidden("saves"))
        self.assertFalse(self.value("document.getElementById('beside').disabled"))
        self.value("document.getElementById('save-packed').click()")
        self.assertEqual(self.page.downloaded("model.vdpz"), data)
        self.assertEqual(self.page.errors(), [])

    def test_hands_go_on_with_what_they_hold(self) -> None:
        tap = self.fetch(looked_at("asteroid.obj").stream)
        self.finer(tap, FIRST)
        self.page.mouse("mousePressed", 300, 200, button="left", clickCount=1)
        self.page.mouse("mouseMoved", 310, 200, button="left", buttons=1)
        self.page.until(SETTLED)
        before = self.camera()
        self.finer(tap, 2 * FIRST)
        self.assertEqual(self.camera(), before)
        self.page.mouse("mouseMoved", 330, 200, button="left", buttons=1)
        self.page.mouse("mouseReleased", 330, 200, button="left", clickCount=1)
        self.page.until(SETTLED)
        self.assertNotEqual(self.camera(), before)

    def test_who_sees_the_whole_sees_it_at_last(self) -> None:
        data = looked_at("asteroid.obj").stream
        tap = self.fetch(data)
        self.finer(tap, FIRST)
        tap.let(len(data))
        self.page.until(WHOLE)
        at_last = self.camera(), self.value("viewer.views.asked")
        self.page.begin(str(self.value("location.href")))
        self.page.until(f"globalThis.alone?.fetching === null && {WHOLE}")
        self.assertEqual((self.camera(), self.value("viewer.views.asked")), at_last)

    def test_a_length_that_is_not_known_is_not_told(self) -> None:
        model = looked_at("asteroid.obj")
        data = model.stream
        tap = self.fetch(data, tells_length=False)
        self.finer(tap, FIRST)
        self.said("4 kB so far")
        tap.let(len(data))
        self.page.until(WHOLE)
        self.assertEqual(self.faces(), model.faces)

    def test_other_files_and_older_engines_wait_for_the_whole(self) -> None:
        older = module().replace(UNPACKS_FIRST, UNPACKS_FIRST[:-1] + b"T")
        packed = looked_at("asteroid.obj").stream
        for data, name, engine in (
            (STREAM.read_bytes(), "model.vdpm", None), (packed, "model.vdpz", older),
        ):
            with self.subTest(name):
                tap = self.fetch(data, name, engine=engine)
                tap.let(len(data) - 1)
                self.page.until("alone.fetching?.size > 0")
                self.assertFalse(self.value("Boolean(globalThis.viewer)"))
                tap.let(len(data))
                self.page.until(WHOLE)
                self.shows(name)


class Failing(Coming):
    def still_shown(self, faces: int) -> None:
        """What was shown before is, and can be turned."""
        self.assertEqual(self.faces(), faces)
        self.assertTrue(self.is_hidden("come") and self.is_hidden("saves"))
        asked = self.value("viewer.views.asked")
        self.page.key("ArrowLeft")
        self.page.until(f"viewer.views.asked !== {asked!r} && {SETTLED}")

    def test_a_line_that_breaks_off(self) -> None:
        tap = self.fetch(looked_at("asteroid.obj").stream)
        faces = self.finer(tap, FIRST)
        tap.break_off()
        self.refuses("The line broke off", "load the page again")
        self.still_shown(faces)

    def test_a_damaged_file(self) -> None:
        data = looked_at("asteroid.obj").stream
        tap = self.fetch(data[: 2 * FIRST])
        faces = self.finer(tap, FIRST)
        tap.let(len(data))
        self.refuses("fault 35", "copy it again")
        self.still_shown(faces)

    def test_what_cannot_be_asked_for(self) -> None:
        for address, reason, cure in (
            ("none.vdpz", "The server answers 404 to /none.vdpz", "beside the page"),
            ("http://127.0.0.1:1/model.vdpz", "another server", "beside the page"),
            ("http://[", "is no address", "beside the page"),
        ):
            with self.subTest(address):
                self.fetch(b"", address)
                self.refuses(reason, cure)
                self.assertFalse(self.is_hidden("welcome"))

    def test_a_page_from_the_disk(self) -> None:
        path = self.written("page.html", page_of(module()).encode())
        self.page.begin(f"{path.as_uri()}?model=model.vdpz")
        self.page.until("globalThis.alone !== undefined")
        self.refuses("opened from the disk", "web server")
