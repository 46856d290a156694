"""Drives a headless Chromium over its DevTools protocol, by the standard library alone: for the
tests of the window and for measurements of it.

    page = Browser()
    page.go("http://127.0.0.1:8000/")
    page.until("document.title === 'ready'")
    page.close()
"""
import base64
import json
import os
import shutil
import socket
import struct
import subprocess
import tempfile
import time
from pathlib import Path
from typing import Any, Dict, List, Optional, Tuple
from urllib.parse import urlparse
from urllib.request import urlopen

NAMES = ("chromium-headless-shell", "chromium", "chromium-browser", "google-chrome")
# Drawing is done by software, so that no graphics processor is needed. The browser sees pages of
# this machine alone,
# so it may run as root, as it does in a container.
FLAGS = (
    "--headless", "--use-gl=angle", "--use-angle=swiftshader", "--enable-unsafe-swiftshader",
    "--hide-scrollbars", "--no-first-run", "--disable-background-networking",
    "--disable-dev-shm-usage", "--no-sandbox",
)
COMPLAINTS = ("Runtime.exceptionThrown", "Runtime.consoleAPICalled", "Log.entryAdded")
# A machine that does much else is slow; nothing waits this long where all is well.
PATIENCE = 600.0
SHIFT = 8  # among the modifiers of an event
LOOK_AGAIN = 0.02


def found() -> Optional[str]:
    """A Chromium of this machine."""
    return next((path for path in (shutil.which(name) for name in NAMES) if path), None)


class Line:
    """The client's end of a WebSocket."""

    def __init__(self, address: str, origin: Optional[str] = None) -> None:
        at = urlparse(address)
        assert at.hostname is not None
        self.end = socket.create_connection((at.hostname, at.port or 80), timeout=PATIENCE)
        key = base64.b64encode(os.urandom(16)).decode()
        head = [
            f"GET {at.path} HTTP/1.1",
            f"Host: {at.netloc}",
            "Upgrade: websocket",
            "Connection: Upgrade",
            f"Sec-WebSocket-Key: {key}",
            "Sec-WebSocket-Version: 13",
        ]
        head += [f"Origin: {origin}"] if origin is not None else []
        self.end.sendall("\r\n".join([*head, "", ""]).encode())
        self.bytes = self.end.makefile("rb")
        status = self.bytes.readline()
        if b" 101 " not in status:
            self.close()
            raise ConnectionRefusedError(status.decode("latin-1").strip())
        while self.bytes.readline().strip():
            pass

    def send(self, text: str) -> None:
        body, mask = text.encode(), os.urandom(4)
        size = len(body)
        if size < 126:
            head = bytes([0x81, 0x80 | size])
        elif size < 1 << 16:
            head = struct.pack(">BBH", 0x81, 0x80 | 126, size)
        else:
            head = struct.pack(">BBQ", 0x81, 0x80 | 127, size)
        self.end.sendall(head + mask + bytes(byte ^ mask[i % 4] for i, byte in enumerate(body)))

    def receive(self) -> bytes:
        """The next message, whether text or bytes."""
        text = b""
        while True:
            first, body = self._part()
            if first & 0x0F in (0, 1, 2):
                text += body
                if first & 0x80:
                    return text

    def _part(self) -> Tuple[int, bytes]:
        first, second = self.bytes.read(2)
        size = second & 0x7F
        if size == 126:
            (size,) = struct.unpack(">H", self.bytes.read(2))
        elif size == 127:
            (size,) = struct.unpack(">Q", self.bytes.read(8))
        return first, self.bytes.read(size)

    def close(self) -> None:
        self.bytes.close()
        self.end.close()


class Browser:
    """One page in a browser of its own."""

    def __init__(self, width: int = 1280, height: int = 800) -> None:
        path = found()
        if path is None:
            raise RuntimeError("no Chromium was found")
        self.folder = Path(tempfile.mkdtemp(prefix="viewer-browser-"))
        words = [path, *FLAGS, f"--user-data-dir={self.folder}", f"--window-size={width},{height}"]
        words += ["--remote-debugging-port=0", "about:blank"]
        self.child = subprocess.Popen(words, stdout=subprocess.DEVNULL, stderr=subprocess.DEVNULL)
        self.number = 0
        self.told: List[Dict[str, Any]] = []
        self.line = Line(self._page())
        for domain in ("Runtime", "Page", "Log"):
            self.call(f"{domain}.enable")
        self.resize(width, height)
        self.call("Browser.setDownloadBehavior", behavior="allow", downloadPath=str(self.folder))

    def _page(self) -> str:
        """The address of the page's own line."""
        told = self.folder / "DevToolsActivePort"
        end = time.monotonic() + PATIENCE
        while not (told.exists() and "\n" in told.read_text()):
            if time.monotonic() > end or self.child.poll() is not None:
                raise RuntimeError("Chromium doesn't start")
            time.sleep(LOOK_AGAIN)
        port = told.read_text().split("\n")[0]
        while time.monotonic() < end:  # (it listens before it has its page)
            with urlopen(f"http://127.0.0.1:{port}/json/list", timeout=PATIENCE) as answer:
                pages = [page for page in json.load(answer) if page["type"] == "page"]
            if pages:
                return str(pages[0]["webSocketDebuggerUrl"])
            time.sleep(LOOK_AGAIN)
        raise RuntimeError("Chromium has no page")

    def call(self, method: str, **words: Any) -> Dict[str, Any]:
        """The result of a command of the protocol."""
        self.number += 1
        self.line.send(json.dumps({"id": self.number, "method": method, "params": words}))
        while True:
            message = json.loads(self.line.receive())
            if message.get("id") == self.number:
                if "error" in message:
                    raise RuntimeError(f"{method}: {message['error']}")
                result: Dict[str, Any] = message["result"]
                return result
            if message.get("method") in COMPLAINTS:
                self.told.append(message)

    def run(self, text: str) -> Any:
        """The value of a JavaScript expression, waited for if it is a promise."""
        done = self.call("Runtime.evaluate", expression=text, returnByValue=True, awaitPromise=True)
        if "exceptionDetails" in done:
            raise RuntimeError(json.dumps(done["exceptionDetails"])[:2000])
        return done["result"].get("value")

    def go(self, address: str) -> None:
        self.call("Page.navigate", url=address)

    def begin(self, address: str) -> None:
        """Goes there from an empty page, so that nothing of the page before is complained of."""
        self.go("about:blank")
        self.told.clear()
        self.go(address)

    def resize(self, width: int, height: int) -> None:
        size = {"width": width, "height": height}
        self.call("Emulation.setDeviceMetricsOverride", **size, deviceScaleFactor=1, mobile=False)

    def until(self, text: str, seconds: float = PATIENCE) -> None:
        """Waits until an expression is true."""
        end = time.monotonic() + seconds
        while not self.run(text):
            if time.monotonic() > end:
                raise TimeoutError(f"never: {text}; {self.errors()}")
            time.sleep(LOOK_AGAIN)

    def errors(self) -> List[str]:
        """What the page's scripts and the browser complained of."""
        calls = "Runtime.consoleAPICalled"
        wrong = [m for m in self.told if m["method"] != calls or m["params"]["type"] == "error"]
        return [json.dumps(message["params"])[:600] for message in wrong]

    def picture(self, path: Path) -> None:
        shot = self.call("Page.captureScreenshot", format="png")
        path.write_bytes(base64.b64decode(shot["data"]))

    def downloaded(self, name: str) -> bytes:
        """A file that the page gave to the browser, which is then removed."""
        path, end = self.folder / name, time.monotonic() + PATIENCE
        # It has another name until it is whole.
        while not path.exists():
            if time.monotonic() > end:
                raise TimeoutError(f"{name} was never saved")
            time.sleep(LOOK_AGAIN)
        data = path.read_bytes()
        path.unlink()
        return data

    def scheme(self, name: str) -> None:
        """The screen is `dark` or `light`."""
        feature = {"name": "prefers-color-scheme", "value": name}
        self.call("Emulation.setEmulatedMedia", features=[feature])

    # Hands.

    def mouse(self, kind: str, x: float, y: float, **more: Any) -> None:
        self.call("Input.dispatchMouseEvent", type=kind, x=x, y=y, **more)

    def click(self, x: float, y: float) -> None:
        for kind in ("mousePressed", "mouseReleased"):
            self.mouse(kind, x, y, button="left", clickCount=1)

    def drag(
        self, start: Tuple[int, int], end: Tuple[int, int], button: str = "left",
        shift: bool = False,
    ) -> None:
        held: Dict[str, Any] = {"button": button, "modifiers": SHIFT if shift else 0}
        self.mouse("mousePressed", *start, clickCount=1, **held)
        for step in range(1, 5):
            x, y = (a + (b - a) * step / 4 for a, b in zip(start, end))
            self.mouse("mouseMoved", x, y, buttons=1, **held)
        self.mouse("mouseReleased", *end, clickCount=1, **held)

    def key(self, key: str, shift: bool = False) -> None:
        for kind in ("keyDown", "keyUp"):
            held = SHIFT if shift else 0
            self.call("Input.dispatchKeyEvent", type=kind, key=key, modifiers=held)

    def touch(self, kind: str, *points: Tuple[int, int]) -> None:
        fingers = [{"x": x, "y": y, "id": number} for number, (x, y) in enumerate(points)]
        self.call("Input.dispatchTouchEvent", type=kind, touchPoints=fingers)

    def close(self) -> None:
        try:
            self.call("Browser.close")
        except (OSError, ValueError):
            self.child.terminate()
        self.child.wait()
        self.line.close()
        shutil.rmtree(self.folder, ignore_errors=True)
