"""What the server gives, and to whom."""
import http.client
import io
import json
import os
import signal
import socket
import struct
import subprocess
import sys
import threading
import time
from contextlib import redirect_stderr
from pathlib import Path
from typing import Any, Dict, List, Optional, Tuple

from browser import PATIENCE, Line
from viewer import seat
from viewer.page_files import FILES, PAGE
from viewer.program import ALL_MOVES, Answer
from viewer.server import Server

from .common import EXAMPLES, STREAM, TOP, Case, model, program

HEAD = 20  # bytes of numbers before the replies
# What plays a film is in the same folder, and isn't served.
OF_FILMS = {"film.html", "film.js", "flight.js", "packed.js", "reel.js"}


class Serving(Case):
    def setUp(self) -> None:
        self.server = self.served(model("octahedron.vdpm"))
        self.host = f"127.0.0.1:{self.server.server_port}"
        self.root = f"/{self.server.token}/"

    def asked(
        self, path: str, body: Optional[str] = None, **headers: Optional[str]
    ) -> Tuple[int, bytes]:
        own = {"Host": self.host, "Origin": f"http://{self.host}"}
        sent: Dict[str, Optional[str]] = {**own, **headers}
        line = http.client.HTTPConnection("127.0.0.1", self.server.server_port, timeout=PATIENCE)
        method = "GET" if body is None else "POST"
        line.request(method, path, body, {name: value for name, value in sent.items() if value})
        answer = line.getresponse()
        text = answer.read()
        line.close()
        return answer.status, text

    def line(self, origin: Optional[str] = None, root: Optional[str] = None) -> Line:
        at = f"ws://{self.host}{self.root if root is None else root}talk"
        line = Line(at, f"http://{self.host}" if origin is None else origin)
        self.addCleanup(line.close)
        return line

    def test_it_listens_here_alone(self) -> None:
        self.assertEqual(self.server.server_address[0], "127.0.0.1")

    def test_each_file_of_the_page_is_served_and_no_other(self) -> None:
        self.assertEqual({path.name for path in PAGE.iterdir()}, set(FILES) | OF_FILMS)
        for name in FILES:
            self.assertEqual(self.asked(self.root + name), (200, (PAGE / name).read_bytes()))
        others = ("../main.py", "main.py", "%2e%2e/main.py", "/etc/passwd", "film.js", "page/")
        for path in others:
            self.assertEqual(self.asked(self.root + path)[0], 404, path)

    def test_other_hosts_are_refused(self) -> None:
        port = self.server.server_port
        for host in ("evil.example", f"evil.example:{port}", "127.0.0.1", "127.0.0.1:1"):
            for path, body in (("", None), ("stream", None), ("talk", None), ("start", "1")):
                self.assertEqual(self.asked(self.root + path, body, Host=host)[0], 403, host)

    def test_a_missing_or_wrong_token_is_refused(self) -> None:
        token = self.server.token
        wrong = "x" * len(token)
        for root in ("/", "//", f"/{wrong}/", f"/{token[:-1]}/", f"/{token}"):
            for path, body in (("", None), ("stream", None), ("main.js", None), ("start", "1")):
                self.assertEqual(self.asked(root + path, body)[0], 403, root + path)
        with self.assertRaises(ConnectionRefusedError):
            self.line(root=f"/{wrong}/")

    def test_tokens_differ(self) -> None:
        self.assertNotEqual(self.served(model("octahedron.vdpm")).token, self.server.token)

    def test_scripts_of_other_pages_are_refused(self) -> None:
        for origin in ("http://evil.example", "null", ""):
            self.assertEqual(self.asked(f"{self.root}talk", Origin=origin)[0], 403, origin)
            self.assertEqual(self.asked(f"{self.root}start", "1", Origin=origin)[0], 403, origin)
            with self.assertRaises(ConnectionRefusedError):
                self.line(origin=origin)

    def said(self, line: Line, script: str) -> bytes:
        line.send(script)
        return line.receive()

    def test_scripts_are_answered_in_order(self) -> None:
        line = self.line()
        scripts = ["m\n", "w\n", "m\nw\n"]
        for script in scripts:
            line.send(script)
        begins = [line.receive()[HEAD:].split()[0] for _ in scripts]
        self.assertEqual(begins, [b"shape", b"frame", b"shape"])
        self.assertIn(b"line 1 is none that a page may send", self.said(line, "q\n"))
        self.assertEqual(self.said(line, "m\n")[HEAD:].split()[0], b"shape")
        flight = self.asked(f"{self.root}flight")
        self.assertEqual(flight, (200, "".join([*scripts, "m\n"]).encode()))

    def test_what_is_no_message_ends_the_line(self) -> None:
        line = self.line()
        line.end.sendall(bytes([0x81, 2]) + b"m\n")  # without a mask
        self.assertEqual(line.bytes.read(), b"")
        self.assertEqual(self.asked(f"{self.root}talk")[0], 400)
        self.assertEqual(self.asked(f"{self.root}start", "1" * 70000)[0], 413)

    def test_a_page_that_is_left_before_its_answer_is_let_go(self) -> None:
        came, left, ended = threading.Event(), threading.Event(), threading.Event()
        answers = iter((b"-" * 100, b"-" * 5_000_000))

        def slow(script: str) -> Answer:
            answer = next(answers)
            if len(answer) > 100:
                came.set()
                left.wait(PATIENCE)
            return Answer(answer, 0.0, 0.0)

        def shut(request: Any) -> None:
            Server.shutdown_request(self.server, request)
            ended.set()

        setattr(self.server.showing, "ask", slow)
        setattr(self.server, "shutdown_request", shut)
        with redirect_stderr(io.StringIO()) as said:
            line = self.line()
            line.send("w\n")
            line.send("w\n")
            self.assertTrue(came.wait(PATIENCE))
            line.close()  # with an answer unread, so that the other end is told at once
            left.set()
            self.assertTrue(ended.wait(PATIENCE))
            time.sleep(0.1)
        self.assertEqual(said.getvalue(), "")

    def test_the_stream_and_what_is_told_of_it_are_there(self) -> None:
        self.assertEqual(self.asked(f"{self.root}stream"), (200, STREAM.read_bytes()))
        about = json.loads(self.asked(f"{self.root}about")[1])
        self.assertEqual((about["name"], about["coloured"]), ("octahedron.vdpm", False))

    def test_before_its_model_it_tells_how_far_that_is(self) -> None:
        showing = self.server.showing
        setattr(self.server, "showing", None)
        self.server.progress.name = "octahedron.vdpm"
        self.server.progress.begins("building")
        told = json.loads(self.asked(f"{self.root}progress")[1])
        self.assertEqual((told["isReady"], told["name"]), (False, "octahedron.vdpm"))
        self.assertEqual([state for _, state in told["steps"]], ["done", "done", "now", "", ""])
        self.assertEqual(self.asked(f"{self.root}")[0], 200)
        for path in ("about", "stream", "flight", "talk"):
            self.assertEqual(self.asked(self.root + path)[0], 503, path)
        with self.assertRaises(ConnectionRefusedError):
            self.line()
        self.assertEqual(self.asked(f"{self.root}start", "1")[0], 404)
        self.server.progress.fails("no", "do that")
        told = json.loads(self.asked(f"{self.root}progress")[1])
        self.assertEqual(told["fault"], {"reason": "no", "cure": "do that"})
        self.server.showing = showing
        self.assertTrue(json.loads(self.asked(f"{self.root}progress")[1])["isReady"])

    def test_it_tells_how_many_pages_show_it(self) -> None:
        alive = lambda: json.loads(self.asked(f"{self.root}alive")[1])["pages"]  # noqa: E731
        self.assertEqual(alive(), 0)
        line = self.line()
        self.said(line, "m\n")
        self.assertEqual(alive(), 1)
        self.assertEqual(seat.pages_at(self.seat()), 1)
        self.assertIsNone(seat.pages_at(self.seat()._replace(token="x" * 22)))

    def seat(self) -> seat.Seat:
        return seat.Seat(self.server.server_port, self.server.token, [])

    def test_a_program_that_ended_is_told_and_can_be_started_again(self) -> None:
        line = self.line()
        self.assertIn(b"fault 30", self.said(line, "v 0 0 0 70000 1\n"))
        self.assertIn(b"fault 30", self.said(line, "w\n"))
        self.assertEqual(self.asked(f"{self.root}start", "-1")[0], 400)
        status, text = self.asked(f"{self.root}start", "1")
        self.assertEqual((status, json.loads(text)["budget"]), (200, 1))
        self.assertEqual(self.said(line, "v 0 -9 0 1000 0\n")[HEAD:], b"spent 1 1\n")

    def test_a_budget_that_was_changed_is_told(self) -> None:
        line = self.line()
        self.assertEqual(self.said(line, "b 1\nv 0 -9 0 1000 0\n")[HEAD:], b"ok\nspent 1 1\n")
        about = json.loads(self.asked(f"{self.root}about")[1])
        self.assertEqual((about["budget"], about["startedWith"]), (1, ALL_MOVES))

    def test_answers_tell_which_front_was_marked(self) -> None:
        line = self.line()
        heads = [self.said(line, script)[8:16] for script in ("w\n", "w\nk\n", "d\n")]
        (one, same), (before, kept), (marked, last) = (struct.unpack("<2I", h) for h in heads)
        self.assertEqual((same, before, marked), (one, one, kept))
        self.assertNotEqual(last, kept)


class Ending(Case):
    """`./viewer` itself, and the program under it."""

    def setUp(self) -> None:
        self.settings = {**os.environ, "XDG_CACHE_HOME": str(self.folder())}

    def started(self, *more: str) -> "subprocess.Popen[str]":
        words = [sys.executable, str(TOP / "viewer"), str(STREAM), "--program", str(program())]
        window = subprocess.Popen(
            [*words, *more], stdout=subprocess.PIPE, stderr=subprocess.DEVNULL, text=True,
            preexec_fn=heed_signals, env=self.settings,
        )
        self.addCleanup(window.wait)
        self.addCleanup(window.kill)
        assert window.stdout is not None
        self.addCleanup(window.stdout.close)
        self.said = window.stdout.readline()
        self.assertRegex(self.said, r"^viewer: http://127\.0\.0\.1:\d+/\S{16,}/ ")
        return window

    def ended(self, window: "subprocess.Popen[str]") -> None:
        """Ends a window by Ctrl-C, once it is told of that."""
        window.send_signal(signal.SIGINT)
        window.wait(PATIENCE)

    def test_its_next_start_has_the_same_address(self) -> None:
        window = self.started()
        address = self.said
        second = self.started()
        self.assertEqual(second.wait(PATIENCE), 0)
        self.assertEqual(self.said, address.replace("(Ctrl-C ends)", "shows it already"))
        self.ended(window)
        [place] = (Path(self.settings["XDG_CACHE_HOME"]) / "vdpm/windows").iterdir()
        self.assertEqual(place.stat().st_mode & 0o77, 0)
        again = self.started()
        self.assertEqual(self.said, address)
        other = self.started("--budget", "9")
        self.assertNotEqual(self.said, address)
        self.ended(again)
        self.ended(other)

    def test_a_port_that_is_taken_is_told_before_anything_is_built(self) -> None:
        with socket.create_server(("127.0.0.1", 0)) as other:
            port = str(other.getsockname()[1])
            words = [sys.executable, str(TOP / "viewer"), str(EXAMPLES / "asteroid.obj")]
            done = subprocess.run(
                [*words, "--port", port, "--program", "nowhere"], capture_output=True, text=True,
                check=False, env=self.settings,
            )
        self.assertEqual((done.returncode, done.stdout), (1, ""))
        self.assertIn(f"port {port} can't be had", done.stderr)

    def children(self, number: int) -> List[Path]:
        """The processes that a process started (Linux)."""
        tasks = Path(f"/proc/{number}/task").glob("*/children")
        return [Path(f"/proc/{child}") for task in tasks for child in task.read_text().split()]

    def test_each_way_to_end_it_ends_the_program(self) -> None:
        for number in (signal.SIGHUP, signal.SIGTERM, signal.SIGINT, signal.SIGKILL):
            window = self.started()
            end = time.monotonic() + PATIENCE
            # (it is checked by a program that ends, before the one that shows it)
            while len(children := self.children(window.pid)) != 1 or not is_live(children[0]):
                self.assertLess(time.monotonic(), end, "no program is started")
                time.sleep(0.01)
            os.kill(window.pid, number)
            window.wait(PATIENCE)
            end = time.monotonic() + PATIENCE
            while any(is_running(child) for child in children):
                self.assertLess(time.monotonic(), end, f"{number}: the program goes on")
                time.sleep(0.01)


def heed_signals() -> None:
    """Heeds what a test passes over that runs under nohup, or behind a shell's back."""
    for number in (signal.SIGHUP, signal.SIGINT):
        signal.signal(number, signal.SIG_DFL)


def is_live(process: Path) -> bool:
    """Whether a process is the program that shows the model."""
    try:
        return b"\0live\0" in (process / "cmdline").read_bytes()
    except OSError:
        return False


def is_running(process: Path) -> bool:
    """Whether a process is there and isn't a mere rest that waits to be asked for its status."""
    try:
        return ") Z " not in (process / "stat").read_text()
    except OSError:
        return False
