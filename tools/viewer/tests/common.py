"""What the tests of the window share: the program, models, and a server that ends with its test."""
import os
import subprocess
import tempfile
import threading
import unittest
from functools import lru_cache
from pathlib import Path
from typing import Callable, List

from viewer.main import programs_of
from viewer.model import Model, model_of
from viewer.program import ALL_MOVES, Answer
from viewer.server import Server
from viewer.showing import Showing

TOP = Path(__file__).resolve().parents[3]
EXAMPLES = TOP / "examples"
STREAM = EXAMPLES / "octahedron.vdpm"


@lru_cache(maxsize=None)
def program() -> Path:
    """The vdpm that is tried: tools/test_viewer.py names another one so. It is run once before, so
    that no test waits until it is built."""
    path = Path(os.environ.get("VIEWER_TESTS_PROGRAM", TOP / "vdpm")).resolve()
    subprocess.run([str(path), "check"], input=STREAM.read_bytes(), capture_output=True, check=True)
    return path


@lru_cache(maxsize=None)
def model(name: str) -> Model:
    """The model of an example."""
    return model_of(EXAMPLES / name, programs_of(program()))


class Case(unittest.TestCase):
    """A test with a folder of its own."""

    def folder(self) -> Path:
        made = tempfile.TemporaryDirectory()
        self.addCleanup(made.cleanup)
        return Path(made.name)

    def written(self, name: str, data: bytes, runs: bool = False) -> Path:
        path = self.folder() / name
        path.write_bytes(data)
        path.chmod(0o755 if runs else 0o644)
        return path

    def served(self, looked_at: Model, budget: int = ALL_MOVES) -> Server:
        server = Server(Showing(program(), looked_at, budget))
        threading.Thread(target=server.serve_forever, args=(0.02,), daemon=True).start()
        self.addCleanup(end, server)
        return server


def asked_at_once(ask: Callable[[str], Answer], script: str, count: int) -> List[bytes]:
    """The replies to a script from so many threads."""
    texts: List[bytes] = []
    each = lambda: texts.append(ask(script).text)  # noqa: E731
    threads = [threading.Thread(target=each) for _ in range(count)]
    for one in threads:
        one.start()
    for one in threads:
        one.join()
    return texts


def end(server: Server) -> None:
    server.shutdown()
    server.server_close()
    server.showing.close()
