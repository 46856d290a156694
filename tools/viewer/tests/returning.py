"""Windows that end and come back, and models that are cancelled on their way."""
import os
import signal
import subprocess
import sys
import time
import unittest
from pathlib import Path
from typing import Dict, List

from browser import PATIENCE, found

from .common import EXAMPLES, TOP, Case, program
from .pages import browser
from .serving import heed_signals, is_running

SETTLED = "globalThis.viewer && viewer.isSettled"
CAMERA = "JSON.stringify(viewer.camera)"
# Simplifies for as long as one lets it, and tells by which process.
SLOW = "#!/bin/sh\necho $$ > '{told}'\nexec sleep 1000\n"


@unittest.skipUnless(found(), "no Chromium")
class WithWindows(Case):
    """`./viewer` as a process of its own, and a page."""

    def setUp(self) -> None:
        self.page = browser()
        self.page.told.clear()
        # (a page whose server is gone asks for it on and on)
        self.addCleanup(self.page.go, "about:blank")
        self.settings: Dict[str, str] = {**os.environ, "XDG_CACHE_HOME": str(self.folder())}
        self.said = self.folder() / "said"

    def started(self, path: Path, vdpm: Path) -> "subprocess.Popen[str]":
        words = [sys.executable, str(TOP / "viewer"), str(path), "--program", str(vdpm)]
        with self.said.open("a") as said:
            window = subprocess.Popen(
                words, stdout=subprocess.PIPE, stderr=said, text=True, env=self.settings,
                preexec_fn=heed_signals,
            )
        self.addCleanup(window.wait)
        self.addCleanup(window.kill)
        assert window.stdout is not None
        self.addCleanup(window.stdout.close)
        self.address = window.stdout.readline().split()[1]
        return window


class Returning(WithWindows):
    def test_an_open_tab_goes_on_when_its_window_is_started_again(self) -> None:
        window = self.started(EXAMPLES / "asteroid.obj", program())
        address = self.address
        self.page.go(f"{address}?sharpness=0.2")
        self.page.until(SETTLED)
        self.page.drag((300, 300), (380, 340))
        self.page.key("+")
        self.page.key("e")
        self.page.until(SETTLED)
        camera, asked = self.page.run(f"[{CAMERA}, viewer.views.asked]")
        window.send_signal(signal.SIGINT)
        window.wait(PATIENCE)
        self.page.until("!document.getElementById('fault').hidden")
        self.page.run("globalThis.isOld = true, 0")
        self.started(EXAMPLES / "asteroid.obj", program())
        self.assertEqual(self.address, address)
        self.page.until(f"!globalThis.isOld && {SETTLED} && viewer.views.asked === {asked!r}")
        self.assertEqual(self.page.run(CAMERA), camera)
        self.assertTrue(self.page.run("viewer.set.edges"))
        self.assertTrue(self.page.run("document.getElementById('fault').hidden"))


class Cancelling(WithWindows):
    def test_cancel_stops_what_is_being_made(self) -> None:
        folder = self.folder()
        for name in ("vdpm", "prepare"):
            (folder / name).write_text(f"#!/bin/sh\nexec '{program().parent / name}' \"$@\"\n")
        told = folder / "told"
        (folder / "simplify").write_text(SLOW.format(told=told))
        for name in ("vdpm", "prepare", "simplify"):
            (folder / name).chmod(0o755)
        window = self.started(EXAMPLES / "asteroid.obj", folder / "vdpm")
        self.page.go(self.address)
        self.page.until("document.querySelector('#steps .now')?.textContent === 'Simplifying'")
        self.page.until("!document.getElementById('doing').hidden")
        child = Path(f"/proc/{self.number_in(told)}")
        self.assertTrue(is_running(child))
        self.page.click(*self.middle_of("cancel"))
        self.page.until("document.getElementById('fault-title').textContent === 'Cancelled'")
        self.assertEqual(self.page.run("document.getElementById('doing').hidden"), True)
        said = self.page.run("document.getElementById('fault-reason').textContent")
        self.assertIn("./viewer has ended", said)
        self.assertEqual(window.wait(PATIENCE), 130)
        end = time.monotonic() + PATIENCE
        while is_running(child):
            self.assertLess(time.monotonic(), end, "the program goes on")
            time.sleep(0.01)
        self.assertIn("cancelled in the window", self.said.read_text())

    def number_in(self, told: Path) -> str:
        end = time.monotonic() + PATIENCE
        while not (told.exists() and told.read_text().strip()):
            self.assertLess(time.monotonic(), end, "nothing is simplified")
            time.sleep(0.01)
        return told.read_text().strip()

    def middle_of(self, name: str) -> List[float]:
        found: List[float] = self.page.run(
            f"(({{ left, top, width, height }}) => [left + width / 2, top + height / 2])"
            f"(document.getElementById('{name}').getBoundingClientRect())"
        )
        return found
