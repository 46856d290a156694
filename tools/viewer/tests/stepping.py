"""How far a file is simplified, as the page that needs no server tells it."""
import json
import re
import shutil
import subprocess
import unittest
from pathlib import Path
from typing import Any, List

from browser import found
from viewer.alone import page_of

from .alone import SHOWN, Page, module
from .common import EXAMPLES

OURS = Path(__file__).resolve().parent.parent / "alone_page"
# An engine that does 20 collapses in a millisecond, down to 10 faces.
ENGINE = """import { simplified } from %s;
let now = 0, closed = 0;
globalThis.performance = { now: () => now };
const steps = [], told = [];
class Run {
  constructor() { this.faces = 1000000; }
  more(most) {
    if (most) steps.push(most);
    const next = Math.max(10, this.faces - 2 * most);
    now += (this.faces - next) / 40;
    this.faces = next;
    return { faces: 1000000, facesLeft: next, ended: next === 10 };
  }
  stream() { return "by steps"; }
  close() { closed++; }
}
const engine = {
  memory: { functions: %s }, simplify: () => "at once", simplifying: () => new Run(),
};
const stream = simplified(engine, "", %s, ({ share }) => told.push(share));
console.log(JSON.stringify({ stream, steps, told, closed }));"""
PACE = """import { Pace } from %s;
const pace = new Pace(1000), left = [pace.left(3000)];
for (const [share, at, now] of %s) {
  pace.tells(share, at);
  left.push(pace.left(now));
}
console.log(JSON.stringify(left));"""
# Keeps what the page says of how far it is, and its bar while it simplifies.
WATCH = """globalThis.said = [], globalThis.bar = [];
new MutationObserver(() => {
  said.push(document.getElementById("doing-said").textContent);
  if (said.at(-1).includes("simplified")) bar.push(document.getElementById("share").value);
  %s
}).observe(document.getElementById("doing-said"), { childList: true }), 0"""
CANCEL = "if (said.at(-1).includes('simplified')) document.getElementById('cancel').click();"


@unittest.skipUnless(shutil.which("node"), "no node")
class Stepping(unittest.TestCase):
    """What the modules do, with an engine and a clock of the test's own."""

    def told(self, text: str, name: str, *given: object) -> Any:
        words = [json.dumps(str(OURS / name)), *map(json.dumps, given)]
        script = ["node", "--input-type=module", "-e", text % tuple(words)]
        return json.loads(subprocess.run(script, capture_output=True, check=True).stdout)

    def test_steps_take_a_tenth_of_a_second(self) -> None:
        told = self.told(ENGINE, "stepping.js", {"vdpm_simplify_begin": 1}, {})
        self.assertEqual((told["stream"], told["closed"]), ("by steps", 1))
        self.assertEqual(told["steps"][:4], [256, 1024, 2000, 2000])
        self.assertEqual(set(told["steps"][2:]), {2000})

    def test_the_share_is_that_of_the_faces_that_have_to_go(self) -> None:
        shares = self.told(ENGINE, "stepping.js", {"vdpm_simplify_begin": 1}, {})["told"]
        self.assertEqual((shares[:3], shares[-1]), ([0, 0, 512e-6], 1))
        self.assertEqual(shares, sorted(shares))
        asked = {"faces": 500_000}
        shares = self.told(ENGINE, "stepping.js", {"vdpm_simplify_begin": 1}, asked)["told"]
        self.assertEqual(shares[2], 2 * 512e-6)

    def test_an_older_engine_simplifies_at_once(self) -> None:
        told = self.told(ENGINE, "stepping.js", {}, {})
        self.assertEqual(told, {"stream": "at once", "steps": [], "told": [], "closed": 0})

    def test_what_is_left_goes_by_the_pace_once_a_second_has_gone(self) -> None:
        given = [
            (0, 5000, 6500), (0.25, 5500, 5900), (0.25, 6000, 6000), (0.5, 7000, 7500),
            (0.5, 7000, 9500),
        ]
        self.assertEqual(self.told(PACE, "pace.js", given), [None, None, None, 3, 1.5, 0])


@unittest.skipUnless(found(), "no Chromium")
class Telling(Page):
    def open_and_watch(self, engine: bytes, more: str = "") -> None:
        path = self.written("page.html", page_of(engine, None).encode())
        self.page.begin(f"{path.as_uri()}?sharpness=0.2")
        self.page.until("globalThis.alone !== undefined")
        self.value(WATCH % more)

    def shares(self) -> List[int]:
        """The per cent that were told of the simplification."""
        found_in = [re.match(r"(\d+) % simplified", said) for said in self.value("said")]
        return [int(found[1]) for found in found_in if found]

    def test_the_share_that_is_simplified_is_told(self) -> None:
        self.open_and_watch(module())
        self.drop(EXAMPLES / "asteroid.obj")
        self.shows("asteroid.obj")
        shares = self.shares()
        self.assertEqual((shares[0], shares[-1], shares), (0, 100, sorted(shares)))
        self.assertGreater(len(shares), 2)
        bar = self.value("bar")
        self.assertEqual(bar, sorted(bar))
        self.assertTrue(0 < bar[0] < bar[-1] < 1, bar)

    def test_an_older_module_tells_none(self) -> None:
        self.open_and_watch(module().replace(b"vdpm_simplify_begin", b"vdpm_simplify_start"))
        self.drop(EXAMPLES / "asteroid.obj")
        self.shows("asteroid.obj")
        self.assertEqual(self.shares(), [])

    def test_cancel_ends_it_on_the_way(self) -> None:
        self.open_and_watch(module(), CANCEL)
        self.drop(EXAMPLES / "asteroid.obj")
        self.page.until("said.some((each) => each.includes('simplified'))")
        self.page.until("document.getElementById('doing').hidden && alone.coming === null")
        self.assertFalse(self.value("document.getElementById('welcome').hidden"))
        self.assertEqual(self.shares()[0], 0)
        self.drop(EXAMPLES / "octahedron.vdpm")
        self.page.until(SHOWN)
        self.shows("octahedron.vdpm")
