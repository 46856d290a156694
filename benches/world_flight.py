"""Flies over a world of tiles in a headless browser, and prints what each flight took:

    python3 benches/world_flight.py WORLD [--program PATH] [--tolerances 16 8 4] [--steps 60]
        [--memory MB] [--picture FILE]

A flight comes down from where all of the world is seen to a hundredth of that distance, and then
goes on over a quarter of the world. At each of STEPS places it waits until the window shows all as
it is asked for there: programs are started and ended, and asked for what is seen of their tiles.
Nothing is drawn, since a headless browser draws by software; but FILE gets a picture of how the
world looks from low above it. A row has

    step      from the camera to a front that can be drawn, the median and the 95th percentile, in
              milliseconds; a browser looks 60 times a second
    steps/s   of the whole flight
    faces     that are shown: the median, and the most
    open      programs of tiles that are shown, and the tiles that are closed: the most of each
    MB        of memory that all programs that run take as the window reckons, and as Linux tells
              it: the most of each
"""
import argparse
import sys
import threading
from math import log2
from pathlib import Path
from typing import Any, Dict, List

TOP = Path(__file__).resolve().parent.parent
sys.path.insert(0, str(TOP / "tools"))

from browser import Browser  # noqa: E402
from viewer.world import WorldServer, WorldShowing, showing_of  # noqa: E402

READY = "globalThis.viewer && viewer.isSettled"
BARE = """(() => {
  const home = viewer.camera.copy(), { low, high } = viewer.about;
  home.target[2] = 0.7 * low[2] + 0.3 * high[2];
  Object.assign(globalThis, { home });
  viewer.scene.draw = () => {};
  glide.click();
})()"""
TOLERANCE = """((pixels) => {
  tolerance.value = pixels;
  tolerance.dispatchEvent(new Event("input", { bubbles: true }));
})"""
# A step, at parts of the ways down and on.
STEP = """(async (down, on) => {
  const began = performance.now(), camera = home.copy();
  const aside = 0.25 * viewer.radius * (on - 1), [x, y, z] = home.target;
  camera.target = [x + aside, y + aside, z];
  Object.assign(camera, { distance: home.distance * 0.01 ** down, pitch: 1.2 - down });
  Object.assign(viewer, { camera, dirty: true });
  await viewer.settled();
  const { tiles: { counts, wanted } } = viewer;
  return {
    took: performance.now() - began, faces: counts.faces, open: wanted.open.length,
    closed: wanted.closed.length,
  };
})"""
LOW = """((camera) => {
  Object.assign(camera, { distance: 0.2 * home.distance, pitch: 0.2 });
  Object.assign(viewer, { camera, dirty: true });
  return viewer.settled();
})(home.copy())"""
SEEN = """(({ scene }) => {
  scene.draw = (camera, look) => scene.drawAs(camera, look, scene.picture(), 1);
  viewer.dirty = true;
  return viewer.settled();
})(viewer)"""


def at(values: List[float], part: float) -> float:
    ordered = sorted(values)
    return ordered[min(len(ordered) - 1, int(part * len(ordered)))]


def held(name: str) -> float:
    """The megabytes that this process's children of a name have in memory."""
    found = 0
    for path in Path("/proc/self/task").glob("*/children"):
        for child in path.read_text().split():
            told = Path(f"/proc/{child}/status").read_text()
            if told.startswith(f"Name:\t{name}\n"):
                found += sum(int(line.split()[1]) for line in told.splitlines() if "VmRSS" in line)
    return found * 1024 / 1e6


def flight_row(browser: Browser, tolerance: float, steps: int, showing: WorldShowing) -> str:
    browser.run(f"{TOLERANCE}({4 * log2(tolerance):.0f})")
    browser.run(f"{STEP}(0, 0)")
    found: List[Dict[str, Any]] = []
    reckoned = had = 0.0
    for step in range(1, steps + 1):
        part = 2 * step / steps
        found.append(browser.run(f"{STEP}({min(1.0, part)}, {max(0.0, part - 1)})"))
        reckoned, had = max(reckoned, showing.held / 1e6), max(had, held(showing.path.name))
    took, faces = ([one[name] for one in found] for name in ("took", "faces"))
    most = [max(one[name] for one in found) for name in ("faces", "open", "closed")]
    cells = [f"{at(took, 0.5):.0f} / {at(took, 0.95):.0f}", f"{1000 * steps / sum(took):.1f}"]
    cells += [f"{at(faces, 0.5):,.0f} / {most[0]:,}", f"{most[1]} / {most[2]}"]
    cells += [f"{reckoned:.0f} / {had:.0f}"]
    return f"| {tolerance:g} | {' | '.join(cells)} |"


def fly(browser: Browser, asked: argparse.Namespace, showing: WorldShowing) -> None:
    browser.run(BARE)
    print("| px | step | steps/s | faces | open / closed | MB |\n|" + "---|" * 6)
    for tolerance in asked.tolerances:
        print(flight_row(browser, tolerance, asked.steps, showing), flush=True)
    if asked.picture:
        browser.run(LOW)
        browser.run(SEEN)
        browser.picture(asked.picture)
    for complaint in browser.errors():
        print(complaint, file=sys.stderr)


def arguments() -> argparse.Namespace:
    parser = argparse.ArgumentParser(description="Measures a flight over a world.")
    parser.add_argument("world", type=Path)
    parser.add_argument("--program", type=Path, default=TOP / "vdpm")
    parser.add_argument("--tolerances", type=float, nargs="+", default=[16, 8, 4])
    parser.add_argument("--steps", type=int, default=60)
    parser.add_argument("--memory", type=int, default=1000, help="of programs, in megabytes")
    parser.add_argument("--picture", type=Path)
    return parser.parse_args()


def main() -> None:
    asked = arguments()
    showing = showing_of(asked.program.resolve(), asked.world, 1_000_000 * asked.memory)
    server = WorldServer(showing)
    threading.Thread(target=server.serve_forever, daemon=True).start()
    browser = Browser(1280, 800)
    try:
        browser.go(f"{server.address}?sharpness=0.05")
        browser.until(READY)
        fly(browser, asked, showing)
    finally:
        browser.close()
        server.shutdown()
        server.server_close()
        showing.close()


if __name__ == "__main__":
    main()
