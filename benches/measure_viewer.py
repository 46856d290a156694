"""Flies over a model in a headless browser, and prints where the time of each view goes:

    python3 benches/measure_viewer.py MODEL.. [--program PATH] [--by deviation distance]
        [--tolerances 32 16 8] [--steps 100]

MODEL is a stream, as `python3 benches/terrain.py 316 > terrain.obj` and `vdpm build` make one; or a
number of cells a side, and then that terrain is made and built first:

    python3 benches/measure_viewer.py 316 707

measures over 200,000 faces and over a million. The flight is the same for each tolerance: STEPS
places along a smooth way, a view and what it changes at each, one after the other. A cell has the
median and the 95th percentile in milliseconds:

    view         until the program's reply to the view begins
    change       the text of what changed, until the server has it
    transfer     from the server to the page's worker
    read         the text into numbers
    take         the numbers into the mesh that is kept, and what becomes another in textures
    put          textures, as far as the page waits for them
    sum          from the camera to a front that can be drawn

Then, per tolerance, how many fronts come in a second while the page flies round in a circle, two
scripts on their way as always. Nothing is drawn: that is the graphics processor's work, and a
headless browser draws by software.
"""
import argparse
import subprocess
import sys
import tempfile
import threading
import time
from pathlib import Path
from typing import Any, Dict, List

TOP = Path(__file__).resolve().parent.parent
sys.path.insert(0, str(TOP / "tools"))

from browser import Browser  # noqa: E402
from viewer.library import NOT_BUILT, TO_BUILD, built_library  # noqa: E402
from viewer.main import programs_of  # noqa: E402
from viewer.model import model_of  # noqa: E402
from viewer.server import Server  # noqa: E402
from viewer.showing import Showing  # noqa: E402

PARTS = ("view", "text", "transfer", "read", "take", "put")
JUDGED = ("deviation", "distance")
SECONDS_ROUND = 6
READY = "globalThis.viewer && viewer.isSettled"
# Nothing is drawn, and no level of detail is asked for, as none is while a camera moves.
BARE = (
    "viewer.scene.renderer.draw = () => {}; viewer.scene.renderer.finish = () => {};"
    " viewer.session.askLevel = () => {}; 0"
)
# A flight over the middle of the model, looking down on it, in some places one after the other.
FLY = """(async (steps, tolerance, judged) => {
  Object.assign(viewer.set, { tolerance, outline: tolerance, judged, glide: true });
  const home = viewer.camera.copy(), r = viewer.radius, { views } = viewer;
  const until = (line) => new Promise((done) => {
    const look = () => (views.asked === line && views.isIdle ? done() : setTimeout(look));
    look();
  });
  viewer.log = [];
  for (let step = 0; step <= steps; step++) {
    const t = step / steps, camera = home.copy(), [x, y, z] = home.target;
    camera.target = [x + r * (0.7 * t - 0.45), y + r * (0.5 * t - 0.25), z + 0.1 * r];
    Object.assign(camera, { distance: 0.55 * r, yaw: 0.8 * t - 0.4, pitch: 0.42 });
    views.movedAt = -Infinity;
    viewer.change({ camera });
    await until(views.line(camera, viewer.picture(), viewer.set, performance.now()));
  }
  viewer.change({ camera: home });
  return viewer.log.filter((entry) => "put" in entry);
})"""
CIRCLE = """((tolerance, judged) => {
  Object.assign(viewer.set, { tolerance, outline: tolerance, judged, round: true });
  Object.assign(viewer.camera, { distance: 0.6 * viewer.radius, pitch: 0.4 });
  viewer.moved();
})"""


def at(values: List[float], part: float) -> float:
    ordered = sorted(values)
    return ordered[min(len(ordered) - 1, int(part * len(ordered)))]


def told(values: List[float]) -> str:
    return f"{at(values, 0.5):.1f} / {at(values, 0.95):.1f}"


def times_of(front: Dict[str, Any]) -> Dict[str, float]:
    """The parts of one front, and their sum."""
    parts = {part: front["put"] if part == "put" else front["times"][part] for part in PARTS}
    return {**parts, "sum": sum(parts.values())}


def flight_row(browser: Browser, tolerance: float, steps: int, judged: str) -> str:
    fronts = browser.run(f"{FLY}({steps}, {tolerance}, '{judged}')")[1:]
    times = [times_of(front) for front in fronts]
    faces = at([front["faceCount"] for front in fronts], 0.5)
    kilobytes = at([front["times"]["bytes"] for front in fronts], 0.5) / 1024
    moves = at([front["moves"] for front in fronts], 0.5)
    cells = [told([one[part] for one in times]) for part in (*PARTS, "sum")]
    counts = [f"{tolerance:g}", f"{faces:,.0f}", f"{moves:.0f}", f"{kilobytes:,.0f}"]
    return f"| {' | '.join(counts + cells)} |"


def fronts_a_second(browser: Browser, tolerance: float, judged: str) -> float:
    browser.run(f"globalThis.before = viewer.fronts; {CIRCLE}({tolerance}, '{judged}')")
    browser.until("viewer.fronts > before + 10")  # the way to the circle isn't a step of it
    browser.run("viewer.log = []; 0")
    time.sleep(SECONDS_ROUND)
    count = browser.run("viewer.log.filter((entry) => 'put' in entry).length")
    browser.run("viewer.set.round = false; 0")
    browser.until("viewer.views.isIdle")
    return float(count) / SECONDS_ROUND


def arguments() -> argparse.Namespace:
    parser = argparse.ArgumentParser(description="Measures the views of the window.")
    parser.add_argument("models", nargs="+", metavar="MODEL")
    parser.add_argument("--program", type=Path, default=TOP / "vdpm")
    parser.add_argument("--library", action="store_true", help="by libvdpm")
    parser.add_argument("--by", nargs="+", choices=JUDGED, default=JUDGED)
    parser.add_argument("--tolerances", type=float, nargs="*", default=[32, 16, 8])
    parser.add_argument("--steps", type=int, default=100)
    asked = parser.parse_args()
    if asked.library and built_library() is None:
        parser.error(f"{NOT_BUILT}: {TO_BUILD}")
    return asked


def measure(browser: Browser, asked: argparse.Namespace, judged: str) -> None:
    print(f"\nby {judged}\n")
    print("| px | faces | moves | kB | view | change | transfer | read | take | put | sum |")
    print("|" + "---|" * 11)
    for tolerance in asked.tolerances:
        print(flight_row(browser, tolerance, asked.steps, judged), flush=True)
    for tolerance in asked.tolerances:
        rate = fronts_a_second(browser, tolerance, judged)
        faces = browser.run("viewer.shown.faceCount")
        print(f"{tolerance:g} px, {faces:,} faces: {rate:.0f} fronts a second", flush=True)


def measure_model(path: Path, asked: argparse.Namespace) -> None:
    """Serves a model to a browser of its own."""
    model = model_of(path, programs_of(asked.program))
    print(f"\n{model.name}, {model.faces:,} faces{', by the library' if asked.library else ''}")
    library = built_library() if asked.library else None
    showing = Showing(asked.program.resolve(), model, library=library)
    server = Server(showing)
    threading.Thread(target=server.serve_forever, daemon=True).start()
    browser = Browser(1280, 800)
    try:
        browser.go(f"{server.address}?measure&sharpness=0.05")
        browser.until(READY)
        browser.run(BARE)
        for judged in asked.by:
            measure(browser, asked, judged)
        for complaint in browser.errors():
            print(complaint, file=sys.stderr)
    finally:
        browser.close()
        server.shutdown()
        server.server_close()
        server.showing.close()


def terrain(cells: str, folder: Path) -> Path:
    """The file of a terrain, for a number of cells a side."""
    path = folder / f"terrain-{cells}.obj"
    with path.open("w", encoding="ascii") as out:
        command = [sys.executable, str(TOP / "benches/terrain.py"), cells]
        subprocess.run(command, stdout=out, check=True)
    return path


def main() -> None:
    asked = arguments()
    with tempfile.TemporaryDirectory() as folder:
        for model in asked.models:
            path = terrain(model, Path(folder)) if model.isdecimal() else Path(model)
            measure_model(path, asked)


if __name__ == "__main__":
    main()
