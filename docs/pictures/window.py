"""Takes the pictures of the window: python3 docs/pictures/window.py [PROGRAM]

PROGRAM is ./vdpm unless another is named. Needs a Chromium, and pngquant, which leaves the pictures
few colours so that they are small.
"""
import subprocess
import sys
import threading
from pathlib import Path

TOP = Path(__file__).resolve().parent.parent.parent
sys.path.insert(0, str(TOP / "tools"))

from browser import Browser  # noqa: E402
from viewer.main import programs_of  # noqa: E402
from viewer.model import model_of  # noqa: E402
from viewer.server import Server  # noqa: E402
from viewer.showing import Showing  # noqa: E402

SETTLED = "globalThis.viewer && viewer.isSettled"
# Near the great crater, and then frozen and seen from the side.
LOOK = """(() => {
  viewer.steering.stop();
  const { camera } = viewer;
  camera.target = [900, -1100, 250];
  Object.assign(camera, { distance: 2900, yaw: 0.1, pitch: 0.4 });
  tolerance.value = 10;
  tolerance.dispatchEvent(new Event("input", { bubbles: true }));
  viewer.moved();
})()"""
ASIDE = """(() => {
  freeze.click();
  depth.click();
  const { camera } = viewer;
  camera.target = [0, -500, 100];
  Object.assign(camera, { distance: 7400, yaw: -0.9, pitch: 0.55 });
  viewer.moved();
})()"""


def take(page: Browser, name: str) -> None:
    page.until(SETTLED)
    # The statistics say `idle` a second after the last change.
    page.until("document.getElementById('rows').textContent.includes('idle')")
    path = TOP / "docs" / "pictures" / name
    page.picture(path)
    subprocess.run(["pngquant", "--force", "--output", path, "96", path], check=True)


def main() -> None:
    program = Path(sys.argv[1] if sys.argv[1:] else TOP / "vdpm").resolve()
    model = model_of(TOP / "examples" / "asteroid.obj", programs_of(program))
    server = Server(Showing(program, model))
    threading.Thread(target=server.serve_forever, daemon=True).start()
    page = Browser(1120, 780)
    try:
        page.scheme("dark")
        page.go(server.address)
        page.until(SETTLED)
        page.run("globalThis.depth = document.querySelector('input[value=depth]'); 0")
        page.run("document.querySelector('input[name=up][value=z]').click(), edges.click()")
        page.until(SETTLED)
        page.run(LOOK)
        take(page, "window-near.png")
        page.run(ASIDE)
        take(page, "window.png")
    finally:
        page.close()
        server.shutdown()
        server.showing.close()


if __name__ == "__main__":
    main()
