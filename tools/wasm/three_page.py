"""The page of examples/library/three in a headless Chromium, served with all that it asks for."""
import shutil
import threading
from functools import partial
from http.server import SimpleHTTPRequestHandler, ThreadingHTTPServer
from pathlib import Path
from typing import Any, Dict, Optional

from browser import Browser, found

HERE = Path(__file__).resolve().parent
EXAMPLES = HERE.parent.parent / "examples"
# Where Debian's libjs-three and node-three have it.
PLACES = ("javascript/three/three.module.js", "nodejs/three/build/three.module.js")
# Draws the model from afar and from near, and tells what is in the last picture.
DRAWN = """(() => {
  const { draw, renderer, session } = example;
  renderer.setAnimationLoop(null);
  const far = draw(0), near = draw(0.5), canvas = renderer.domElement;
  const flat = document.createElement("canvas").getContext("2d");
  flat.canvas.width = canvas.width;
  flat.canvas.height = canvas.height;
  flat.drawImage(canvas, 0, 0);
  const { data } = flat.getImageData(0, 0, canvas.width, canvas.height);
  let lit = 0;
  for (let i = 0; i < data.length; i += 4) lit += data[i] > 60;
  return { near, far, shown: session.counts().shownFaces, lit: lit / (data.length / 4) };
})()"""


class Quiet(SimpleHTTPRequestHandler):
    def log_message(self, *words: Any) -> None:
        pass


def three() -> Optional[Path]:
    """The three.js of this machine."""
    return next((Path("/usr/share") / it for it in PLACES if (Path("/usr/share") / it).is_file()),
                None)


def missing() -> Optional[str]:
    """What isn't here of what the page is tried by."""
    return "there is no Chromium" if found() is None else "there is no three.js" * (not three())


def gather(module: Path, folder: Path) -> None:
    """Puts into the folder what the page asks for."""
    library = three()
    assert library is not None
    files = [*EXAMPLES.glob("library/three/*"), *HERE.glob("*.mjs"), library]
    for file in files:
        shutil.copy(file, folder)
    shutil.copy(module, folder / "vdpm.wasm")
    shutil.copy(EXAMPLES / "asteroid.obj", folder / "model.obj")


def drawn(module: Path, folder: Path, picture: Path) -> Dict[str, float]:
    """What the page tells of its pictures, of which the last goes into a file."""
    gather(module, folder)
    server = ThreadingHTTPServer(("127.0.0.1", 0), partial(Quiet, directory=str(folder)))
    threading.Thread(target=server.serve_forever, daemon=True).start()
    page = Browser(800, 600)
    try:
        page.go(f"http://127.0.0.1:{server.server_port}/index.html")
        page.until("globalThis.example !== undefined")
        told: Dict[str, float] = page.run(DRAWN)
        page.picture(picture)
        assert not page.errors(), page.errors()
        return told
    finally:
        page.close()
        server.shutdown()
