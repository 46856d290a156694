"""A view by deviation looks as the input does, to the tolerance, on models of all kinds."""
import subprocess
import sys
from pathlib import Path

from viewer.main import programs_of
from viewer.model import Model, model_of

from .common import TOP, model, program
from .pages import Page, browser

# The greatest distance in pixels, along the longer axis, from a pixel that one of the two pictures
# covers to the nearest one of the other; looked for up to `reach`. The sky has a colour of its own.
APART = """((reach) => {
  const { gl } = viewer.scene.renderer, sky = [1, 0, 1];
  const { theme } = viewer;
  viewer.theme = { ...theme, low: sky, high: sky };
  const width = gl.drawingBufferWidth, height = gl.drawingBufferHeight, { cut } = viewer.divider;
  const covered = (front) => {
    viewer.divider.cut = front; // of the picture, that the level of detail has
    viewer.draw(performance.now());
    const pixels = new Uint8Array(4 * width * height);
    gl.readPixels(0, 0, width, height, gl.RGBA, gl.UNSIGNED_BYTE, pixels);
    const isSky = (i) => pixels[i] > 250 && pixels[i + 1] < 5 && pixels[i + 2] > 250;
    return Array.from({ length: width * height }, (_, i) => !isSky(4 * i));
  };
  const both = [covered(1), covered(0)];
  Object.assign(viewer.divider, { cut });
  viewer.theme = theme;
  const around = (other, i, d) => {
    const x = i % width, y = Math.floor(i / width);
    for (let v = Math.max(0, y - d); v <= Math.min(height - 1, y + d); v++) {
      for (let u = Math.max(0, x - d); u <= Math.min(width - 1, x + d); u++) {
        if (other[v * width + u]) return true;
      }
    }
    return false;
  };
  let most = 0, count = 0;
  for (const [one, other] of [both, [both[1], both[0]]]) {
    one.forEach((is, i) => {
      if (is) count++;
      if (!is || other[i]) return;
      while (most < reach && !around(other, i, most)) most++;
    });
  }
  return [most, count / (2 * width * height)];
})"""


class Judging(Page):
    def setUp(self) -> None:
        self.page = browser()
        self.page.scheme("dark")

    def compare(self, looked_at: Model, few: float) -> None:
        """The outlines are one another's to the tolerance and what rounding to pixels adds; a part
        `few` of what a view by distance shows at most is enough."""
        self.look_at(looked_at, drawn=1)
        self.slide("tolerance", 8)  # 4 pixels
        self.page.key("b")
        self.page.until("viewer.inputState === 'shown'")
        self.settle()
        by_deviation = self.faces()
        for way in ("0, 0", "0.9, 0.3", "-2, -0.8"):
            self.value(f"viewer.camera.turn({way}), viewer.moved(), 0")
            self.settle()
            apart, covered = self.value(f"{APART}(20)")
            self.assertLessEqual(apart, 4 + 2)
            self.assertGreater(covered, 0.02)
        self.value("viewer.steering.goHome().then(() => 0)")
        self.choose("distance")
        self.settle()
        self.assertLessEqual(by_deviation, few * self.faces())

    def test_a_scan(self) -> None:
        self.compare(model("asteroid.obj"), 0.7)

    def test_a_ring(self) -> None:
        self.compare(model("torus.obj"), 1)

    def test_a_mesh_that_was_prepared(self) -> None:
        self.compare(model("ring_scan.obj"), 1)

    def test_a_body_of_a_few_faces(self) -> None:
        self.compare(model("octahedron.obj"), 1)

    def test_a_terrain_with_a_sea(self) -> None:
        path: Path = self.folder() / "terrain.obj"
        with path.open("w", encoding="ascii") as out:
            words = [sys.executable, str(TOP / "benches" / "terrain.py"), "60", "sea"]
            subprocess.run(words, stdout=out, check=True)
        self.compare(model_of(path, programs_of(program())), 0.6)
