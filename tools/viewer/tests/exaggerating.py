"""Vertical exaggeration: what is drawn is higher, and what is asked, measured and saved is not."""
import math

from .common import model
from .terrain import Terrain, at_height

# Whether a view's planes and rays, and its error in pixels, are right for what is drawn.
SEEN = """Promise.all([import('./camera.js'), import('./stretch.js')]).then(([camera, stretch]) => {
  const { Camera, rayThrough, viewLine } = camera, { Stretch } = stretch, wrong = [];
  const random = (size) => (Math.random() - 0.5) * size;
  const dot = (p, q) => p.reduce((sum, c, i) => sum + c * q[i], 0);
  const minus = (p, q) => p.map((c, i) => c - q[i]);
  for (let round = 0; round < 300; round++) {
    const upright = round % 2 ? 'y' : 'z', times = 1 + 4 * Math.random();
    const drawn = new Stretch(upright, times, random(2000));
    const seen = new Camera({
      target: [random(9e3), random(9e3), random(9e3)], distance: 9e3, yaw: random(6), upright,
      pitch: random(3), stretch: drawn,
    });
    const picture = { width: 800, height: 500, focal: 600 }, { right, up, back } = seen.axes();
    const line = viewLine(seen, picture, { tolerance: 2, judged: 'deviation' }).split(' ');
    const [x, y, z, focal, tolerance, ...sides] = line.slice(1).map(Number), eye = [x, y, z];
    const pixel = (place) => {
      const way = minus(drawn.drawn(place), seen.eye()), deep = -dot(way, back);
      return { deep, at: [right, up].map((axis) => (600 * dot(way, axis)) / deep) };
    };
    for (let each = 0; each < 50; each++) {
      const place = [random(2e4), random(2e4), random(2e4)], { deep, at } = pixel(place);
      const least = [0, 4, 8, 12].map((i) => dot(sides.slice(i, i + 3), place) + sides[i + 3])
        .map((far, i) => far / Math.hypot(...sides.slice(4 * i, 4 * i + 3)));
      const isIn = deep > 0 && Math.abs(at[0]) < 400 && Math.abs(at[1]) < 250;
      if (isIn && Math.min(...least) < -3) wrong.push(['in', least]);
      if (!isIn && Math.min(...least) > 30) wrong.push(['out', least, at, deep]);
      const off = Math.hypot(...minus(place, eye)) * tolerance / focal;
      const moved = pixel(place.map((c) => c + random(2 * off / Math.sqrt(3))));
      const far = Math.hypot(...minus(moved.at, at));
      if (isIn && Math.hypot(...at) < 40 && far > 2.2) wrong.push(['error', far]);
      const { from, way } = rayThrough(seen, 600, ...at);
      const on = pixel(from.map((c, i) => c + (way[i] * 9e3) / 32767)).at;
      if (isIn && Math.hypot(...minus(on, at)) > 1) wrong.push(['ray', on, at]);
    }
  }
  return wrong.slice(0, 5);
})"""
# Where the window shows a place of the mesh.
PIXEL = """(place) => {
  const { camera, scene } = viewer, { right, up, back } = camera.axes(), eye = camera.eye();
  const way = camera.stretch.drawn(place).map((c, i) => c - eye[i]);
  const dot = (axis) => axis.reduce((sum, c, i) => sum + c * way[i], 0);
  const { width, height, focal } = viewer.picture(), deep = -dot(back);
  const { left, top } = scene.canvas.getBoundingClientRect(), pixels = focal / deep;
  return [left + width / 2 + pixels * dot(right), top + height / 2 - pixels * dot(up)];
}"""


# As soon as 5 times are found, 1 is asked for: after 2 times are drawn, and before 5 are.
HASTY = """(() => {
  const { steering, work } = viewer, ask = work.ask.bind(work), fly = steering.fly.bind(steering);
  const picture = () => new Promise(requestAnimationFrame);
  work.ask = async (task) => {
    const answer = await ask(task), isHeld = task.stretch?.times === 5;
    while (isHeld && viewer.camera.stretch.times !== 2) await picture();
    return answer;
  };
  steering.fly = (to, ...how) => {
    fly(to, ...how);
    if (to.stretch.times !== 5) return;
    exaggeration.value = 1;
    exaggeration.dispatchEvent(new Event('input', { bubbles: true }));
  };
})()"""


class Exaggerating(Terrain):
    def test_views_and_rays_are_those_of_what_is_drawn(self) -> None:
        self.look_at(model("octahedron.vdpm"))
        self.assertEqual(self.value(SEEN), [])

    def test_the_picture_is_higher_and_all_else_as_it_was(self) -> None:
        for upright in ("z", "y"):
            self.look_at(self.island(upright))
            self.slide("tolerance", -4)
            self.tick("picks")
            self.settle()
            self.exaggerate(3)
            self.assertIn("Drawn 3 times as high", self.text_of("heights"))
            place = list(at_height(upright, 12, 10))
            x, y = self.value(f"({PIXEL})({place})")
            self.page.click(x, y)
            self.page.until("!document.getElementById('picked').hidden")
            told = [float(n) for n in self.text("picked").split(" at ")[1].split()]
            self.assertLess(math.dist(told, place), 20)
            self.tick("save-obj")
            text = self.page.downloaded(f"island-{self.faces()}.obj").decode()
            places = [line.split() for line in text.splitlines() if line.startswith("v ")]
            tall = [place[1 + "xyz".index(upright)] for place in places]
            self.assertAlmostEqual(max(map(float, tall)), 400, delta=20)

    def test_what_was_seen_whole_is_so_again(self) -> None:
        self.look_at(self.island())
        before = self.value("viewer.camera.distance")
        for times in (2, 5, 1):
            self.slide("exaggeration", times)
        self.drawn(1)
        self.assertAlmostEqual(self.value("viewer.camera.distance"), before)
        self.exaggerate(5)
        self.assertGreater(self.value("viewer.camera.distance"), 1.2 * before)
        self.page.key("ArrowLeft")
        self.exaggerate(2)
        target, top = self.value("[viewer.camera.target[2], viewer.terrain.box.high[2]]")
        self.assertLess(target, 2 * top)

    def test_what_is_asked_for_last_is_drawn(self) -> None:
        self.look_at(self.island())
        self.value(HASTY)
        for times in (2, 5):
            self.slide("exaggeration", times)
        self.page.until("viewer.set.exaggeration === 1")
        self.drawn(1)
        self.assertTrue(self.value("viewer.steering.isAtHome"))

    def test_a_link_brings_all_of_it_back(self) -> None:
        self.look_at(self.island())
        self.exaggerate(2.5)
        for key in ("c", "l", "2"):
            self.page.key(key)
        self.settle()
        asked = self.asked()
        link = self.value("import('./link.js').then((it) => it.toldOf(viewer.camera))")
        self.page.go("about:blank")
        self.page.go(f"{self.server.address}?sharpness=0.2#{link}")
        self.page.until(f"{self.settled} && viewer.views.asked === {asked!r}")
        names = ["contours", "hillShade", "exaggeration", "colour"]
        told = self.value(f"{names}.map((name) => viewer.set[name])")
        self.assertEqual(told, [True, True, 2.5, "depth"])
