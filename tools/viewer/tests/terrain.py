"""Heights in the window: their colours, contours, and the shade of hills."""
import math
import unittest
from pathlib import Path
from typing import Any, List, Sequence, Tuple

from browser import found
from viewer.drape import drape_of
from viewer.main import programs_of
from viewer.model import Model, model_of

from .common import model, program
from .draping import AT, quarters
from .pages import Page, browser
from .worlds import SETTLED, WithWindow

CELLS, STEP = 24, 50
Place = Tuple[float, float, float]
HEIGHTS = "import('./heights.js').then((it) => it.{})"


def height(x: int, y: int) -> int:
    """Of an island, in metres; the sea is at 100."""
    return max(100, 400 - round(math.hypot(x - CELLS / 2, y - CELLS / 2) * 30))


def island(folder: Path, upright: str, colour: str = "") -> Path:
    lines = []
    for y in range(CELLS + 1):
        for x in range(CELLS + 1):
            place = (x * STEP, y * STEP, height(x, y))
            told = place if upright == "z" else (place[0], place[2], -place[1])
            lines.append(" ".join(map(str, ("v", *told))) + colour)
    for y in range(CELLS):
        for x in range(CELLS):
            i = y * (CELLS + 1) + x + 1
            j = i + CELLS + 1
            lines += [f"f {i} {i + 1} {j + 1}", f"f {i} {j + 1} {j}"]
    path = folder / "island.obj"
    path.write_text("\n".join(lines) + "\n")
    return path


def at_height(axis: str, x: int, y: int) -> Place:
    place = (x * STEP, y * STEP, height(x, y))
    return place if axis == "z" else (place[0], place[2], -place[1])


def down_east(metres: float) -> Place:
    """Where the row that goes down to the east from the top has a height."""
    return (STEP * (CELLS / 2 + (400 - metres) / 30), STEP * CELLS / 2, metres)


def lightness(rgb: Sequence[float]) -> Tuple[float, ...]:
    """A colour in Oklab, where distances are as they seem."""
    r, g, b = ((c / 255 / 12.92) if c < 11 else ((c / 255 + 0.055) / 1.055) ** 2.4 for c in rgb)
    long = (0.4122214708 * r + 0.5363325363 * g + 0.0514459929 * b) ** (1 / 3)
    middle = (0.2119034982 * r + 0.6806995451 * g + 0.1073969566 * b) ** (1 / 3)
    short = (0.0883024619 * r + 0.2817188376 * g + 0.6299787005 * b) ** (1 / 3)
    return (
        0.2104542553 * long + 0.7936177850 * middle - 0.0040720468 * short,
        1.9779984951 * long - 2.4285922050 * middle + 0.4505937099 * short,
        0.0259040371 * long + 0.7827717662 * middle - 0.8086757660 * short,
    )


def is_like(pixel: Sequence[float], colour: Sequence[float]) -> bool:
    """Whether a pixel is of a colour, however light it is there."""
    parts = [[c / max(1, max(each)) for c in each] for each in (pixel, colour)]
    return all(abs(a - b) < 0.13 for a, b in zip(*parts))


class Terrain(Page):
    """A small island in the window."""

    def setUp(self) -> None:
        self.page = browser()
        self.page.scheme("dark")

    def island(self, upright: str = "z", colour: str = "") -> Model:
        return model_of(island(self.folder(), upright, colour), programs_of(program()))

    def pixels(self, places: List[Place]) -> List[List[int]]:
        return list(self.value(f"{AT}({[list(place) for place in places]})"))

    def exaggerate(self, times: float) -> None:
        self.slide("exaggeration", times)
        self.drawn(times)

    def drawn(self, times: float) -> None:
        """Waits until it is drawn so many times as high."""
        self.page.until(f"viewer.camera.stretch.times === {times} && {self.settled}")

    def text_of(self, name: str) -> str:
        return str(self.value(f"document.getElementById('{name}').innerText"))


class Colours(Terrain):
    def test_the_colours_are_even_steps_to_the_eye(self) -> None:
        self.look_at(model("octahedron.vdpm"))
        ramp = [lightness(colour) for colour in self.value(HEIGHTS.format("RAMP"))]
        steps = [math.dist(a, b) for a, b in zip(ramp, ramp[1:])]
        self.assertLess(max(steps) / min(steps), 1.15)
        self.assertEqual(ramp, sorted(ramp))  # each is lighter
        self.assertTrue(all(0.4 < colour[0] < 0.92 for colour in ramp))
        water = lightness(self.value(HEIGHTS.format("WATER")))
        self.assertGreater(min(math.dist(water, colour) for colour in ramp), 0.12)

    def test_contours_are_even_numbers_apart(self) -> None:
        self.look_at(model("octahedron.vdpm"))
        ranges = [10 ** (n / 7 - 4) for n in range(70)]
        steps = self.value(HEIGHTS.format(f"stepOf && {ranges}.map((n) => it.stepOf(n, 25))"))
        for reach, step in zip(ranges, steps):
            self.assertIn(f"{step:.0e}"[0], "125")
            self.assertAlmostEqual(float(f"{step:.0e}"), step)
            self.assertTrue(9.9 < reach / step <= 25.001, (reach, step))

    def test_a_height_field_is_shown_by_height(self) -> None:
        for upright in ("z", "y"):
            self.look_at(self.island(upright))
            self.assertEqual(self.value("viewer.set.colour"), "height")
            self.assertEqual(self.value("viewer.set.upright"), upright)
            said = self.text_of("heights").split("\n")
            self.assertEqual(said[:3], ["Height", "in the file's units", "100 water"])
            self.assertIn("400", said)
            ramp, water = (self.value(HEIGHTS.format(name)) for name in ("RAMP", "WATER"))
            places = [at_height(upright, *at) for at in ((2, 2), (21, 3), (12, 11), (12, 7))]
            sea, other, high, slope = self.pixels(places)
            self.assertTrue(is_like(sea, water) and is_like(other, water), (sea, other))
            self.assertTrue(is_like(high, ramp[7]), high)
            self.assertTrue(is_like(slope, ramp[4]), slope)
        self.assertEqual(self.page.errors(), [])

    def test_what_is_none_has_its_own_colours(self) -> None:
        for looked_at, colour in (
            (model("asteroid.obj"), "stone"), (self.island("z", " 0.9 0.2 0.1"), "own"),
        ):
            self.look_at(looked_at)
            self.assertEqual(self.value("viewer.set.colour"), colour)
            self.assertTrue(self.value("document.getElementById('heights').hidden"))
        self.page.key("5")
        self.assertEqual(self.value("viewer.set.colour"), "height")
        self.assertFalse(self.value("document.getElementById('heights').hidden"))

    def test_contours_are_where_their_heights_are(self) -> None:
        self.look_at(self.island())
        self.page.key("c")
        self.assertIn("Contours every 20", self.text_of("heights"))
        self.value("Object.assign(viewer.camera, { pitch: 1.5, yaw: 0, distance: 900 }), 0")
        self.value("viewer.camera.target = [900, 600, 250], viewer.moved(), 0")
        self.settle()
        on = self.pixels([down_east(n) for n in (300, 280, 240, 220, 200)])
        off = self.pixels([down_east(n) for n in (290, 270, 250, 230, 210)])
        for line, beside in zip(on, off):
            self.assertLess(sum(line), 0.9 * sum(beside), (on, off))
        self.page.key("c")
        bare = self.pixels([down_east(n) for n in (300, 280, 240, 220, 200)])
        self.assertTrue(all(sum(a) < 0.9 * sum(b) for a, b in zip(on, bare)), (on, bare))

    def test_a_hill_shade_stays_where_the_camera_turns(self) -> None:
        self.look_at(self.island())
        self.page.key("l")
        lit = at_height("z", 8, 16), at_height("z", 16, 8)  # slopes to north-west and south-east
        for yaw in (0, 3):
            self.value(f"Object.assign(viewer.camera, {{ yaw: {yaw}, pitch: 1.4 }}), 0")
            north_west, south_east = (sum(pixel) for pixel in self.pixels(list(lit)))
            self.assertGreater(north_west, 1.3 * south_east)


@unittest.skipUnless(found(), "no Chromium")
class Worlds(WithWindow):
    def go(self, server: Any, link: str = "") -> None:
        self.page = browser()
        self.page.begin(f"{server.address}{link}")
        self.page.until(SETTLED)

    def test_a_world_of_heights_is_shown_by_height(self) -> None:
        server = self.served()
        self.go(server)
        self.page.until("viewer.set.colour === 'height'")
        world = self.world
        told = self.page.run("viewer.terrain.heights(viewer.set)")
        low = min(tile.low[2] for tile in world.level(0))
        high = max(tile.high[2] for tile in world.level(0))
        self.assertAlmostEqual(told["least"], world.origin[2] + world.unit * low)
        self.assertAlmostEqual(told["most"], world.origin[2] + world.unit * high)
        distance = self.page.run("viewer.camera.distance")
        self.page.run(
            "exaggeration.value = 4;"
            "exaggeration.dispatchEvent(new Event('input', { bubbles: true })); 0"
        )
        self.page.until(f"viewer.camera.stretch.times === 4 && {SETTLED}")
        self.assertGreater(self.page.run("viewer.camera.distance"), distance)
        link = self.page.run("import('./link.js').then((it) => it.toldOf(viewer.camera))")
        self.go(server, f"#{link.replace('colour=height', 'colour=stone')}")
        told = self.page.run("[viewer.set.colour, viewer.camera.stretch.times]")
        self.assertEqual(told, ["stone", 4])
        self.assertEqual(self.page.errors(), [])

    def test_a_picture_is_before_heights(self) -> None:
        server = self.served()
        path = self.room / "q.png"
        path.write_bytes(quarters(8))
        server.showing.drape = drape_of([str(path), "0", "0", "640", "640"])
        self.go(server)
        self.page.until("viewer.set.colour === 'drape'")
        self.assertTrue(self.page.run("document.getElementById('heights').hidden"))
