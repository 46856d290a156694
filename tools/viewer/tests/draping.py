"""A picture over a terrain: where its pixels come to lie."""
import struct
import unittest
import zlib
from pathlib import Path
from typing import Dict, List, Tuple
from unittest import mock

from browser import found
from viewer.drape import BadDrape, drape_of, rows_over
from viewer.main import programs_of
from viewer.model import Model, model_of

from .common import Case, program
from .pages import browser
from .worlds import SETTLED, WithWindow

RED, GREEN, BLUE, WHITE = (255, 0, 0), (0, 255, 0), (0, 0, 255), (255, 255, 255)
Pixel = Tuple[int, ...]
# The colour of the picture at places of the mesh, with edges taken away.
AT = """((places) => {
  const { camera } = viewer, { renderer, canvas } = viewer.scene ?? viewer, { gl } = renderer;
  const theme = viewer.theme, picture = viewer.picture(), { right, up, back } = camera.axes();
  const look = {
    ...viewer.set, ...viewer.terrain.look(viewer.set), edges: false, theme, now: 9e9,
    frozen: null, reach: 1e5, deepest: 40, picked: 0xffffffff, hit: null, side: 0,
  };
  const names = [...renderer.meshes.keys()];
  Object.assign(canvas, { width: picture.width, height: picture.height });
  renderer.draw({ camera, picture, parts: [{ names, left: 0, width: canvas.width }], look });
  const eye = camera.eye(), dot = (a, b) => a.reduce((sum, c, i) => sum + c * b[i], 0);
  return places.map((place) => {
    const way = place.map((c, i) => c - eye[i]), deep = -dot(way, back);
    const x = Math.floor(canvas.width / 2 + (picture.focal * dot(way, right)) / deep);
    const y = Math.floor(canvas.height / 2 + (picture.focal * dot(way, up)) / deep);
    const pixel = new Uint8Array(4);
    gl.readPixels(x, y, 1, 1, gl.RGBA, gl.UNSIGNED_BYTE, pixel);
    return [...pixel.slice(0, 3)];
  });
})"""


def png(rows: List[List[Pixel]]) -> bytes:
    def chunk(kind: bytes, data: bytes) -> bytes:
        whole = kind + data
        return struct.pack(">I", len(data)) + whole + struct.pack(">I", zlib.crc32(whole))

    head = struct.pack(">2I5B", len(rows[0]), len(rows), 8, 2, 0, 0, 0)
    lines = b"".join(b"\0" + bytes(c for pixel in row for c in pixel) for row in rows)
    body = chunk(b"IHDR", head) + chunk(b"IDAT", zlib.compress(lines)) + chunk(b"IEND", b"")
    return b"\x89PNG\r\n\x1a\n" + body


def quarters(size: int) -> bytes:
    """Red in the north-west, green in the north-east, blue in the south-west, white opposite."""
    half = size // 2
    north, south = [RED] * half + [GREEN] * half, [BLUE] * half + [WHITE] * half
    return png([north] * half + [south] * half)


def told(pixel: Pixel) -> str:
    """Which quarter a pixel is of, by the channels that stand out."""
    most = max(pixel)
    names: Dict[Tuple[bool, ...], str] = {
        (True, False, False): "red", (False, True, False): "green", (False, False, True): "blue",
        (True, True, True): "white",
    }
    return names.get(tuple(c > 0.6 * most for c in pixel), f"{pixel}")


class Rows(Case):
    """Where a place is in the picture."""

    def spot(self, words: List[object], place: Tuple[float, ...]) -> List[float]:
        drape = drape_of(list(map(str, words)))
        rows = (drape.across, drape.down)
        return [round(sum(a * b for a, b in zip(row, (*place, 1.0))), 9) for row in rows]

    def test_by_the_edges_of_the_picture(self) -> None:
        path = self.written("a.png", quarters(4))
        words = [path, 100, -50, 300, 50]
        self.assertEqual(self.spot(words, (100, 50, 7)), [0, 0])
        self.assertEqual(self.spot(words, (300, -50, 0)), [1, 1])
        self.assertEqual(self.spot(words, (150, 25, 0)), [0.25, 0.25])

    def test_by_a_world_file(self) -> None:
        """Its last two numbers are the middle of the pixel in the corner."""
        path = self.written("a.png", quarters(4))
        path.with_suffix(".wld").write_text("10\n0\n0\n-20\n1005\n1990\n")
        self.assertEqual(self.spot([path], (1000, 2000, 3)), [0, 0])
        self.assertEqual(self.spot([path], (1040, 1920, 3)), [1, 1])
        path.with_suffix(".wld").write_text("0\n10\n10\n0\n5\n5\n")  # columns go north
        self.assertEqual(self.spot([path], (40, 10, 0)), [0.25, 1])

    def test_units_and_origins(self) -> None:
        drape = drape_of([str(self.written("a.png", quarters(2))), "0", "0", "10", "10"])
        across, down = drape.rows(0.5, (2.0, 3.0, 9.0))
        self.assertEqual((across, down), ((0.05, 0.0, 0.0, 0.2), (0.0, -0.05, 0.0, 0.7)))
        self.assertEqual(drape_of([str(self.jpeg()), "0", "0", "1", "1"]).kind, "image/jpeg")

    def jpeg(self) -> Path:
        head = b"\xff\xd8\xff\xe0\x00\x04ab\xff\xc0\x00\x0b\x08\x00\x05\x00\x07\x01\x00\x00\x00"
        path = self.written("a.jpg", head)
        path.with_suffix(".jgw").write_text("1 0 0 -1 0.5 4.5")
        return path

    def test_a_jpeg_file_tells_its_size(self) -> None:
        self.assertEqual(self.spot([self.jpeg()], (7, 0, 0)), [1, 1])

    def test_faults_are_told(self) -> None:
        path = self.written("a.png", quarters(2))
        for words, said in (
            ([path], "no world file beside it, as a.wld: tell its edges"),
            ([path, 1, 2, 3], "four numbers or none"), ([path, 1, 2, 3, "x"], "four numbers"),
            ([path, 3, 0, 1, 1], "west, south, east and north"), (["nobody.png"], "can't be read"),
            ([self.written("a.gif", b"GIF89a")], "no PNG or JPEG"),
        ):
            with self.assertRaisesRegex(BadDrape, said):
                drape_of(list(map(str, words)))
        with mock.patch.dict("os.environ", PATH=""), self.assertRaisesRegex(BadDrape, "installed"):
            drape_of([str(self.written("a.tif", b"II*\0"))])


def sheet(folder: Path, step: float) -> Path:
    """A square of 8 by 8 cells round the middle, with decimals where the step has some."""
    side = [step * k for k in range(-4, 5)]
    lines = [f"v {x:g} {y:g} {(i * j) % 3}" for i, y in enumerate(side) for j, x in enumerate(side)]
    for a in range(72):
        if a % 9 != 8:
            lines += [f"f {a + 1} {a + 2} {a + 11}", f"f {a + 1} {a + 11} {a + 10}"]
    path = folder / "sheet.obj"
    path.write_text("\n".join(lines) + "\n")
    return path


@unittest.skipUnless(found(), "no Chromium")
class Draped(Case):
    def shown(self, model: Model, edges: List[float]) -> None:
        self.page = browser()
        server = self.served(model)
        words = [str(self.written("q.png", quarters(64))), *map(str, edges)]
        server.showing.drape = drape_of(words)
        self.page.begin(server.address)
        self.page.until("globalThis.viewer && viewer.isSettled && viewer.set.colour === 'drape'")
        self.page.run("viewer.set = { ...viewer.set, upright: 'z' }; 0")
        self.rows = rows_over(server.showing.drape, model)

    def test_quarters_are_where_their_places_are(self) -> None:
        for step in (100.0, 12.5, 3000.5):
            model = model_of(sheet(self.folder(), step), programs_of(program()))
            self.shown(model, [-4 * step, -4 * step, 4 * step, 4 * step])
            u, v = self.rows
            corners = [(0.25, 0.25), (0.75, 0.25), (0.25, 0.75), (0.75, 0.75)]
            places = [[(a - u[3]) / u[0], (b - v[3]) / v[1], 0] for a, b in corners]
            pixels = self.page.run(f"{AT}({places})")
            self.assertEqual([told(p) for p in pixels], ["red", "green", "blue", "white"], step)
        self.assertEqual(self.page.errors(), [])


@unittest.skipUnless(found(), "no Chromium")
class DrapedWorlds(WithWindow):
    def test_quarters_are_where_their_places_are_in_all_tiles(self) -> None:
        server = self.served()
        path = self.room / "q.png"
        path.write_bytes(quarters(64))
        low, high = (server.showing.world.origin[axis] for axis in (0, 1))
        span = 16 * 40
        words = [path, low, high, low + span, high + span]
        server.showing.drape = drape_of(list(map(str, words)))
        self.page = browser()
        self.page.begin(server.address)
        self.page.until(f"{SETTLED} && viewer.set.colour === 'drape'")
        self.page.run("Object.assign(viewer.camera, { pitch: 1.54, yaw: 0 }); viewer.dirty = true")
        self.page.until(SETTLED)
        wanted, places = [], []
        for x in (100, 260, 380, 540):
            for y in (100, 260, 380, 540):
                places.append([x, y, 40])
                wanted.append(("red", "green", "blue", "white")[(x > 320) + 2 * (y < 320)])
        pixels = self.page.run(f"{AT}({places})")
        self.assertEqual([told(p) for p in pixels], wanted)
        self.assertEqual(self.page.errors(), [])
