"""What is drawn in the page, and what hands do."""
import argparse
from typing import Callable, List

from flight import planes
from frames import read_frames
from viewer.program import replies_to

from .common import model, program
from .pages import WIDTH, Page

# How much of a picture isn't the sky: its tones are blue, and those of stone aren't.
WARM = """((left, width) => {
  const { gl } = viewer.scene.renderer, height = gl.drawingBufferHeight;
  viewer.draw(performance.now());
  const pixels = new Uint8Array(4 * width * height);
  gl.readPixels(left, 0, width, height, gl.RGBA, gl.UNSIGNED_BYTE, pixels);
  let warm = 0;
  for (let i = 0; i < pixels.length; i += 4) if (pixels[i] > pixels[i + 2] + 4) warm++;
  return warm / (width * height);
})"""


# The pixels of the left or the right half of the picture.
PART = """((half) => {
  viewer.draw(performance.now());
  const { gl } = viewer.scene.renderer, height = gl.drawingBufferHeight;
  const width = Math.floor(gl.drawingBufferWidth / 2), pixels = new Uint8Array(4 * width * height);
  gl.readPixels(half * width, 0, width, height, gl.RGBA, gl.UNSIGNED_BYTE, pixels);
  return pixels.reduce((sum, byte, at) => (31 * sum + byte) % 1000003, 7);
})"""


class Drawing(Page):
    def test_the_mesh_is_drawn_and_its_counts_are_the_replies(self) -> None:
        warm = self.value(f"{WARM}(0, viewer.scene.canvas.width)")
        self.assertGreater(warm, 0.1)
        self.assertLess(warm, 0.8)
        frame = self.whole()
        self.assertEqual(self.faces(), len(frame.faces))
        said = "document.getElementById('faces-said').textContent"
        self.page.until(f"{said} === '{len(frame.faces):,}'")
        self.assertEqual(self.text("all-said"), "of 6,480 triangles")
        self.assertIn(f"vertices now{len(frame.nodes):,}splits, collapses", self.text("rows"))
        self.assertEqual(self.page.errors(), [])

    def test_a_view_has_the_planes_that_flight_has(self) -> None:
        word, *fields = self.asked().split()
        numbers = [int(field) for field in fields]
        picture, target = self.value("[viewer.picture(), viewer.camera.target]")
        focal = picture["focal"]
        asked = argparse.Namespace(at=target, up=(0, 1, 0), **picture)
        self.assertEqual((word, len(numbers), numbers[3] / numbers[4]), ("vd", 21, focal / 8))
        for place, (a, b, c, _) in enumerate(planes(numbers[:3], asked)):
            normal = numbers[5 + 4 * place:8 + 4 * place]
            for ours, theirs in zip(normal, (a, b, c)):  # there the eye is rounded before it looks
                self.assertAlmostEqual(ours, theirs, delta=20)
            eye = sum(n * e for n, e in zip(normal, numbers[:3]))
            self.assertEqual(numbers[8 + 4 * place], -eye)

    def test_colours_and_shading_change_the_picture(self) -> None:
        seen = {self.value("viewer.draw(performance.now()), viewer.scene.canvas.toDataURL()")}
        for key in ("s", "e", "2", "4"):
            self.page.key(key)
            seen.add(self.value("viewer.draw(performance.now()), viewer.scene.canvas.toDataURL()"))
        self.page.scheme("light")
        self.page.until("viewer.theme.low[0] > 0.5")
        seen.add(self.value("viewer.draw(performance.now()), viewer.scene.canvas.toDataURL()"))
        self.page.scheme("dark")
        self.assertEqual(len(seen), 6)

    def test_the_input_stands_beside(self) -> None:
        self.page.key("b")
        self.page.until("viewer.inputState === 'shown'")
        self.settle()
        self.assertEqual(self.value("viewer.scene.renderer.meshes.get('input').faceCount"), 6480)
        self.assertEqual(self.value("viewer.picture().width"), WIDTH)
        self.page.until("document.getElementById('right-half').textContent === 'full model'")
        # What is right of the line is another picture, and what is left of it isn't.
        left, right = (self.value(f"{PART}({half})") for half in (0, 1))
        self.value("viewer.divider.put(0.98), 0")
        self.assertEqual(self.value(f"{PART}(0)"), left)
        self.assertNotEqual(self.value(f"{PART}(1)"), right)

    def test_the_line_between_is_dragged_and_moved_by_arrows(self) -> None:
        self.page.key("b")
        self.page.until("!document.getElementById('halves').hidden")
        self.page.drag((WIDTH // 2, 300), (WIDTH // 4, 300))
        self.page.until("Math.abs(viewer.divider.cut - 0.25) < 0.01")
        before = self.value("[viewer.divider.cut, viewer.camera.yaw]")
        self.page.key("ArrowRight")
        self.assertAlmostEqual(self.value("viewer.divider.cut"), before[0] + 0.02)
        self.assertEqual(self.value("viewer.camera.yaw"), before[1])
        self.assertEqual(self.value("document.getElementById('halves').ariaValueNow"), "27")

    def test_the_input_of_the_stream_is_the_front_with_all_records_split(self) -> None:
        looked_at = model("asteroid.obj")
        nodes, faces, corners = self.value(
            "Promise.all([import('./hierarchy.js'), fetch('stream').then((a) => a.arrayBuffer())])"
            ".then(([{ fullFrame, readHierarchy }, stream]) =>"
            " Object.values(fullFrame(readHierarchy(stream))).map((numbers) => [...numbers]))"
        )
        splits = "".join(f"s {record}\n" for record in range(looked_at.records))
        told = replies_to(program(), looked_at.stream, f"{splits}w\n".encode()).decode()
        [full] = read_frames(told.splitlines())
        self.assertEqual((nodes, faces), (full.nodes, full.numbers))
        self.assertEqual(corners, [full.nodes[place] for face in full.faces for place in face])

    def test_missing_graphics_are_told(self) -> None:
        none = "HTMLCanvasElement.prototype.getContext = () => null"
        made = self.page.call("Page.addScriptToEvaluateOnNewDocument", source=none)
        remove = "Page.removeScriptToEvaluateOnNewDocument"
        self.addCleanup(self.page.call, remove, identifier=made["identifier"])
        self.page.go(self.server.address)
        self.page.until("document.getElementById('fault')?.hidden === false")
        self.assertIn("no WebGL 2", self.text("fault-reason"))


class Moving(Page):
    def test_mouse_wheel_and_keys_move_the_camera_and_the_front_follows(self) -> None:
        page = self.page
        acts: List[Callable[[], None]] = [
            lambda: page.drag((400, 300), (500, 320)),
            lambda: page.drag((400, 300), (430, 300), "right"),
            lambda: page.mouse("mouseWheel", 400, 300, deltaX=0, deltaY=-400),
            lambda: page.key("ArrowLeft"),
            lambda: page.key("+"),
            lambda: page.key("r"),
            lambda: page.key("y"),
        ]
        for act in acts:
            self.moves(act)
        self.assertEqual(self.faces(), len(self.whole().faces))

    def test_fingers_turn_and_spread(self) -> None:
        yaw, distance = "viewer.camera.yaw", "viewer.camera.distance"
        turned, near = self.value(yaw), self.value(distance)
        self.page.touch("touchStart", (300, 300))
        self.page.touch("touchMove", (360, 300))
        self.page.touch("touchEnd")
        self.settle()
        self.assertAlmostEqual(self.value(yaw), turned - 0.3)
        self.assertEqual(self.value(distance), near)
        self.page.touch("touchStart", (300, 300), (400, 300))
        self.page.touch("touchMove", (250, 300), (450, 300))
        self.page.touch("touchEnd")
        self.page.until(f"{distance} < 0.6 * {near}")
        self.settle()

    def test_the_slow_circle_goes_on_and_requests_do_not_pile_up(self) -> None:
        self.page.key("o")
        yaw = self.value("viewer.camera.yaw")
        self.page.until(f"viewer.camera.yaw > {yaw} + 0.1")
        self.assertLessEqual(self.value("viewer.views.sent"), 2)
        self.assertNotIn(" 8 ", self.asked())
        self.page.key("o")
        self.settle()

    def test_while_the_camera_moves_the_view_is_coarser_and_wider(self) -> None:
        lines = self.value(
            "(() => { const set = { ...viewer.set, draft: 4 }, picture = viewer.picture();"
            " const line = () => viewer.views.line(viewer.camera, picture, set, performance.now());"
            " const rests = line(); viewer.views.moved(); return [rests, line()]; })()"
        )
        rests, moves = ([int(n) for n in line.split()[1:]] for line in lines)
        self.assertEqual(moves[4], 4 * rests[4])
        self.assertNotEqual(moves[5:], rests[5:])
        self.settle()
