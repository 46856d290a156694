"""Films in a real browser, opened from a file; and models whose colours or places the page
tells."""
import argparse
import re
import time
from typing import List

from flight import view_line
from frames import read_frames
from viewer.film import film_page
from viewer.main import programs_of
from viewer.model import Model, model_of
from viewer.program import ALL_MOVES, replies_to

from .common import EXAMPLES, TOP, model, program
from .models import SQUARE
from .pages import Page, browser

# By how much red, green and blue are at most above the other two in a pixel of the picture.
MOST_COLOURFUL = """(() => {
  viewer.draw(performance.now());
  const { gl } = viewer.scene.renderer, { width, height } = gl.canvas, most = [0, 0, 0];
  const all = new Uint8Array(4 * width * height);
  gl.readPixels(0, 0, width, height, gl.RGBA, gl.UNSIGNED_BYTE, all);
  for (let i = 0; i < all.length; i += 4) {
    for (let part = 0; part < 3; part++) {
      const others = Math.max(all[i + (part + 1) % 3], all[i + (part + 2) % 3]);
      most[part] = Math.max(most[part], all[i + part] - others);
    }
  }
  return most;
})()"""
DRAWN = "(film.draw(), film.canvas.toDataURL())"
# How many faces each frame of a film has.
SIZES = "film.reel.changes.map((_, at) => { film.show(at); return film.reel.faces.size; })"
FLIGHT = TOP / "examples" / "asteroid_fronts.script"


class Films(Page):
    """A film needs no server, so there is none but in the tests of models below."""

    def look_at(self, looked_at: Model, budget: int = ALL_MOVES, drawn: float = 0.2) -> None:
        self.page.told.clear()

    def open(self, page: str) -> None:
        path = self.written("film.html", page.encode())
        self.page.begin(path.as_uri())
        self.page.until(f"location.href === '{path.as_uri()}' && globalThis.film")

    def play(self, looked_at: Model, flight: bytes) -> List[int]:
        """Opens the film of a flight, and gives how many faces the replies' frames have."""
        self.open(film_page(program(), looked_at, flight, ALL_MOVES))
        replies = replies_to(program(), looked_at.stream, flight).decode()
        return [len(frame.faces) for frame in read_frames(replies.splitlines())]

    def test_a_film_plays_pauses_and_turns(self) -> None:
        counts = self.play(model("asteroid.obj"), flight())
        self.page.until("film.plays === false")
        self.assertEqual(self.value("film.reel.at"), len(counts) - 1)
        self.assertEqual(self.text("faces-said"), f"{counts[-1]:,}")
        self.assertEqual(self.value(SIZES), counts)
        self.value("film.show(0)")
        self.page.key(" ")
        self.page.until("film.reel.at > 0")
        before = self.value("film.camera.yaw")
        self.page.drag((400, 300), (460, 300))
        self.assertFalse(self.value("follow.checked"))
        self.assertAlmostEqual(self.value("film.camera.yaw"), before - 0.3)
        self.assertEqual(self.page.errors(), [])

    def test_each_control_of_the_bar_by_mouse(self) -> None:
        self.play(model("asteroid.obj"), flight())
        self.page.until("film.plays === false")
        controls = "[...document.querySelectorAll('#bar input, #bar select, #bar button')]"
        self.assertEqual(
            sorted(self.value(f"{controls}.map((it) => it.id)")),
            ["at", "colour", "edges", "follow", "play", "smooth", "speed"],
        )
        # As slow as it goes. How it plays is looked at in the page, since it may soon be over.
        self.value("speed.value = '1', 0")
        self.value(
            "play.addEventListener('click', () => {"
            " globalThis.begun = [film.plays, film.reel.at, play.textContent]; }, { once: true })"
        )
        self.press("#play")
        self.assertEqual(self.value("begun"), [True, 0, "Pause"])
        self.press("#play")
        self.page.until("!film.plays && play.textContent === 'Play'")
        for frame in (1, 0):
            self.slide("at", frame)
            self.assertEqual(self.value("film.reel.at"), frame)
            self.assertIn(f"frame {frame + 1} of", self.text("frame-said"))
        seen = {self.value(DRAWN)}
        for name in ("edges", "smooth"):
            self.press(f"#{name}")
            seen.add(self.value(DRAWN))
        for value in ("depth", "wire"):
            self.value(
                f"colour.value = '{value}',"
                " colour.dispatchEvent(new Event('change', { bubbles: true }))"
            )
            seen.add(self.value(DRAWN))
        self.page.drag((400, 300), (460, 300))
        seen.add(self.value(DRAWN))
        turned = self.value("film.camera.yaw")
        self.press("#follow")
        self.page.until(f"film.camera.yaw !== {turned}")
        self.assertEqual(len(seen), 6)
        begun = time.monotonic()
        self.press("#play")
        self.page.until("!film.plays")
        self.assertGreater(time.monotonic() - begun, 0.5)

    def test_a_flight_by_changes_plays_too(self) -> None:
        script = flight().replace(b"v ", b"vd ").replace(b"w\n", b"d\nl\n")
        looked_at = model("asteroid.obj")
        self.open(film_page(program(), looked_at, script, ALL_MOVES))
        replies = replies_to(program(), looked_at.stream, script, command="live").decode()
        lines = (line.split() for line in replies.splitlines())
        counts = [int(words[2]) for words in lines if words[0] == "change"]
        self.assertEqual(self.value(SIZES), counts)

    def test_the_camera_of_a_flight_is_found_in_its_planes(self) -> None:
        outlined = re.sub(rb"^v ((?:\S+ ){4})(\S+)", rb"vds \1\2 \2", flight(), flags=re.M)
        for script in (flight(), outlined):
            self.open(film_page(program(), model("asteroid.obj"), script, ALL_MOVES))
            self.value("film.pause(), film.show(0)")
            eye = [int(n) for n in flight().split()[1:4]]
            for ours, theirs in zip(self.value("film.camera.eye()"), eye):
                self.assertAlmostEqual(ours, theirs, delta=1)
            self.assertTrue(self.value("film.opening > 0"))

    def test_a_flight_with_y_up_stays_upright(self) -> None:
        asked = argparse.Namespace(
            at=(0, 0, 0), up=(0, 1, 0), focal=1000, tolerance=40, outline=None, width=640,
            height=480,
        )
        # Round the model, through where the picture is level with z up too.
        places = [(20000, 0), (0, 20000), (-20000, 0), (0, -20000), (9000, 9000)]
        for high in (6000, -6000):
            lines = [view_line((x, high, z), asked) for x, z in places]
            script = "".join(f"{line}\nw\n" for line in lines).encode()
            self.open(film_page(program(), model("octahedron.vdpm"), script, ALL_MOVES))
            self.value("film.pause(), 0")
            ups = self.value("film.looks.map(({ upright }) => upright)")
            self.assertEqual(ups, ["y"] * len(places))
            self.assertTrue(self.value(
                "film.looks.every((_, at) => {"
                " film.show(at); return film.camera.axes().up[1] > 0; })"
            ))

    def test_a_film_begins_as_the_window_does(self) -> None:
        self.play(model("asteroid.obj"), flight())
        self.assertEqual(self.value("[edges.checked, smooth.checked]"), [False, True])

    def test_a_geomorph_moves_its_points(self) -> None:
        glide = (EXAMPLES / "asteroid_glide.script").read_bytes()
        counts = self.play(model("asteroid.obj"), glide)
        self.page.until("film.plays === false")
        self.assertEqual(self.value("film.reel.head.steps"), [[0, 2], [1, 2], [2, 2]])
        self.assertEqual(self.value("film.reel.nodeCount"), 441)
        self.assertEqual(self.text("frame-said"), "frame 3 of 3, 2/2 of the way")
        self.assertEqual(len(counts), 3)

    def test_a_film_is_drawn_in_the_input_s_colours(self) -> None:
        square = model_of(self.written("square.obj", SQUARE), programs_of(program()))
        self.play(square, b"v 45 45 300 300 0\nw\n")
        self.assertEqual(self.value("colour.value"), "own")
        colours = self.value("[0, 4, 8, 12].map((i) => [...film.reel.colours.subarray(i, i + 3)])")
        wanted = [[0, 0, 255], [0, 255, 0], [255, 0, 0], [255, 255, 255]]
        self.assertEqual(sorted(colours), wanted)


def flight() -> bytes:
    return FLIGHT.read_bytes()


class Models(Page):
    """Pages of other models than the asteroid."""

    def setUp(self) -> None:
        self.page = browser()
        self.page.scheme("dark")

    def test_colours_of_the_input_are_shown(self) -> None:
        square = model_of(self.written("square.obj", SQUARE), programs_of(program()))
        self.look_at(square)
        self.assertEqual(self.value("viewer.set.colour"), "own")
        pixel = self.value(MOST_COLOURFUL)
        for part in pixel:  # somewhere each of red, green and blue is the most by far
            self.assertGreater(part, 60)

    def test_a_prepared_mesh_tells_places_of_its_file(self) -> None:
        self.look_at(model("ring_scan.obj"))
        # (a program that isn't proved says so before it)
        self.assertIn("rounded and repaired by prepare", self.text("notice"))
        self.tick("picks")
        self.page.click(270, 320)
        self.page.until("!document.getElementById('picked').hidden")
        said = self.text("picked")
        self.assertIn("of the prepared mesh", said)
        for part in said.split(" at ")[1].split():
            self.assertLess(abs(float(part)), 0.61)  # the ring is 1.2 metres wide

    def test_what_is_not_proved_is_said(self) -> None:
        self.look_at(model("octahedron.vdpm")._replace(proved=False))
        self.assertEqual(self.text("notice"), "not proved on this machine")
        self.look_at(model("octahedron.vdpm")._replace(proved=True))
        self.assertTrue(self.value("notice.hidden"))

    def test_a_budget_of_the_command_line_is_kept_to_the_number(self) -> None:
        self.look_at(model("asteroid.obj"), 200)
        self.assertEqual(self.text("budget-said"), "200")
        self.assertEqual(self.answers[0].text.split(b" ")[:2], [b"spent", b"200"])
        self.value("document.getElementById('save-flight').click()")
        script = self.page.downloaded("flight-live-budget-200.script")
        replies = replies_to(program(), model("asteroid.obj").stream, script, 200, "live")
        self.assertEqual(replies, b"".join(answer.text for answer in self.answers))
