"""Each control of the panel, by mouse, and each key that the panel lists does what it says."""
from typing import Callable, Dict

from .pages import HEIGHT, WIDTH, Page

CONTROLS = """[...document.querySelectorAll("#panel input, #panel button, #panel summary")]
  .map((it) => it.id || (it.name ? `${it.name}=${it.value}` : it.localName))"""
DRAWING = "(viewer.draw(performance.now()), viewer.scene.canvas.toDataURL())"
IN_MENU = ("save-picture", "save-obj", "save-ply", "save-glb", "copy-link")
MIDDLE = (WIDTH // 2 - 100, HEIGHT // 2)


class Controls(Page):
    def setUp(self) -> None:
        super().setUp()
        self.value("document.activeElement.blur()")

    def changes(self, act: Callable[[], None], what: str) -> None:
        """A value of the page becomes another after the act."""
        self.value(f"globalThis.before = ({what}), 0")
        act()
        self.settle()
        self.page.until(f"({what}) !== before")

    def test_each_control_of_the_panel_by_mouse(self) -> None:
        drawn, asked = DRAWING, "viewer.views.asked"
        shown: Dict[str, str] = {
            "tolerance": asked, "outline": asked, "draft": "viewer.set.draft",
            "budget": "viewer.session.budget", "judged=distance": asked,
            "judged=deviation": asked, "freeze": "viewer.frozen === null", "colour=depth": drawn,
            "colour=wire": drawn, "colour=height": drawn, "colour=stone": drawn,
            "colour=own": "0", "contours": drawn, "hillshade": drawn,
            "exaggeration": "viewer.camera.stretch.times", "edges": drawn, "smooth": drawn,
            "hollows": "viewer.set.hollows", "unlit": "viewer.set.unlit",
            "glide": "viewer.set.glide", "beside": drawn,
            "up=z": drawn, "up=y": drawn,
            "picks": "viewer.set.picks", "save-flight": "told.textContent",
            "summary": "saves.open", "save-picture": "saved", "save-obj": "saved",
            "save-ply": "saved", "save-glb": "saved", "copy-link": "told.textContent",
            "copy-view": "told.textContent", "home": "0", "round": "0", "unhide": "0",
            "open-file": "0", "save-page": "0", "save-packed": "0",
        }
        self.assertEqual(sorted(self.value(CONTROLS)), sorted(shown))
        self.press("#unhide")
        self.value(
            "globalThis.saved = 0; const { click } = HTMLAnchorElement.prototype;"
            " HTMLAnchorElement.prototype.click = () => { saved++; }; 0"
        )
        for name, what in shown.items():
            if what != "0":
                with self.subTest(name):
                    self.changes(lambda: self.press_control(name), what)
        self.page.until("saved === 5")
        self.assertTrue(self.value("document.querySelector('[value=own]').disabled"))

    def press_control(self, name: str) -> None:
        kind, _, value = name.partition("=")
        if value:
            self.press(f"input[value={value}] + span")
        elif name in ("tolerance", "outline", "draft", "budget", "exaggeration"):
            x, y = self.place_of(f"#{name}")
            self.page.click(x + 30, y)
        else:
            if name in IN_MENU and not self.value("saves.open"):
                self.press("summary")
            self.press(name if name == "summary" else f"#{name}")

    def test_fit_turntable_and_drawer_by_mouse(self) -> None:
        self.changes(lambda: self.press("#unhide"), "drawer.hidden")
        self.page.drag(MIDDLE, (MIDDLE[0] + 80, MIDDLE[1]))
        self.settle()
        self.changes(lambda: self.press("#home"), "viewer.camera.yaw")
        self.page.until("viewer.camera.yaw === 0.5")
        self.press("#round")
        self.page.until("viewer.camera.yaw > 0.55")
        self.press("#round")
        self.settle()
        self.changes(lambda: self.press("#unhide"), "drawer.hidden")

    def test_each_key_that_the_panel_lists(self) -> None:
        listed = "[...document.querySelectorAll('dt')].map((it) => it.textContent).join('; ')"
        self.assertEqual(
            self.value(listed),
            "drag, arrows; right or Shift drag, Shift arrows; wheel, two fingers, + and −; "
            "double click; E, S, O; 1 2 3 4 5, D; V, U, C, L; Y, R, P; B, G, F, H",
        )
        yaw, pitch, target = ("viewer.camera.yaw", "viewer.camera.pitch", "viewer.camera.target[1]")
        for key, what in (
            ("ArrowLeft", yaw), ("ArrowRight", yaw), ("ArrowUp", pitch), ("ArrowDown", pitch),
            ("+", "viewer.camera.distance"), ("-", "viewer.camera.distance"),
            ("f", "viewer.set.freeze"), ("f", "viewer.set.freeze"), ("d", "viewer.set.judged"),
            ("2", "viewer.set.colour"), ("4", "viewer.set.colour"), ("5", "viewer.set.colour"),
            ("1", "viewer.set.colour"), ("v", "viewer.set.hollows"), ("u", "viewer.set.unlit"),
            ("c", "viewer.set.contours"), ("l", "viewer.set.hillShade"),
            ("e", "viewer.set.edges"), ("s", "viewer.set.smooth"), ("g", "viewer.set.glide"),
            ("b", "viewer.set.beside"), ("y", "viewer.set.upright"), ("r", yaw),
            ("h", "drawer.hidden"), ("h", "drawer.hidden"),
        ):
            with self.subTest(key):
                if key == "r":
                    self.page.key("ArrowLeft")
                self.changes(lambda: self.page.key(key), f"String({what})")
        self.page.key("3")  # there are no colours
        self.assertEqual(self.value("viewer.set.colour"), "stone")
        self.page.key("p")
        self.assertEqual(self.page.downloaded("asteroid.png")[:4], b"\x89PNG")
        moves = lambda: self.page.key("ArrowUp", shift=True)  # noqa: E731
        self.changes(moves, target)

    def test_a_drag_with_shift_moves(self) -> None:
        yaw = self.value("viewer.camera.yaw")
        drag = lambda: self.page.drag(  # noqa: E731
            MIDDLE, (MIDDLE[0], MIDDLE[1] - 60), shift=True
        )
        self.changes(drag, "viewer.camera.target[1]")
        self.assertEqual(self.value("viewer.camera.yaw"), yaw)

    def test_two_fingers_move(self) -> None:
        target, distance = "viewer.camera.target[0]", self.value("viewer.camera.distance")

        def move() -> None:
            self.page.touch("touchStart", (200, 300), (300, 300))
            self.page.touch("touchMove", (260, 300), (360, 300))
            self.page.touch("touchEnd")

        self.changes(move, target)
        self.assertAlmostEqual(self.value("viewer.camera.distance") / distance, 1)

    def test_the_pyramid_of_a_frozen_eye_is_drawn(self) -> None:
        self.page.key("f")
        self.page.key("4")
        self.value("viewer.camera.turn(1, 0.2), viewer.camera.distance *= 1.8, viewer.moved(), 0")
        self.settle()
        with_it = self.value(DRAWING)
        self.value("globalThis.kept = viewer.frozen, viewer.frozen = null, 0")
        without = self.value(DRAWING)
        self.value("viewer.frozen = kept, 0")
        self.page.key("f")
        self.assertNotEqual(with_it, without)

    def test_while_moving_the_counters_tell_frames_and_fronts(self) -> None:
        self.page.key("o")
        rows = "document.getElementById('rows').textContent"
        self.page.until(f"/frames a second\\d+, \\d+ updates/.test({rows})")
        self.page.key("o")
        self.settle()
        self.page.until(f"{rows}.includes('idle')")
        for word in ("vertices", "splits, collapses", "vertices changed", "triangles changed",
                     "refine, diff", "transfer", "decode, apply", "upload, draw"):
            self.assertIn(word, self.value(rows))
