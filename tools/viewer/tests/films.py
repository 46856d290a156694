"""Films: the frames of a script with their views, and modules as one script."""
import subprocess
import sys
from typing import List

from viewer.bundle import CantBundle, bundled, in_order, wrapped
from viewer.film import PAGE, BadFlight, Numbers, film_page, played, shots, with_frames
from viewer.program import ALL_MOVES, ProgramEnded, replies_to

from .common import EXAMPLES, STREAM, TOP, Case, model, program

NEAR, FAR = "v 0 -900 300 1000 0", "v 0 -900 300 1000 60000"


def taken(script: str) -> "List[tuple[str, int]]":
    replies = replies_to(program(), STREAM.read_bytes(), script.encode()).decode()
    return [(shot.view, len(shot.frame.faces)) for shot in shots(script, replies.splitlines())]


class Shots(Case):
    def test_each_frame_has_the_view_before_it(self) -> None:
        script = f"w\nm\n{NEAR}\nw\nt\n{FAR}\np 0 0 0 0 0 1\nw\nq\nw\n"
        self.assertEqual(taken(script), [("", 4), (NEAR, 8), (FAR, 4)])

    def test_a_geomorph_that_is_refused_is_no_frame(self) -> None:
        script = f"{FAR}\nk\n{NEAR}\ng 0 2\ng 1 2\nk\n{FAR}\ng 1 2\nw\n"
        self.assertEqual(taken(script), [(NEAR, 8), (NEAR, 8), (FAR, 4)])

    def test_a_flight_without_frames_is_told(self) -> None:
        octahedron = model("octahedron.vdpm")
        with self.assertRaisesRegex(BadFlight, "no line of it asks for a frame"):
            film_page(program(), octahedron, b"m\n", ALL_MOVES)
        with self.assertRaisesRegex(ProgramEnded, "fault 30 line 1"):
            film_page(program(), octahedron, b"v 1 2\n", ALL_MOVES)


class Live(Case):
    def test_a_whole_frame_is_asked_for_in_place_of_a_change(self) -> None:
        played = with_frames("w\nd\nl\nd")
        self.assertEqual(played.script, "w\nw\nk\nl\nw\nk\n")
        self.assertEqual(played.numbers, [1, 2, 2, 3, 4, 4])

    def test_frames_stand_where_changes_did_and_marks_are_kept(self) -> None:
        script = f"{FAR}\nd\n{NEAR}\ng 1 2\nd\nb 1\n{FAR.replace('v ', 'vd ')}\nd\n"
        reel = played(program(), model("octahedron.vdpm"), script, ALL_MOVES)
        self.assertEqual(reel.steps, [None, (1, 2), None, None])
        self.assertEqual(reel.views, [FAR, NEAR, NEAR, FAR.replace("v ", "vd ")])

    def test_a_fault_names_the_line_that_was_given(self) -> None:
        with self.assertRaisesRegex(ProgramEnded, "fault 30 line 3"):
            film_page(program(), model("octahedron.vdpm"), b"d\nd\nv 1 2\n", ALL_MOVES)


class Packing(Case):
    def test_numbers_take_seven_bits_a_byte(self) -> None:
        numbers = Numbers()
        for number in (0, 127, 128, 300):
            numbers.put(number)
        for number in (0, -1, 1, -64, 64):
            numbers.put_signed(number)
        self.assertEqual(numbers.bytes, bytes([0, 127, 128, 1, 172, 2, 0, 1, 2, 127, 128, 1]))

    def test_a_film_is_one_page_that_loads_nothing(self) -> None:
        flight = (EXAMPLES / "octahedron_glide.script").read_bytes()
        page = film_page(program(), model("octahedron.vdpm"), flight, ALL_MOVES)
        for word in ("http:", "https:", "src=", "@import", "import(", "fetch(", "WebSocket"):
            self.assertNotIn(word, page)
        self.assertEqual(page.count("<script"), 2)
        self.assertLess(len(page), 70000)

    def test_the_command_writes_it(self) -> None:
        words = [sys.executable, str(TOP / "viewer"), "--program", str(program()), "--film"]
        words += [str(EXAMPLES / "octahedron_glide.script"), str(STREAM)]
        done = subprocess.run(words, capture_output=True, text=True, check=False)
        self.assertEqual(done.returncode, 0, done.stderr)
        self.assertTrue(done.stdout.startswith("<!doctype html>"))


class Bundling(Case):
    def test_modules_stand_after_those_that_they_need(self) -> None:
        order = [module.stem for module in in_order(PAGE / "film.js")]
        self.assertEqual(order[-1], "film")
        self.assertLess(order.index("matrices"), order.index("camera"))
        self.assertLess(order.index("layout"), order.index("shaders"))
        self.assertEqual(len(order), len(set(order)))
        self.assertNotIn("\nimport ", bundled(PAGE / "film.js"))

    def test_a_module_gives_what_it_exports(self) -> None:
        text = 'import { a, e as f } from "../o/one.mjs";\nimport * as two from "./two.js";\n'
        text += "export const b = a;\nexport class C {}\nconst d = 1;\n"
        text += 'export { g, h } from "./four.js";\n'
        self.assertEqual(wrapped("three", text), (
            "const threeModule = (() => {\nconst { a, e: f } = oneModule;\nconst two = twoModule;\n"
            "const b = a;\nclass C {}\nconst d = 1;\n"
            "return { b, C, g: fourModule.g, h: fourModule.h };\n})();\n"
        ))

    def test_modules_of_one_name_are_refused(self) -> None:
        folder = self.folder()
        (folder / "one.mjs").write_text("export const a = 1;\n", encoding="utf-8")
        (folder / "inner").mkdir()
        (folder / "inner/one.js").write_text('import { a } from "../one.mjs";\n', encoding="utf-8")
        with self.assertRaisesRegex(CantBundle, "the name one"):
            bundled(folder / "inner/one.js")

    def test_other_forms_are_refused(self) -> None:
        for other in (
            "export default 1;\n", 'import one from "./one.js";\n', "export { a };\n",
            "export const a = 1, b = 2;\n",
        ):
            with self.assertRaises(CantBundle):
                wrapped("four", other)
