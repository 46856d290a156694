"""Tries python/vdpm as its callers use it: python3 tools/test_library_python.py

The bytes and arrays that it answers are compared in test_library.py and test_library_making.py.
"""
import pydoc
import struct
import unittest
from fractions import Fraction
from typing import Any, Callable, Dict, List, Tuple

from tried_library import TOP, flat, take_library

import vdpm
from vdpm.fields import multiples, pixels, plane

OBJ, TORUS = TOP / "examples/octahedron.obj", (TOP / "examples/torus.obj").read_bytes()
STREAM = (TOP / "examples/octahedron.vdpm").read_bytes()
EYE = (0, -60000, 40000)


def setUpModule() -> None:
    take_library()


def torus() -> vdpm.Session:
    return vdpm.Session(vdpm.simplify(vdpm.prepare(TORUS, 30000).text))


class Views(unittest.TestCase):
    def shown(self, *numbers: Any, **told: Any) -> List[int]:
        with torus() as session:
            session.view(EYE, *numbers, **told)
            return flat(session.frame().nodes)

    def test_fractions_are_told_exactly(self) -> None:
        self.assertEqual(pixels(1000, 0.5, None), [2000, 1])
        self.assertEqual(pixels(1000, 0.1, None), [10000, 1])
        self.assertEqual(pixels(Fraction(4001, 2), Fraction(3, 4), 0), [8002, 3, 0])
        self.assertEqual(pixels(400000, 20, None), [20000, 1])
        self.assertEqual(pixels(600, 4, 2), [600, 4, 2])
        self.assertEqual(plane((0.5, 0, -0.25, 3), "it"), [2, 0, -1, 12])
        self.assertEqual(multiples([Fraction(0), Fraction(0)]), [0, 0])

    def test_a_view_asks_for_the_proportion_alone(self) -> None:
        for focal, tolerance, outline in ((700, 3, 2), (900, 8, 0), (500, 1, 1)):
            whole = self.shown(focal, tolerance, outline=outline)
            parts = [Fraction(it, 7) for it in (focal, tolerance, outline)]
            self.assertEqual(self.shown(*parts[:2], outline=parts[2]), whole)
            self.assertEqual(self.shown(3 * focal, 3 * tolerance, outline=3 * outline), whole)
        self.assertLess(len(self.shown(1, 0.5)), len(self.shown(1, 0)))

    def test_what_is_out_of_range_is_refused_in_its_own_words(self) -> None:
        refused: List[Tuple[str, Tuple[Any, ...], Dict[str, Any]]] = [
            ("eye has 16777216", ((16777216, 0, 0), 1, 1), {}),
            ("eye has 0.5, and stands on whole units", ((0.5, 0, 0), 1, 1), {}),
            ("eye has 2 numbers", ((0, 0), 1, 1), {}),
            ("tolerance is -1.0, below 0", (EYE, 1, -1), {}),
            ("round the focal length", (EYE, 514.4957554275265, 0.3), {}),
            ("focal is nan", (EYE, float("nan"), 1), {}),
            ("`outline` is 3.0, above the tolerance 2.0", (EYE, 1, 2), {"outline": 3}),
            ("7 planes", (EYE, 1, 2, [(1, 0, 0, 0)] * 7), {}),
            (r"planes\[1\] has 3 numbers", (EYE, 1, 2, [(1, 0, 0, 0), (1, 0, 0)]), {}),
            (r"planes\[0\]: told in whole numbers", (EYE, 1, 2, [(40000, 0, 0, 0)]), {}),
        ]
        for told, numbers, more in refused:
            with self.subTest(told), torus() as session:
                with self.assertRaisesRegex(ValueError, told):
                    session.view(*numbers, **more)
        with torus() as session:
            with self.assertRaisesRegex(TypeError, "focal is '1', and not a number"):
                session.view(EYE, "1", 1)  # type: ignore[arg-type]
            with self.assertRaisesRegex(ValueError, "tells no way"):
                session.pick(EYE, (0, 0, 0))
            with self.assertRaisesRegex(ValueError, "not a whole number from 0"):
                session.split(-1)

    def test_a_camera_has_the_sides_of_its_picture(self) -> None:
        look = vdpm.camera(800, 600, 60, EYE, (0, 0, 0))
        self.assertEqual((look.focal, len(look.planes)), (520, 4))

        def inside(x: int, y: int, z: int) -> List[bool]:
            return [a * x + b * y + c * z + o >= 0 for a, b, c, o in look.planes]

        self.assertEqual(inside(0, 0, 0), [True] * 4)
        # (left and right, below and above, in this order; behind the eye is outside of all)
        self.assertEqual(inside(-70000, 0, 0), [False, True, True, True])
        self.assertEqual(inside(70000, 0, 0), [True, False, True, True])
        self.assertEqual(inside(0, 0, -120000), [True, True, False, True])
        self.assertEqual(inside(0, 0, 60000), [True, True, True, False])
        self.assertEqual(inside(0, -120000, 80000), [False] * 4)
        with torus() as session:
            session.view(**look._asdict(), tolerance=1)
            whole = len(session.frame().nodes)
            aside = vdpm.camera(800, 600, 60, EYE, (90000, -60000, 40000))
            session.view(**aside._asdict(), tolerance=1)
            self.assertLess(len(session.frame().nodes), whole)

    def test_a_camera_without_a_picture_is_refused(self) -> None:
        for told, numbers in (
            ("target is the eye", (8, 6, 60, EYE, EYE)),
            ("fov is 180", (8, 6, 180, EYE, (0, 0, 0))),
            ("up is the direction", (8, 6, 60, (0, 0, 9), (0, 0, 0))),
            ("focal length is", (8, 600000, 20, EYE, (0, 0, 0))),
            ("0 times 6 pixels", (0, 6, 60, EYE, (0, 0, 0))),
        ):
            with self.subTest(told), self.assertRaisesRegex(ValueError, told):
                vdpm.camera(*numbers)


class Told(unittest.TestCase):
    def test_measure_and_level_are_the_lines(self) -> None:
        with torus() as session:
            session.view(EYE, 800, 5)
            shape, level = session.measure(), session.level()
            self.assertEqual("shape {} {} {} loops {} euler {}\n".format(*shape).encode(),
                             session.line("m"))
            self.assertEqual("level {} {} {} {} {}\n".format(*level).encode(), session.line("l"))
            self.assertEqual(shape.euler, 0)

    def test_bounds_are_those_of_the_full_mesh(self) -> None:
        with torus() as session:
            bounds = session.bounds()
            for record in range(session.sizes().records):
                session.split(record)
            flats = flat(session.frame().places)
            axes = [flats[axis::3] for axis in range(3)]
            low, high = tuple(min(axis) for axis in axes), tuple(max(axis) for axis in axes)
            self.assertEqual(bounds, (low, high))
        with vdpm.Session(vdpm.build("", allow_empty=True)) as session:
            with self.assertRaisesRegex(ValueError, "no vertices"):
                session.bounds()

    def test_the_scale_leads_back(self) -> None:
        text = b"v 0.25 1 2\nv 3 -1.5 0\nv 1 2 3.75\nf 1 2 3\n"
        fit = vdpm.prepare(text, 1000)
        places = [[int(it) for it in line.split()[1:]] for line in fit.text.decode().splitlines()
                  if line.startswith("v ")]
        given = [[Fraction(it) for it in line.split()[1:]] for line in text.decode().splitlines()
                 if line.startswith("v ")]
        for place, coordinates in zip(places, given):
            for number, middle, coordinate in zip(place, fit.middle, coordinates):
                self.assertLessEqual(abs(fit.scale * number + middle - coordinate), fit.scale / 2)
        stands = vdpm.prepare(OBJ.read_bytes())
        self.assertEqual((stands.scale, stands.middle), (1, (0, 0, 0)))

    def test_what_is_answered_is_short_to_read(self) -> None:
        session = vdpm.Session(STREAM)
        self.assertEqual(repr(session), "<vdpm.Session, showing 4 of 6 vertices, 4 faces>")
        self.assertEqual(repr(session.frame()), "Frame(4 vertices, 4 faces)")
        self.assertIn("0 nodes gone", repr(session.change()))
        session.close()
        self.assertEqual(repr(session), "<vdpm.Session, closed>")
        self.assertRegex(repr(vdpm.prepare(TORUS)), r"Prepared\(\d+ bytes, \d+ notes\)")

    def test_help_tells_of_each_name(self) -> None:
        for name in vdpm.__all__:
            it = getattr(vdpm, name)
            self.assertTrue(name == "Strips" or it.__doc__, name)
            if isinstance(it, type):
                own = [key for key in vars(it) if key[0] != "_" and callable(vars(it)[key])]
                self.assertEqual([key for key in own if not vars(it)[key].__doc__], [], name)
        text = pydoc.plain(pydoc.render_doc(vdpm.Session))
        self.assertIn("in pixels", text)
        self.assertIn("class Session", text)


class NotTexts(unittest.TestCase):
    def assert_told(self, told: str, given: Any, *makers: Callable[[Any], Any]) -> None:
        each: Tuple[Callable[[Any], Any], ...] = (vdpm.prepare, vdpm.build, vdpm.simplify)
        for make in makers or each:
            with self.subTest(told, maker=make.__name__):
                with self.assertRaisesRegex(vdpm.NotMesh, told):
                    make(given)

    def test_what_was_given_is_told(self) -> None:
        stl = bytes(80) + (1).to_bytes(4, "little") + bytes(50)
        self.assert_told("'model.obj', the path of a text", "model.obj")
        self.assert_told("the path of a text", str(OBJ))
        made = (vdpm.build, vdpm.simplify)
        self.assert_told("it is a PLY", b"ply\nformat ascii 1.0\n", *made)
        self.assert_told("it is an STL", b"solid it\n facet normal 0 0 1\n", *made)
        self.assert_told("it is an STL", stl, *made)
        self.assert_told("it is a stream", STREAM)
        self.assert_told("it is a GLB", b"glTF\2\0\0\0")
        self.assert_told("no line begins with f in its 16 bytes", b"v 0 0 0\nv 1 1 1\n", vdpm.build)
        self.assert_told("no line begins with f in its 0 bytes", "", vdpm.build, vdpm.simplify)

    def test_ply_and_stl_are_prepared(self) -> None:
        corners = (0.0, 0.0, 0.0, 10.0, 0.0, 0.0, 0.0, 10.0, 0.0)
        stl = bytes(80) + (1).to_bytes(4, "little") + struct.pack("<12fH", 0, 0, 1, *corners, 0)
        text = b"# coordinates as they stood\nv 0 0 0\nv 10 0 0\nv 0 10 0\nf 1 2 3\n"
        made = vdpm.prepare(stl)
        self.assertEqual((made.text, made.notes), (text, ("prepare: 1 normal ignored",)))
        with self.assertRaises(vdpm.TextFault) as raised:
            vdpm.prepare(stl[:-1])
        self.assertEqual((raised.exception.number, raised.exception.place), (21, 133))
        with self.assertRaises(vdpm.TextFault) as raised:
            vdpm.prepare(b"ply\nformat ascii 1.1\n")
        self.assertNotIsInstance(raised.exception, vdpm.NotMesh)
        self.assertEqual((raised.exception.number, raised.exception.place), (44, 2))

    def test_what_is_no_text_at_all_is_a_wrong_type(self) -> None:
        for given in (OBJ, 5, None, [1, 2]):
            with self.subTest(given), self.assertRaises(TypeError):
                vdpm.build(given)  # type: ignore[arg-type]
        with self.assertRaisesRegex(TypeError, "a stream is asked for as bytes"):
            vdpm.Session("torus.vdpm")  # type: ignore[arg-type]

    def test_faults_are_of_kinds(self) -> None:
        with vdpm.Session(STREAM) as session:
            for line in ("v", "s 99"):
                with self.assertRaises(vdpm.LineFault):
                    session.line(line)
        with self.assertRaises(vdpm.StreamFault):
            vdpm.Session(b"")
        with self.assertRaises(vdpm.TextFault) as raised:
            vdpm.build("v 0 0 0\nf 1 2 3\n")
        self.assertNotIsInstance(raised.exception, vdpm.NotMesh)
        self.assertTrue(issubclass(vdpm.TextFault, vdpm.Fault))


if __name__ == "__main__":
    unittest.main()
