"""Tries the buffers that follow a session: python3 tools/test_library_buffers.py

They are compared with the frames that the session tells, over flights, and so is what a renderer
has that copies nothing but the slots that it is told.
"""
import pydoc
import unittest
from collections import Counter
from typing import Any, Callable, Counter as Counts, Dict, Iterable, List, Tuple

from tried_library import TOP, flat, take_library

import vdpm

STREAMS = ("torus", "asteroid", "ring_scan")
Place = Tuple[int, ...]


def setUpModule() -> None:
    take_library()


def stream_of(name: str) -> bytes:
    return vdpm.simplify(vdpm.prepare((TOP / f"examples/{name}.obj").read_bytes(), 30000).text)


def threes(numbers: Any) -> List[Place]:
    flats = flat(numbers)
    return [tuple(flats[at : at + 3]) for at in range(0, len(flats), 3)]


def turned(corners: Iterable[Any]) -> Tuple[Any, ...]:
    """The corners from the least on, so that faces compare whichever of them is first."""
    given = tuple(corners)
    at = given.index(min(given))
    return given[at:] + given[:at]


def shown(places: List[Place], triangles: List[Place]) -> Counts[Any]:
    """The triangles by their places, but for those that draw nothing."""
    return Counter(turned(places[it] for it in corners) for corners in triangles
                   if len({*corners}) == 3)


class Renderer:
    """What is drawn: copies of the buffers, into which ranges of them are copied."""

    def __init__(self) -> None:
        self.vertices: List[Place] = []
        self.triangles: List[Place] = []

    def copy(self, slots: vdpm.Slots, written: vdpm.Written, apart: int) -> None:
        for mine, theirs, told in (
            (self.vertices, threes(slots.vertices), written.vertex_slots),
            (self.triangles, threes(slots.triangles), written.triangle_slots),
        ):
            mine += [(0, 0, 0)] * (len(theirs) - len(mine))
            for begin, end in vdpm.ranges(told, apart):
                mine[begin:end] = theirs[begin:end]


class Flights(unittest.TestCase):
    def assert_shown(self, session: vdpm.Session, slots: vdpm.Slots) -> None:
        """The buffers are the frame, up to order, and name what stands in each slot."""
        frame = session.frame()
        places, corners = threes(frame.places), threes(frame.corners)
        vertices, triangles = threes(slots.vertices), threes(slots.triangles)
        self.assertEqual(shown(vertices, triangles), shown(places, corners))
        nodes, faces = flat(slots.nodes), flat(slots.faces)
        standing = {node: at for at, node in enumerate(nodes) if node != vdpm.NO_VERTEX}
        self.assertEqual(sorted(standing), flat(frame.nodes))
        for node, place in zip(flat(frame.nodes), places):
            self.assertEqual(vertices[standing[node]], place)
        told = dict(zip(flat(frame.faces), threes(frame.corner_nodes)))
        self.assertEqual(sorted(it for it in faces if it != vdpm.NO_VERTEX), sorted(told))
        for face, triangle in zip(faces, triangles):
            if face == vdpm.NO_VERTEX:
                self.assertEqual(triangle, (0, 0, 0))
            else:
                self.assertEqual(turned(nodes[it] for it in triangle),
                                 turned(told[face]))

    def assert_fewest(self, slots: vdpm.Slots, written: vdpm.Written, nodes: List[int],
                      faces: List[int], triangles: List[Place]) -> None:
        """A slot is told exactly where it has another item or other corners."""
        before = nodes + [vdpm.NO_VERTEX] * (len(slots.nodes) - len(nodes))
        come = [at for at, (was, it) in enumerate(zip(before, flat(slots.nodes)))
                if it not in (was, vdpm.NO_VERTEX)]
        self.assertEqual(sorted(flat(written.vertex_slots)), come)
        was = triangles + [(0, 0, 0)] * (len(slots.faces) - len(faces))
        filled = [at for at, (old, it) in enumerate(zip(was, threes(slots.triangles)))
                  if old != it]
        self.assertTrue({*filled} <= {*flat(written.triangle_slots)})
        self.assertEqual(len({*flat(written.triangle_slots)}), len(written.triangle_slots))

    def test_buffers_are_the_frames_up_to_order(self) -> None:
        for name in STREAMS:
            renderer = Renderer()
            with vdpm.Session(stream_of(name)) as session, session.slots() as slots:
                for step in range(25):
                    with self.subTest(name, step=step):
                        eye = (-50000 + 4000 * step, -60000, 40000 - 1500 * step)
                        session.view(eye, 900, 1 + 7 * step % 23, by_deviation=step % 5 == 4)
                        nodes, faces = flat(slots.nodes), flat(slots.faces)
                        triangles = threes(slots.triangles)
                        written = slots.update()
                        self.assert_shown(session, slots)
                        self.assert_fewest(slots, written, nodes, faces, triangles)
                        renderer.copy(slots, written, 1 + step % 3)
                        self.assertEqual(
                            shown(renderer.vertices, renderer.triangles),
                            shown(threes(slots.vertices), threes(slots.triangles)))
                self.assertIn(vdpm.NO_VERTEX, flat(slots.nodes))

    def test_what_an_update_tells_is_in_the_buffers(self) -> None:
        with vdpm.Session(stream_of("torus")) as session, session.slots() as slots:
            for tolerance in (30, 2, 12, 12, 1, 60):
                session.view((0, -60000, 40000), 900, tolerance)
                written = slots.update()
                for told, places, whole in (
                    (written.vertex_slots, written.places, slots.vertices),
                    (written.triangle_slots, written.corners, slots.triangles),
                ):
                    there = threes(whole)
                    self.assertEqual([there[it] for it in flat(told)], threes(places))
            self.assertEqual(len(slots.update().vertex_slots), 0)
            self.assertEqual(len(slots.update().triangle_slots), 0)


class Marks(unittest.TestCase):
    def test_all_is_written_anew_where_the_front_was_marked_otherwise(self) -> None:
        with vdpm.Session(stream_of("torus")) as session, session.slots() as slots:
            others: Dict[str, Callable[[], Any]] = {
                "a mark": session.mark, "a change": session.change,
                "d": lambda: session.line("d"), "k": lambda: session.line(b"k"),
                "others": session.slots().update, "nothing": lambda: None,
            }
            for name, mark in others.items():
                with self.subTest(name):
                    slots.update()
                    session.view((0, -60000, 40000), 900, 2)
                    mark()
                    session.view((0, -60000, 40000), 900, 40)
                    written, frame = slots.update(), session.frame()
                    self.assertEqual(shown(threes(slots.vertices), threes(slots.triangles)),
                                     shown(threes(frame.places), threes(frame.corners)))
                    is_anew = len(written.vertex_slots) == len(slots.nodes) == len(frame.nodes)
                    self.assertEqual(is_anew, name != "nothing")

    def test_they_are_closed_with_or_before_the_session(self) -> None:
        session = vdpm.Session(stream_of("torus"))
        with session.slots() as slots:
            self.assertEqual(repr(slots), "<vdpm.Slots, 0 of vertices, 0 of triangles>")
            self.assertRegex(repr(slots.update()), r"^Written\(\d+ vertices, \d+ triangles\)$")
        self.assertEqual(repr(slots), "<vdpm.Slots, closed>")
        self.assertEqual((len(slots.vertices), len(slots.faces)), (0, 0))
        with self.assertRaisesRegex(vdpm.NotOpen, "the slots are closed"):
            slots.update()
        slots.close()
        open_ones = session.slots()
        session.close()
        with self.assertRaisesRegex(vdpm.NotOpen, "the session is closed"):
            open_ones.update()

    def test_nothing_is_shown_of_nothing(self) -> None:
        with vdpm.Session(vdpm.build("", allow_empty=True)) as session, session.slots() as slots:
            self.assertEqual(repr(slots.update()), "Written(0 vertices, 0 triangles)")
            self.assertEqual(repr(slots.update()), "Written(0 vertices, 0 triangles)")
            self.assertEqual((len(slots.vertices), len(slots.triangles)), (0, 0))

    def test_the_buffers_are_not_written_by_others(self) -> None:
        with vdpm.Session(stream_of("torus")) as session, session.slots() as slots:
            slots.update()
            for buffer in (slots.vertices, slots.nodes, slots.triangles, slots.faces):
                with self.assertRaises((TypeError, ValueError)):
                    buffer[0] = 0


class Ranges(unittest.TestCase):
    def test_slots_in_a_row_are_one(self) -> None:
        self.assertEqual(list(vdpm.ranges([])), [])
        self.assertEqual(list(vdpm.ranges([7])), [(7, 8)])
        self.assertEqual(list(vdpm.ranges([3, 1, 2, 9, 6, 5])), [(1, 4), (5, 7), (9, 10)])
        self.assertEqual(list(vdpm.ranges([3, 1, 2, 9, 6, 5], apart=2)), [(1, 7), (9, 10)])
        self.assertEqual(list(vdpm.ranges([3, 1, 2, 9, 6, 5], apart=3)), [(1, 10)])

    def test_help_tells_shapes_and_units(self) -> None:
        text = pydoc.plain(pydoc.render_doc(vdpm.Slots))
        for word in ("shape (V, 3)", "in units", "index buffer", "written = slots.update()"):
            self.assertIn(word, text)


if __name__ == "__main__":
    unittest.main()
