"""Tries the input numbers of nodes and faces by the library: python3 tools/test_library_inputs.py

They are compared with those that a plain model (tests/model) reads in the streams.
"""
import ctypes
import unittest
from typing import List, Tuple

from tried_library import TOP, cases_of, take_library

import vdpm
from model.stream import read_stream
from vdpm.library import DONE, NOT_SO, NO_ROOM

OCTAHEDRON = TOP / "examples" / "octahedron.vdpm"


def setUpModule() -> None:
    take_library()


def inputs_of(stream: bytes) -> Tuple[List[int], List[int]]:
    """The vertex of each node and the face of each face, as the stream's words tell them."""
    h = read_stream(stream).hierarchy
    vertices = [it.input - 1 if it.width() == 1 else vdpm.NO_VERTEX for it in h.nodes]
    return vertices, [number - 1 for number in h.face_inputs]


class Inputs(unittest.TestCase):
    def test_they_are_those_of_the_streams(self) -> None:
        streams = {asked.given for asked in cases_of("vdpm", "check")
                   if asked.fault is None and len(asked.given) < 30_000}
        for stream in sorted(streams | {OCTAHEDRON.read_bytes()}):
            with vdpm.Session(stream) as session:
                told = session.inputs()
                self.assertEqual((list(told.by_node), list(told.by_face)), inputs_of(stream))
        self.assertGreater(len(streams), 10)

    def test_they_lead_to_the_mesh_that_the_stream_was_made_of(self) -> None:
        text = (TOP / "examples" / "octahedron.obj").read_bytes()
        rows = [line.split() for line in text.decode().splitlines()]
        places = [[int(n) for n in row[1:]] for row in rows if row[:1] == ["v"]]
        with vdpm.Session(vdpm.simplify(text)) as session:
            for record in range(session.sizes().records):
                session.split(record)
            told, frame = session.inputs(), session.frame()
            corners = [[int(n) - 1 for n in row[1:]] for row in rows if row[:1] == ["f"]]
            for node in frame.nodes:
                self.assertEqual(list(session.place(int(node))), places[told.by_node[node]])
            given = frame.corner_nodes
            flat = [int(n) for n in getattr(given, "ravel", lambda: given)()]
            for at, face in enumerate(frame.faces):
                shown = [int(told.by_node[node]) for node in flat[3 * at : 3 * at + 3]]
                self.assertEqual(shown, corners[told.by_face[face]])

    def test_they_are_the_same_whatever_is_shown(self) -> None:
        with vdpm.Session(OCTAHEDRON.read_bytes()) as session:
            first = session.inputs()
            session.split(0)
            again = session.inputs()
            self.assertEqual([list(it) for it in first], [list(it) for it in again])

    def test_too_little_room_tells_how_much_is_needed(self) -> None:
        session = vdpm.Session(OCTAHEDRON.read_bytes())
        by_node, by_face = inputs_of(OCTAHEDRON.read_bytes())
        nodes, faces = len(by_node), len(by_face)
        here, there = (ctypes.c_uint32 * 99)(*[5] * 99), (ctypes.c_uint32 * 99)(*[5] * 99)

        def asked(for_nodes: int, for_faces: int) -> Tuple[int, int]:
            count = ctypes.c_uint32(5)
            status = session._library.vdpm_inputs(session._viewer, here, for_nodes, there,
                                                  for_faces, count)
            return int(status), count.value

        self.assertEqual(asked(nodes - 1, faces), (NO_ROOM, faces))
        self.assertEqual(asked(nodes, faces - 1), (NO_ROOM, faces))
        self.assertEqual(set(here) | set(there), {5})
        self.assertEqual(asked(nodes + 2, faces + 3), (DONE, faces))
        self.assertEqual(list(here), by_node + [5] * (99 - nodes))
        self.assertEqual(list(there), by_face + [5] * (99 - faces))
        session.close()
        self.assertEqual(asked(99, 99), (NOT_SO, 5))
        with self.assertRaises(vdpm.NotOpen):
            session.inputs()

    def test_the_version_is_that_of_the_header(self) -> None:
        library = vdpm.Session(OCTAHEDRON.read_bytes())._library
        header = (TOP / "libvdpm.h").read_text()
        numbers = [int(header.split(f"VDPM_VERSION_{name} ")[1].split()[0])
                   for name in ("MAJOR", "MINOR", "PATCH")]
        major, minor, patch = numbers
        self.assertEqual(library.vdpm_version(), 10_000 * major + 100 * minor + patch)


if __name__ == "__main__":
    unittest.main()
