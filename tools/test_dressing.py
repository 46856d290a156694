"""Tries how textures are carried to streams: python3 tools/test_dressing.py"""
import struct
import sys
import tempfile
import unittest
from pathlib import Path
from typing import Dict, List, Optional, Tuple

sys.path.insert(0, str(Path(__file__).resolve().parent))

from dressing.coat import coat_of, painted, within  # noqa: E402
from dressing.dressed import Dressed, dressed, has_dress  # noqa: E402
from dressing.materials import PLAIN, PNG, materials_in, pictures_for  # noqa: E402
from dressing.origins import Origin, mesh_of, traced  # noqa: E402
from dressing.seams import cut  # noqa: E402
from dressing.textured import NONE, Place, read  # noqa: E402

# A square of two triangles, with a seam along its diagonal.
SQUARE = b"""mtllib square.mtl
v 0 0 0
v 4 0 0
v 4 4 0
v 0 4 0
vt 0 0
vt 1 0
vt 1 1
vt 0.25 0.5
usemtl red
f 1/1 2/2 3/3
usemtl a b
f 1/4/1 3/3/1 4/4/1
"""
ROOT = (0.0, 0.0, 0.0)


def faces_of(text: bytes) -> List[Tuple[int, ...]]:
    return [tuple(map(int, line.split()[1:])) for line in text.split(b"\n") if line[:1] == b"f"]


def words_of(coat: bytes) -> Tuple[int, ...]:
    return struct.unpack_from(f"<{(len(coat) - 4) // 4}i", coat, 4)


class Reading(unittest.TestCase):
    def test_faces_have_their_texture_and_their_page(self) -> None:
        told = read(SQUARE)
        assert told is not None
        self.assertEqual(told.pages, ["red", "a b"])
        self.assertEqual(told.libraries, ["square.mtl"])
        self.assertEqual([face.page for face in told.faces], [0, 1])
        self.assertEqual(told.faces[1].spots, (3, 2, 3))

    def test_numbers_from_the_end_and_corners_without_a_texture(self) -> None:
        told = read(b"v 0 0 0\nv 1 0 0\nv 0 1 0\nvt .5\nf -3/-1 -2 3//7\n")
        assert told is not None
        self.assertEqual(told.faces[0].corners, (0, 1, 2))
        self.assertEqual(told.faces[0].spots, (0, NONE, NONE))
        self.assertEqual((told.spots, told.pages), ([(0.5, 0.0)], [""]))

    def test_what_has_none_is_left(self) -> None:
        for text in (b"v 0 0 0\nf 1 1 1\n", b"v 0 0 0\nvt 1 1\nf 1 1 1\n",
                     b"v 0 0 0\nvt x 1\nf 1/1 1 1\n", b"v 0 0 0\nvt 1 1\nf 1/2 1 1\n",
                     b"v 0 0 0\nvt nan\nf 1/1 1 1\n", b"v 0 0 0\nvt 1\nf 1/1 1 1\n\\"):
            self.assertIsNone(read(text))


class Tracing(unittest.TestCase):
    def origins(self, text: bytes, mesh: bytes, unit: float) -> Optional[List[Origin]]:
        told = read(text)
        assert told is not None
        return traced(told, mesh_of(mesh), unit, ROOT)

    def test_a_polygon_gives_several_faces_and_others_none(self) -> None:
        text = (b"v 0 0 0\nv 1 0 0\nv 1 1 0\nv 0 1 0\nvt 0 0\nf 1/1 1/1 2/1\nf 1/1 2/1 3/1 4/1\n"
                b"f 2/1 1/1 4/1\n")
        mesh = b"v 0 0 0\nv 10 0 0\nv 10 10 0\nv 0 10 0\nf 2 3 4\nf 4 1 2\n"
        origins = self.origins(text, mesh, 0.1)
        self.assertEqual(origins, [Origin(1, (1, 2, 3)), Origin(1, (3, 0, 1))])

    def test_a_turned_face_keeps_what_its_corners_had(self) -> None:
        text = SQUARE.replace(b"f 1/1 2/2 3/3", b"f 2/2 1/1 3/3")
        mesh = b"v 0 0 0\nv 8 0 0\nv 8 8 0\nv 0 8 0\nf 1 2 3\nf 1 3 4\n"
        self.assertEqual(
            self.origins(text, mesh, 0.5), [Origin(0, (1, 0, 2)), Origin(1, (0, 1, 2))]
        )

    def test_a_face_of_nowhere(self) -> None:
        self.assertIsNone(self.origins(SQUARE, b"v 9 9 9\nf 1 1 1\n", 1.0))


class Cutting(unittest.TestCase):
    def test_a_side_with_the_same_at_both_ends_stays_shut(self) -> None:
        faces = [(0, 1, 2), (0, 2, 3)]
        same = [(0, 0, 0), (1, 0, 0), (1, 1, 0), (0, 0, 0), (1, 1, 0), (0, 1, 0)]
        self.assertEqual(cut(4, faces, same).faces, faces)
        other = [*same[:3], (9, 9, 0), *same[4:]]
        made = cut(4, faces, other)
        self.assertEqual(made.before, [0, 0, 1, 2, 2, 3])
        self.assertEqual(made.faces, [(0, 2, 3), (1, 4, 5)])
        self.assertEqual(made.keys, [other[0], other[3], other[1], other[2], other[4], other[5]])

    def test_a_fan_that_comes_round_is_one_vertex(self) -> None:
        faces = [(0, 1, 2), (0, 2, 3), (0, 3, 1)]
        self.assertEqual(cut(5, faces, [(0, 0, 0)] * 9).before, [0, 1, 2, 3, 4])


class Dressing(unittest.TestCase):
    def square(self, mesh: bytes, scale: Optional[Tuple[float, Place]]) -> Dressed:
        found = dressed(SQUARE, mesh, scale)
        assert found is not None
        return found

    def test_a_mesh_as_it_stands(self) -> None:
        found = self.square(SQUARE, None)
        self.assertEqual(faces_of(found.text), [(1, 3, 4), (2, 5, 6)])
        self.assertEqual(found.before, [0, 0, 1, 2, 2, 3])
        one, quarter, half = 65536, 16384, 32768
        spots = (0, 0, quarter, half, one, 0, one, one, one, one, quarter, half)
        self.assertEqual(words_of(found.coat), (1, 6, 2, 6, *spots, 256))

    def test_a_prepared_mesh(self) -> None:
        mesh = b"v 0 0 0\nv 8 0 0\nv 8 8 0\nv 0 8 0\nf 3 1 2\nf 1 3 4\n"
        self.assertEqual(faces_of(self.square(mesh, (0.5, ROOT)).text), [(4, 1, 3), (2, 5, 6)])
        self.assertIsNone(dressed(SQUARE, mesh.replace(b"f 3 1 2", b"f 2 4 3"), (0.5, ROOT)))

    def test_a_mesh_without_seams_stays_whole(self) -> None:
        plain = SQUARE.replace(b"f 1/4/1 3/3/1 4/4/1", b"f 1/1/1 3/3/1 4/4/1")
        one_page = plain.replace(b"usemtl a b\n", b"")
        for text, is_cut in ((SQUARE, True), (plain, True), (one_page, False)):
            found = dressed(text, text, None)
            self.assertEqual(found and found.is_cut, is_cut)

    def test_colours_of_materials_alone_cut_nothing(self) -> None:
        text = b"v 0 0 0\nv 4 0 0\nv 4 4 0\nv 0 4 0\nusemtl a\nf 1 2 3\nusemtl b\nf 1 3 4\n"
        found = dressed(text, text, None)
        assert found is not None
        self.assertEqual((found.is_cut, found.before), (False, [0, 1, 2, 3]))
        self.assertEqual(words_of(found.coat)[-1], 256)

    def test_what_goes_beyond_a_coat_comes_to_its_border(self) -> None:
        self.assertEqual(within((0.5, -40.0)), (32768, -2097152))

    def test_the_coat_and_what_is_painted(self) -> None:
        coat = coat_of([(1, -2, 0)], [3, 4, 5, 6, 7])
        self.assertEqual(coat[20:], struct.pack("<2i", 1, -2) + bytes([3, 4, 5, 6, 7, 0, 0, 0]))
        found = painted(b"t 0 1 -2\nt 1 65536 7\np 0 3\np 1 0\n")
        self.assertEqual(found, (struct.pack("<4i", 1, -2, 65536, 7), bytes([3, 0])))


class Materials(unittest.TestCase):
    def folder(self, files: Dict[str, bytes]) -> Path:
        room = tempfile.TemporaryDirectory()
        self.addCleanup(room.cleanup)
        for name, data in files.items():
            (Path(room.name) / name).write_bytes(data)
        return Path(room.name) / "square.obj"

    def test_colours_and_pictures(self) -> None:
        found = materials_in(
            b"newmtl a b # one\nKd 1 .5 0\nmap_Kd -s 1 1 1 -o 0 0 0 my pic.png\nNewmtl c\n"
        )
        self.assertEqual(found["a b"], ((1.0, 0.5, 0.0), "my pic.png"))
        self.assertEqual(found["c"], (PLAIN, ""))

    def test_files_are_found_by_their_names(self) -> None:
        path = self.folder({
            "Square.MTL": b"newmtl red\nKd 1 0 0\nnewmtl a b\nmap_Kd C:\\textures\\Pic.PNG\n"
                          b"newmtl c\nmap_Kd none.jpg\nnewmtl d\nmap_Kd text.png\n",
            "pic.png": PNG + b"data", "text.png": b"no picture",
        })
        red, own, lost, text, unknown = pictures_for(path, ["red", "a b", "c", "d", "e"], [])
        self.assertEqual((red.colour, red.data, red.missing), ((1.0, 0.0, 0.0), b"", ""))
        self.assertEqual((own.kind, own.data), ("image/png", PNG + b"data"))
        self.assertEqual((lost.missing, text.missing), ("none.jpg", "text.png"))
        self.assertEqual(unknown.colour, PLAIN)

    def test_what_has_no_materials_is_left(self) -> None:
        path = self.folder({"SQUARE.mtl": b""})
        self.assertTrue(has_dress(path, SQUARE))
        self.assertFalse(has_dress(path, SQUARE.replace(b"mtllib square.mtl", b" mtllib a b.mtl")))
        bare = SQUARE.replace(b"vt", b"vn").replace(b"usemtl", b"g")
        self.assertFalse(has_dress(path, bare))
        self.assertTrue(has_dress(path, SQUARE.replace(b"mtllib square.mtl", b"")))

    def test_a_file_of_materials_that_is_missing_is_named(self) -> None:
        (page,) = pictures_for(self.folder({}), ["red"], ["lost.mtl"])
        self.assertEqual((page.colour, page.missing), (PLAIN, "lost.mtl"))


if __name__ == "__main__":
    unittest.main()
