"""Tries the reader of mesh files: python3 tools/test_mesh_files.py"""
import random
import struct
import sys
import tempfile
import unittest
from fractions import Fraction
from pathlib import Path
from typing import Dict, List, Tuple

sys.path.insert(0, str(Path(__file__).resolve().parent))

from mesh_files.filed import BLOCK, Filed  # noqa: E402
from mesh_files import obj  # noqa: E402
from mesh_files.ears import triangles_of  # noqa: E402
from mesh_files.reading import as_obj, polygons_of, read_soup  # noqa: E402
from mesh_files.soup import MeshFault, Soup, filed_soup  # noqa: E402

TYPES: Dict[str, str] = {
    "char": "b", "uchar": "B", "short": "h", "ushort": "H", "int": "i", "uint": "I",
    "float32": "f", "double": "d",
}
ORDERS = {"ascii": "", "binary_little_endian": "<", "binary_big_endian": ">"}
POINTS = [(0, 0, 0), (4, 0, 0), (4, 4, 0), (0, 4, 1), (2, 6, 0)]
FACES = [[0, 1, 2], [0, 2, 3], [3, 2, 4], [0, 1, 2, 4, 3]]


def numbers(order: str, letter: str, values: List[float]) -> bytes:
    if not order:
        return " ".join(f"{v:g}" for v in values).encode() + b" "
    return struct.pack(f"{order}{len(values)}{letter}", *values)


def ply(form: str, place: str, counter: str, index: str, between: bool = False) -> bytes:
    """A file of the points and faces, with other properties and elements between them."""
    order, end = ORDERS[form], b"" if ORDERS[form] else b"\n"
    head = f"ply\nformat {form} 1.0\ncomment made by a test\nelement vertex {len(POINTS)}\n"
    head += f"property uchar red\nproperty {place} z\nproperty {place} x\nproperty {place} y\n"
    if between:
        head += "element edge 2\nproperty list uchar short ends\nproperty double long\n"
    head += f"element face {len(FACES)}\nproperty int flags\n"
    head += f"property list {counter} {index} vertex_index\nend_header\n"
    data = head.encode()
    for x, y, z in POINTS:
        data += numbers(order, "B", [7]) + numbers(order, TYPES[place], [z, x, y]) + end
    for _ in range(2 * between):
        data += numbers(order, "B", [3]) + numbers(order, "h", [1, -2, 3])
        data += numbers(order, "d", [0.5]) + end
    for face in FACES:
        data += numbers(order, "i", [-1]) + numbers(order, TYPES[counter], [len(face)])
        data += numbers(order, TYPES[index], list(face)) + end
    return data


def stl(text: bool) -> bytes:
    threes = [[POINTS[c] for c in face] for face in FACES[:3]]
    if text:
        lines = ["solid made by a test"]
        for three in threes:
            lines += [" facet normal nan 0 1", "\touter loop"]
            lines += [f"  VERTEX {x} {y}e0 {z}.0" for x, y, z in three]
            lines += [" endloop", "endfacet"]
        return "\r\n".join([*lines, "endsolid made by a test", ""]).encode()
    data = b"solid, though binary".ljust(80) + struct.pack("<I", len(threes))
    for three in threes:
        data += struct.pack("<12fH", 0, 0, 0, *(c for point in three for c in point), 3)
    return data


class FiledNumbers(unittest.TestCase):
    def test_a_long_list_is_what_was_added_and_a_short_one_too(self) -> None:
        for count in (0, 5, BLOCK, 2 * BLOCK + 7):
            numbers = Filed("i")
            for first in range(0, count, 1000):
                numbers.extend(range(first, min(count, first + 1000)))
            self.assertEqual(len(numbers), count)
            self.assertEqual([n for block in numbers.blocks() for n in block], list(range(count)))
            whole = numbers.whole()
            self.assertEqual(whole.tolist(), list(range(count)))
            numbers.let_go()
            self.assertEqual(list(whole[-3:]), list(range(count))[-3:])

    def test_places_of_zeros_are_written_later(self) -> None:
        for count in (3, BLOCK + 3):
            numbers = Filed("I")
            numbers.extend_by_zeros(count)
            whole = numbers.whole()
            whole[2] = 4_000_000_000
            numbers.let_go()
            self.assertEqual((whole[2], sum(whole)), (4_000_000_000, 4_000_000_000))


class WithFolder(unittest.TestCase):
    def setUp(self) -> None:
        room = tempfile.TemporaryDirectory()
        self.addCleanup(room.cleanup)
        self.room = Path(room.name)

    def read(self, data: bytes) -> Soup:
        path = self.room / "mesh"
        path.write_bytes(data)
        return read_soup(path)

    def refused(self, data: bytes, said: str) -> None:
        with self.assertRaisesRegex(MeshFault, said):
            self.read(data)

    def check(self, soup: Soup, faces: List[List[int]] = FACES) -> None:
        found = iter(soup.points)
        points = list(zip(found, found, found))
        came = [[points[c] for c in face] for face in polygons_of(soup)]
        self.assertEqual(came, [[POINTS[c] for c in face] for face in faces])
        self.assertEqual(soup.faces, sum(len(face) - 2 for face in faces))


class Ply(WithFolder):
    def test_all_types_and_orders(self) -> None:
        for form in ORDERS:
            for place in TYPES:
                self.check(self.read(ply(form, place, "uchar", "int", between=True)))
            for whole in list(TYPES)[:6]:
                self.check(self.read(ply(form, "float32", whole, whole)))

    def test_what_is_passed_over_is_counted_by_name(self) -> None:
        passed = self.read(ply("ascii", "double", "uchar", "int", between=True)).passed
        wanted = {"vertex colours": 5, "edge elements": 2, "flags properties": 4}
        self.assertEqual(passed, wanted)

    def test_colours_of_vertices(self) -> None:
        for kind, parts, wanted in (
            ("uchar", "7 0 255 9", [7, 0, 255]), ("float", "0.5 2 -1 0", [128, 255, 0]),
            ("ushort", "65535 256 255 0", [255, 1, 0]), ("double", "nan 1 0.2 1", [0, 255, 51]),
        ):
            for names in ("red green blue alpha", "diffuse_red diffuse_green diffuse_blue alpha"):
                head = "".join(f"property {kind} {name}\n" for name in names.split())
                path = self.room / "c.ply"
                path.write_text(
                    "ply\nformat ascii 1.0\nelement vertex 3\nproperty float x\nproperty float y\n"
                    f"property float z\n{head}element face 1\n"
                    "property list uchar int vertex_index\n"
                    f"end_header\n0 0 0 {parts}\n1 0 0 {parts}\n0 1 0 {parts}\n3 0 1 2\n"
                )
                soup = read_soup(path)
                self.assertEqual((list(soup.colours), soup.passed), (3 * wanted, {}))
                text, notes = as_obj(path)
                fields = text.split(b"\n")[2].split()[4:]
                self.assertEqual([round(255 * float(field)) for field in fields], wanted)
                self.assertEqual((len(read_soup(path, soup=filed_soup()).colours), notes), (0, []))

    def test_faults_of_the_head(self) -> None:
        good = ply("ascii", "float32", "uchar", "int")
        for old, new, said in (
            (b"ascii", b"text", "line 2: 'text 1.0' is no format"),
            (b"uchar red", b"byte red", "line 5: 'byte' is no type"),
            (b"float32 z", b"float32 w", "no one property `z`"),
            (b"list uchar int", b"list float int", "line 11: a list is counted by whole"),
            (b"list uchar int", b"list uchar float", "vertex_indices. of whole numbers"),
            (b"element face 4", b"element strip 4", "it has no faces"),
            (b"element face 4", b"element tristrips 4", "strips .*aren't read"),
            (b"end_header", b"end_heade", "line 12: 'end_heade' is no line"),
            (b"element face 4", b"element face -4", "line 9: 'element face -4'"),
        ):
            self.assertEqual(good.count(old), 1)
            self.refused(good.replace(old, new), said)
        self.refused(good[:100], "line .*no `end_header`|is no line|a property has")

    def test_faults_of_the_data(self) -> None:
        for form in ORDERS:
            good = ply(form, "double", "uchar", "int")
            self.refused(good[:-20] if ORDERS[form] else good[:-18], "face 4")
            order = ORDERS[form]
            two = numbers(order, "i", [2])
            self.refused(good.replace(two, numbers(order, "i", [9])) if order else
                         good.replace(b"3 0 1 2 ", b"3 0 1 9 "), "face 1 names vertex 9, .* 5")
        text = ply("ascii", "double", "uchar", "int")
        self.refused(text.replace(b"7 0 4 0", b"7 0 inf 0"), "line 14: a coordinate is NaN, inf")
        self.refused(text.replace(b"7 0 4 0", b"7 0 4"), "line 14: vertex 2 has too few")
        self.refused(text.replace(b"7 0 4 0", b"7 0 4 0 0"), "line 14: vertex 2 has more")
        self.refused(text.replace(b"7 0 4 0", b"7 0 4_0 0"), "line 14: vertex 2 has a wrong")
        binary = ply("binary_big_endian", "double", "uchar", "int")
        four = struct.pack(">d", 4.0)
        self.refused(binary.replace(four, struct.pack(">d", float("nan")), 1), "byte .*NaN")


class Stl(WithFolder):
    def test_text_and_binary(self) -> None:
        for text in (True, False):
            soup = self.read(stl(text))
            self.check(soup, FACES[:3])
            self.assertEqual(soup.count, 5)
        self.assertEqual(self.read(stl(False)).passed, {"facet attributes": 3})

    def test_faults(self) -> None:
        text, binary = stl(True), stl(False)
        self.refused(text.replace(b" endloop", b" loop", 1), "line 7: `endloop` was to come")
        self.refused(text.replace(b"4 0e0", b"4 x", 1), "line 5: a vertex has three numbers")
        self.refused(text.replace(b"4 0e0", b"nan 0e0", 1), "line 5: a coordinate is NaN")
        self.refused(text.rpartition(b"endsolid")[0], "has no `endsolid`")
        self.refused(binary[:-7], "byte 227: the data end before triangle 3 of 3")
        inf = struct.pack("<f", float("inf"))
        self.refused(binary[:96] + inf + binary[100:], "triangle 1, byte 84: a coordinate")


class Obj(WithFolder):
    TEXT = b"v 0 0 0\nv 1 0 0\nv 0 1 0\nv 1 1 0\nf 1 2 3\nf 3/1 2/1/1 4//2\n"

    def test_the_same_mesh_however_it_is_written(self) -> None:
        wanted = self.read(self.TEXT)
        self.assertEqual(wanted.faces, 2)
        for text in (
            obj.BYTE_ORDER_MARK + self.TEXT, self.TEXT.replace(b" ", b"\t"),
            self.TEXT.replace(b"\n", b"\r\n"), b"  " + self.TEXT.replace(b"\n", b"\n \t "),
            self.TEXT.replace(b"f 1 2 3", b"f 1 \\\n2 3 # a comment"),
            self.TEXT.replace(b"f 1 2 3", b"f -4 -3 -2"), self.TEXT.replace(b"v 1 0", b"v 1e0 -0."),
        ):
            soup = self.read(text)
            self.assertEqual((soup.points, soup.corners), (wanted.points, wanted.corners))
        self.assertEqual(obj.face_count(b"\tf 1 2 3\n" + self.TEXT), 3)

    def test_what_is_passed_over_is_counted(self) -> None:
        soup = self.read(b"o x\nvt 1 1\nvt 0 0\nusemtl y\n" + self.TEXT + b"odd 1\n")
        wanted = {"group lines": 1, "texture coordinates": 2, "material lines": 1,
                  "unknown lines": 1}
        self.assertEqual(soup.passed, wanted)

    def test_faults_are_named_by_line(self) -> None:
        for text, said in (
            (b"v 0 0 inf\n", "line 1: a coordinate is NaN, infinite"),
            (b"v 0 1_0 0\n", "line 1: a coordinate is no number"),
            (b"v 0 0\n", "line 1: a vertex has three"), (b"\nv 0 0 1e999\n", "line 2: .*too large"),
            (self.TEXT + b"f 1 2 0\n", "line 7: vertex 0 is named"),
            (self.TEXT + b"f 1 2 x\n", "line 7: 'x' names no vertex"),
            (self.TEXT + b"f 1 2 \\\n", "line 7: the text ends where a backslash"),
            (b"v 0 0 0\rv 0 0 0\n", "line 1: a CR stands"), (b"\xff\xfev\0", "16 bits a letter"),
            (b"\xc2\xa0v 0 0 0\n", "line 1: .*no letters"), (b"v 0 0 0\n", "has no faces$"),
        ):
            self.refused(text, said)

    def test_other_files_are_named_for_what_they_look_like(self) -> None:
        for data, said in (
            (b"glTF\2\0\0\0", "looks like a GLB"), (b'{ "asset":{}}', "perhaps glTF"),
            (b"%PDF-1.4", "a PDF"), (b"<html>", "HTML"), (b"\x1f\x8b\x08\0", "gunzip$"),
            (b"ncols 9\n", "height field: cut it by tools/world.py"), (b"", "^it is empty$"),
            (bytes(range(32)) * 9, "is no text"), (b"\x01\x02 x\n", "is no text"),
            (b"X" * 60 + bytes(10), "byte 70: the data end before the 84 bytes"),
            (b"1 2.5 -3\n4 5 6\n", "rows of numbers and no faces: points alone"),
            (b"{x\n", "^it has no faces$"), (b" " * 83 + b'{"', "^it has no faces$"),
            (b"v".ljust(84, b"\0"), "^it is an STL file without a triangle$"),
        ):
            self.refused(data, said)


class Texts(WithFolder):
    def test_binary_numbers_keep_all_decimals(self) -> None:
        chance = random.Random(2)
        values = [struct.pack("<f", chance.uniform(-9, 9) * 10 ** chance.randrange(-9, 9))
                  for _ in range(9)]
        data = bytes(80) + struct.pack("<I", 1) + bytes(12) + b"".join(values) + bytes(2)
        path = self.room / "one.stl"
        path.write_bytes(data)
        text, notes = as_obj(path)
        fields = [field for line in text.split(b"\n")[:3] for field in line.split()[1:]]
        told = [Fraction(field.decode()) for field in fields]
        self.assertEqual(told, [Fraction(*struct.unpack("<f", v)[0].as_integer_ratio())
                                for v in values])
        self.assertEqual((text.split(b"\n")[3:], notes), ([b"f 1 2 3", b""], []))

    def test_polygons_stay_polygons(self) -> None:
        path = self.room / "a.ply"
        path.write_bytes(ply("ascii", "float32", "uchar", "int"))
        text, notes = as_obj(path)
        self.assertTrue(text.endswith(b"\nf 1 2 3 5 4\n"))
        self.assertEqual(notes, ["5 vertex colours ignored", "4 flags properties ignored"])


class Ears(unittest.TestCase):
    def area(self, faces: List[Tuple[int, int, int]], spots: List[Tuple[int, int, int]]) -> int:
        total = 0
        for a, b, c in faces:
            p, q, r = spots[a], spots[b], spots[c]
            twice = (q[0] - p[0]) * (r[1] - p[1]) - (q[1] - p[1]) * (r[0] - p[0])
            self.assertGreaterEqual(twice, 0)
            total += twice
        return total

    def test_a_fan_begins_at_the_least_place(self) -> None:
        square = [(1, 1, 0), (0, 1, 0), (0, 0, 0), (1, 0, 0)]
        self.assertEqual(triangles_of([0, 1, 2, 3], square.__getitem__), [(2, 3, 0), (2, 0, 1)])

    def test_a_corner_that_points_inward_is_cut_by_ears(self) -> None:
        arrow = [(0, 0, 0), (9, 9, 0), (0, 5, 0), (1, 8, 0)]
        hook = [(0, 0, 0), (9, 0, 0), (9, 9, 0), (6, 9, 0), (6, 3, 0), (3, 3, 0), (3, 9, 0),
                (0, 9, 0)]
        for spots, twice in ((hook, 2 * 63), (hook[::-1], -2 * 63)):
            faces = triangles_of(list(range(len(spots))), spots.__getitem__)
            self.assertEqual(len(faces), len(spots) - 2)
            seen = [(y, x, 0) for x, y, _ in spots] if twice < 0 else spots
            self.assertEqual(self.area(faces, seen), abs(twice))
        self.assertEqual(len(triangles_of([0, 1, 2, 3], arrow.__getitem__)), 2)


if __name__ == "__main__":
    unittest.main()
