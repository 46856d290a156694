"""What an OBJ text means: its mesh, or its first fault. Texts of more than 2^30 bytes aren't
modelled."""
import re
from typing import List

from .faults import Fault
from .mesh import (
    GREATEST_COORDINATE,
    MOST_FACES,
    MOST_VERTICES,
    Corners,
    Mesh,
    Point,
    first_broken,
    first_repeating,
)

MOST_LINE_BYTES = 65_536

TOO_LONG, CONTINUED, TOO_FEW_FIELDS, BAD_NUMBER, NOT_WHOLE = 1, 2, 3, 4, 5
OUT_OF_RANGE, BAD_INDEX, NOT_TRIANGLE, TOO_MANY, REPEATED_CORNER = 6, 7, 8, 9, 10
EDGE_TWICE, NOT_FAN, NO_MESH = 11, 12, 14


def lines_of(text: bytes) -> List[bytes]:
    """The lines without their LF. What follows the last LF is a line if it isn't empty."""
    lines = text.split(b"\n")
    return lines if lines[-1] else lines[:-1]


def coordinate(field: bytes, digits: int) -> int:
    """The units of 10 to the power -digits that a field of a `v` line spells."""
    form = re.fullmatch(rb"([+-]?)([0-9]*)(?:\.([0-9]*))?", field)
    if form is None or not (form[2] or form[3]):
        raise Fault(BAD_NUMBER)
    decimals = form[3] or b""
    if decimals[digits:].strip(b"0"):
        raise Fault(NOT_WHOLE)
    units = int((form[2] + decimals[:digits].ljust(digits, b"0")) or b"0")
    if units > GREATEST_COORDINATE:
        raise Fault(OUT_OF_RANGE)
    return -units if form[1] == b"-" else units


def vertex_named(field: bytes, vertices: int) -> int:
    """The vertex from 0 that a field of an `f` line names after so many vertices."""
    index = field.split(b"/")[0]
    if not re.fullmatch(rb"-?[0-9]+", index):
        raise Fault(BAD_NUMBER)
    number = int(index)
    vertex = number - 1 if number > 0 else vertices + number
    if number == 0 or not 0 <= vertex < vertices:
        raise Fault(BAD_INDEX)
    return vertex


def read_point(fields: List[bytes], mesh: Mesh, digits: int) -> Point:
    if len(fields) < 3:
        raise Fault(TOO_FEW_FIELDS)
    x, y, z = [coordinate(field, digits) for field in fields[:3]]
    if len(mesh.points) == MOST_VERTICES:
        raise Fault(TOO_MANY)
    return x, y, z


def read_face(fields: List[bytes], mesh: Mesh) -> Corners:
    if len(fields) != 3:
        raise Fault(TOO_FEW_FIELDS if len(fields) < 3 else NOT_TRIANGLE)
    a, b, c = [vertex_named(field, len(mesh.points)) for field in fields]
    if len({a, b, c}) < 3:
        raise Fault(REPEATED_CORNER)
    if len(mesh.faces) == MOST_FACES:
        raise Fault(TOO_MANY)
    return a, b, c


def content_of(line: bytes) -> bytes:
    """What is read of a line: no CR at its end, and nothing from its first `#` on."""
    return (line[:-1] if line.endswith(b"\r") else line).split(b"#")[0]


def fields_of(text: bytes) -> List[bytes]:
    """What stands between blanks."""
    return [field for field in re.split(rb"[ \t]+", text) if field]


def take_line(line: bytes, mesh: Mesh, digits: int) -> None:
    """Adds to the mesh what a line gives."""
    if len(line) > MOST_LINE_BYTES:
        raise Fault(TOO_LONG)
    if content_of(line).endswith(b"\\"):
        raise Fault(CONTINUED)
    fields = fields_of(content_of(line))
    if fields[:1] == [b"v"]:
        mesh.points.append(read_point(fields[1:], mesh, digits))
    elif fields[:1] == [b"f"]:
        mesh.faces.append(read_face(fields[1:], mesh))


def mesh_of_text(text: bytes, digits: int) -> Mesh:
    """The mesh of a text, or the first fault of its first line with one."""
    mesh = Mesh([], [])
    for number, line in enumerate(lines_of(text), 1):
        try:
            take_line(line, mesh, digits)
        except Fault as fault:
            raise Fault(fault.number, f"line {number}") from None
    return mesh


def surface_of_text(text: bytes, digits: int) -> Mesh:
    """The oriented manifold of a text. A repeated side is told before a vertex without a fan."""
    mesh = mesh_of_text(text, digits)
    face = first_repeating(mesh.faces)
    if face is not None:
        raise Fault(EDGE_TWICE, f"face {face + 1}")
    vertex = first_broken(mesh.faces)
    if vertex is not None:
        raise Fault(NOT_FAN, f"vertex {vertex + 1}")
    return mesh


def has_words(text: bytes) -> bool:
    """Whether some line has more than blanks and a comment."""
    return any(fields_of(content_of(line)) for line in lines_of(text))


def given_surface_of_text(text: bytes, digits: int) -> Mesh:
    """The same of a text that shall have a mesh."""
    mesh = surface_of_text(text, digits)
    if not mesh.points and has_words(text):
        raise Fault(NO_MESH)
    return mesh
