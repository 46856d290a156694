"""The words of `prepare`: what it says of each kind of change, and of each fault."""
from typing import NamedTuple

REASONS = {
    1: "more than 65,536 bytes",
    2: "continued, but the text ends",
    3: "fewer than three fields",
    4: "a field is no number",
    6: "a number is out of range",
    7: "there is no such vertex",
    9: "too many vertices, triangles or bytes",
    10: "16 bits a letter, not UTF-8",
    11: "a CR inside the line",
    12: "no face is left",
    13: "the first word is garbled",
    21: "the file ends early",
    22: "bytes follow the last facet",
    23: "a coordinate is NaN or infinite",
    24: "a coordinate is above 10^14",
    25: "more than 1,048,576 vertices",
    26: "more than 1,048,576 triangles",
    27: "not the line that comes next",
    28: "a coordinate is no number",
    41: "the first line isn't ply",
    42: "the file ends early",
    43: "an unknown line in the header",
    44: "an unknown format or version",
    45: "an unknown type of a property",
    46: "no number, or no whole one from 0 on",
    47: "a property out of place",
    48: "x, y, z or vertex_indices is missing",
    49: "an element twice, or face before vertex",
    50: "there is no element vertex",
    51: "triangle strips aren't read",
    52: "more than 1,048,576 vertices",
    53: "more than 1,048,576 triangles",
    54: "there is no such vertex",
    55: "a coordinate is NaN or infinite",
    56: "a coordinate is above 10^14",
}
TOO_MANY_OUT = "more than 1,048,576 vertices come out"
# What is said of things that were passed over, by their kind: of one, and of more.
PASSED = {
    "weights": ("weight", "weights"),
    "colours": ("vertex colour", "vertex colours"),
    "texture places": ("texture coordinate", "texture coordinates"),
    "normals": ("normal", "normals"),
    "groups": ("group line", "group lines"),
    "materials": ("material line", "material lines"),
    "lines and points": ("line or point", "lines and points"),
    "curves and surfaces": ("curve or surface", "curves and surfaces"),
    "calls": ("call", "calls"),
    "attributes": ("facet attribute", "facet attributes"),
    "other properties": ("other property", "other properties"),
    "other elements": ("other element", "other elements"),
}
APART = "what was cut can come apart at coarser levels: simplify --keep-border holds the border"


class Note(NamedTuple):
    """How many of something, and what was done to it."""

    number: int
    one: str
    many: str
    what: str

    def line(self) -> str:
        """The line, which is empty where there is nothing to tell."""
        if self.number == 0:
            return ""
        return f"prepare: {self.number} {self.one if self.number == 1 else self.many}{self.what}\n"


def of_faces(count: int, what: str, kind: str = "face") -> Note:
    return Note(count, kind, f"{kind}s", f" {what}")


def of_vertices(count: int, what: str, kind: str = "") -> Note:
    return Note(count, f"{kind}vertex", f"{kind}vertices", f" {what}")


def of_passed(kind: str, count: int) -> Note:
    one, many = PASSED[kind]
    return Note(min(count, 2**32 - 1), one, many, " ignored")


def of_welded(count: int, rounded: int) -> Note:
    return Note(count, "vertex welded", "vertices welded",
                f", {rounded} of them by rounding" if rounded else "")


def of_others(count: int, first: int) -> Note:
    return Note(count, "unknown line", "unknown lines", f" ignored, the first is line {first}")
