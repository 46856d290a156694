"""Why the library refuses what it is given."""
from typing import Mapping, Optional, Tuple

# What a fault says of the bytes, the line or the text, what its place counts, and what to do
# (docs/commands).
Table = Mapping[int, Tuple[str, str, str]]

OF_STREAM: Table = {
    11: ("a directed side of this face is one of an earlier face too", "face",
         "build it again from the mesh"),
    20: ("it doesn't begin with VDPM", "", "give it what `vdpm build` wrote"),
    21: ("it has another version than 1 and 2", "version", "build it again with this program"),
    22: ("it is cut off", "byte", "copy the file again, as binary"),
    23: ("its counts break their rule", "", "build it again"),
    24: ("this root isn't in its place", "root", "build it again"),
    25: ("this base face isn't between three roots", "face", "build it again"),
    26: ("this record doesn't fit those before it", "record", "build it again"),
    27: ("this input field has a wrong number", "input", "build it again"),
    28: ("this record doesn't have beside its faces what it tells", "record",
         "build it again from the mesh"),
    29: ("a byte follows it", "", "cut off what follows"),
    30: ("the line is none of the forms", "",
         "one space between fields, no blank at an end, no leading zero, no CR"),
    31: ("the line names no record", "",
         "records are counted from 0; sizes() tells how many there are"),
    33: ("it has version 2 and tells another number of decimals than 1 to 4", "digits",
         "build it again; without decimals a stream has version 1"),
}

# Of a packed text, or of what it says.
OF_PACKED: Table = {
    **{number: (f"the stream in it: {meaning}", word, "pack the stream again")
       for number, (meaning, word, _) in OF_STREAM.items()},
    34: ("it doesn't begin with VDPK and version 1", "", "give it what `pack` wrote"),
    35: ("it is cut off or damaged", "", "copy the file again, as binary"),
    36: ("a byte follows it", "", "cut off what follows"),
}

OF_TEXT: Table = {
    1: ("it has more than 65,536 bytes", "line", "split it"),
    2: ("it ends with a backslash", "line", "join continued lines"),
    3: ("it has fewer than three fields after v or f", "line",
        "complete it: a place has three numbers, and a face three corners"),
    4: ("it has a field that is no number of the profile, or a corner that is no index", "line",
        "write plain numbers, or take the text through `prepare`"),
    5: ("it has a coordinate with a nonzero digit past the last that was asked for", "line",
        "ask for more digits, or round the mesh: `prepare` does"),
    6: ("it has a coordinate outside -32,767 to 32,767 units", "line",
        "ask for fewer digits, or move or scale the mesh: `prepare` does"),
    7: ("it names vertex 0, or one that isn't read yet", "line",
        "write vertices before the faces that name them; they are counted from 1"),
    8: ("it has a face of more than three corners", "line",
        "triangulate on export, or by `prepare`"),
    9: ("it is vertex or face 1,048,577, or holds byte 1,073,741,825 of the text", "line",
        "simplify before"),
    10: ("it has a face with two equal corners", "line", "remove it"),
    11: ("a directed side of this face is one of an earlier face too", "face",
         "turn faces so that neighbours go round the same way, or take the text through `prepare`"),
    12: ("the faces at this vertex are no fan", "vertex",
         "split vertices at which parts of a surface only touch, or take the text through "
         "`prepare`"),
    14: ("none of its lines is a vertex or a face", "",
         "give it an OBJ text: export the mesh as one"),
}

# What a fault of an STL or a PLY file counts: the lines of a text, from 1, else bytes, from 0.
AT = "line or byte"
OF_ANY_TEXT: Table = {
    1: ("it has more than 65,536 bytes, alone or with the lines that it continues", "line",
        "split it"),
    2: ("it is continued, and the text ends", "line", "the text is cut off: copy it again"),
    3: ("it has fewer than three fields after v or f", "line", "complete it"),
    4: ("it has a field that is no number", "line", "write numbers"),
    6: ("it has an exponent above 999, or a coordinate above 10^14", "line", "scale the mesh"),
    7: ("it names vertex 0, or one that isn't read yet", "line",
        "write vertices before the faces that name them; they are counted from 1"),
    9: ("it is vertex or triangle 1,048,577, or holds byte 1,073,741,825 of the text; without a "
        "line, as many vertices come out", "line", "simplify before"),
    10: ("the text has 16 bits a letter", "line", "write it anew as UTF-8"),
    11: ("it has a CR that doesn't end it", "line", "end lines with LF"),
    12: ("no face comes out", "",
         "a point cloud has no faces; where all became edges, a vertex may lie far away"),
    13: ("its first word is v, vt, vn or f but for bytes that aren't letters", "line",
         "write the word alone: no byte order mark within the file, no blank but space and tab"),
    14: ("it is a file of a kind that isn't read", "", "export the mesh as OBJ, PLY or STL"),
    15: ("it has more than 1,073,741,824 bytes", "", "make a part at a time"),
    21: ("the STL file ends early", AT, "copy it again, as binary"),
    22: ("the STL file goes on after its last facet", AT, "cut off what follows"),
    23: ("a coordinate is NaN or infinite", AT, "remove the facet"),
    24: ("it has a coordinate above 10^14", AT, "scale the mesh"),
    25: ("there are more than 1,048,576 vertices", AT, "simplify before"),
    26: ("there are more than 1,048,576 triangles", AT, "simplify before"),
    27: ("it isn't the line that comes next in an STL text", AT, "write it as STL texts have it"),
    28: ("it has a coordinate that is no number", AT, "write a number"),
    41: ("it isn't `ply` alone", AT, "end lines with LF"),
    42: ("the PLY file ends early", AT, "copy it again, as binary"),
    43: ("it is an unknown line of a PLY header", AT, "remove it"),
    44: ("its format isn't one of PLY 1.0", AT, "export PLY 1.0"),
    45: ("its type is unknown", AT, "write a type of PLY 1.0"),
    46: ("it has a number that is none, or isn't whole and from 0 on", AT, "write such a number"),
    47: ("its property is out of place", AT, "write each once, below its element"),
    48: ("x, y, z or vertex_indices is missing before it", AT, "export positions and faces"),
    49: ("its element is there twice, or a face before vertices", AT,
         "write each once, vertices first"),
    50: ("there is no element vertex", AT, "export vertices"),
    51: ("it has triangle strips", AT, "export triangles"),
    52: ("there are more than 1,048,576 vertices", AT, "simplify before"),
    53: ("there are more than 1,048,576 triangles", AT, "simplify before"),
    54: ("it names a vertex that isn't there", AT, "write numbers of vertices, from 0 on"),
    55: ("a coordinate is NaN or infinite", AT, "remove the vertex"),
    56: ("it has a coordinate above 10^14", AT, "scale the mesh"),
}


class Fault(ValueError):
    """Bytes that are no stream, a line that can't be done, or a text of which nothing is made.

    number, place: as the programs tell them (docs/commands); place is None where there is none.
    word: what the place counts. cure: what to do. A line of a text, or a face or vertex of its
    mesh, is counted from 1.
    """

    number: int
    place: Optional[int]
    word: str
    cure: str

    def __init__(self, number: int, place: Optional[int] = None, table: Table = OF_STREAM) -> None:
        self.number = number
        meaning, self.word, self.cure = table.get(number, ("it is refused", "", ""))
        self.place = place if self.word else None
        where = f" {self.word} {place}" if self.place is not None else ""
        cure = f" ({self.cure})" if self.cure else ""
        super().__init__(f"fault {number}{where}: {meaning}{cure}")


class StreamFault(Fault):
    """The bytes are no stream, or no packed text."""


class LineFault(Fault):
    """The script line is none of the forms, or names no record."""


class TextFault(Fault):
    """The text has a fault, so that nothing is made of it."""


class NotMesh(TextFault):
    """What was given is no OBJ text with a face in it; the message tells what it is."""

    def __init__(self, told: str, number: int = 14, place: Optional[int] = None) -> None:
        cure = "give it the bytes of an OBJ file"
        super().__init__(number, place, {number: (told, "line", cure)})


class NotOpen(ValueError):
    """The session is closed, or its slots are."""
