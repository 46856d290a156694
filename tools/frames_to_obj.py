"""Writes each frame of a reply text as an OBJ file, which any viewer of meshes opens.

    ./vdpm view B < INPUT | python3 tools/frames_to_obj.py NAME [--digits D | --scale MESH.obj]

Frame 1 goes to NAME-1.obj, and so on. With D from 1 to 4 coordinates are written with D decimals,
as the file had them that `build N --digits D` read. With MESH.obj, a text that `prepare` wrote and
the stream was made of, they are those of the file that it read, to within half a step. Else they
are whole numbers of units. The node that vertex i stands for, and the face of the input that face i
is, are told by comments `# node N` and `# face F` where --names is given.

Ends with status 1 where the text has a fault or a file can't be written, and says which on standard
error.
"""
import argparse
from typing import Iterator, List, Optional, Tuple

from frames import Frame, write_files
from mesh_files.obj import scale_of

# How long a unit is in a file's coordinates, and where the middle of the units lies there.
Scale = Tuple[float, Tuple[float, float, float]]
AS_IT_STOOD = b"# coordinates as they stood"


def coordinate(units: int, digits: int) -> str:
    """A number of units as a decimal number, exactly."""
    if digits == 0:
        return str(units)
    whole, rest = divmod(abs(units), 10**digits)
    return f"{'-' if units < 0 else ''}{whole}.{rest:0{digits}}"


def coordinates(point: Tuple[int, ...], digits: int, scale: Optional[Scale]) -> str:
    """The three coordinates of a point, as they are written."""
    if scale is None:
        return " ".join(coordinate(c, digits) for c in point)
    unit, middle = scale
    return " ".join(repr(unit * c + at) for c, at in zip(point, middle))


def obj_lines(
    frame: Frame, digits: int = 0, names: bool = False, scale: Optional[Scale] = None
) -> Iterator[str]:
    """The lines of a frame's OBJ text."""
    for node, point in zip(frame.nodes, frame.points):
        name = f" # node {node}" if names else ""
        yield "v " + coordinates(point, digits, scale) + name
    for number, face in zip(frame.numbers, frame.faces):
        name = f" # face {number}" if names else ""
        yield "f " + " ".join(str(corner + 1) for corner in face) + name


def scale_in(path: str) -> Optional[Scale]:
    """What the first line of a text that `prepare` wrote tells; None where nothing was scaled."""
    try:
        with open(path, "rb") as file:
            line = file.readline()
    except OSError as fault:
        raise argparse.ArgumentTypeError(f"{path}: {fault.strerror}") from fault
    scale = scale_of(line)
    if scale is None and line.rstrip() != AS_IT_STOOD:
        raise argparse.ArgumentTypeError(f"{path} doesn't begin as what `prepare` writes")
    return scale


def arguments() -> argparse.Namespace:
    told = "Writes each frame of standard input as an OBJ file."
    parser = argparse.ArgumentParser(description=told)
    parser.add_argument("name", help="where to write: NAME-1.obj and so on")
    units = parser.add_mutually_exclusive_group()
    told = "decimals, as for build"
    units.add_argument("--digits", type=int, choices=range(5), default=0, help=told)
    told = "what `prepare` wrote: in the coordinates of the file that it read"
    units.add_argument("--scale", type=scale_in, metavar="MESH.obj", help=told)
    parser.add_argument("--names", action="store_true", help="tell nodes and faces in comments")
    return parser.parse_args()


def main() -> None:
    asked = arguments()

    def texts_of(frames: List[Frame]) -> Iterator[str]:
        for frame in frames:
            lines = obj_lines(frame, asked.digits, asked.names, asked.scale)
            yield "".join(line + "\n" for line in lines)

    write_files("frames_to_obj", asked.name, "obj", texts_of)


if __name__ == "__main__":
    main()
