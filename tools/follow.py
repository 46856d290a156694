"""Follows the mesh of a live session by its frames and its changes, and writes it as a frame.

    ./vdpm live B < INPUT | python3 tools/follow.py [--each]

A frame (`w`) gives the mesh anew. A change (`d`) is done to the mesh that there is: the faces and
the nodes that are gone leave by their numbers, then the new nodes come, and then the faces that are
put, each in place of the one that had its number. That is all that a viewer has to do.

A change leads from the marked front. So where a change follows a frame, the frame has to be that of
the marked front: at the start it is, and `k` marks it later. What the session shows after its last
frame or change is written, or with --each what it shows after each of them.

Ends with status 1 where a change doesn't fit the mesh or the text ends within one, and says where
on standard error.
"""
import argparse
import sys
from typing import Dict, Iterable, Iterator, List, NamedTuple, Optional, Tuple

from frames import FrameFault

Three = Tuple[int, int, int]


class Mesh(NamedTuple):
    """The nodes that are shown, with their places, and the faces, with the nodes at their corners,
    all by number."""

    nodes: Dict[int, Three]
    faces: Dict[int, Three]

    def sizes(self) -> List[int]:
        return [len(self.nodes), len(self.faces)]

    def take(self, word: str, number: int, *rest: int) -> None:
        """Does what a line asks for; KeyError or ValueError where it can't be done."""
        if word == "-f":
            del self.faces[number]
        elif word == "-v":
            del self.nodes[number]
        else:
            x, y, z = rest
            {"v": self.nodes, "f": self.faces}[word][number] = (x, y, z)

    def lines(self) -> Iterator[str]:
        """The frame text."""
        yield "frame %d %d\n" % (len(self.nodes), len(self.faces))
        for node in sorted(self.nodes):
            yield "v %d %d %d %d\n" % (node, *self.nodes[node])
        for face in sorted(self.faces):
            yield "f %d %d %d %d\n" % (face, *self.faces[face])
        yield "end\n"


def followed(text: Iterable[str]) -> Iterator[Mesh]:
    """The mesh after each frame and each change of a reply text, which is given by its lines. It is
    one mesh, which the next reply changes."""
    mesh = Mesh({}, {})
    sizes: Optional[List[int]] = None
    number = 0
    for number, line in enumerate(text, 1):
        word, *fields = line.split() or [""]
        if sizes is None and word not in ("frame", "change"):
            continue
        try:
            numbers = [int(field) for field in fields]
            if word == "frame":
                mesh = Mesh({}, {})
            if word in ("frame", "change"):
                sizes = numbers
            elif word != "end":
                mesh.take(word, *numbers)
            elif sizes == mesh.sizes():
                sizes = None
                yield mesh
            else:
                reason = "nodes and faces are %d and %d, and not as told" % tuple(mesh.sizes())
                raise FrameFault(number, reason)
        except (KeyError, TypeError, ValueError):
            raise FrameFault(number, f"`{line.strip()[:60]}` doesn't fit the mesh") from None
    if sizes is not None:
        raise FrameFault(number, "the text ends within a frame or a change")


def main() -> None:
    parser = argparse.ArgumentParser(description="Follows the mesh of a live session.")
    told = "write each mesh, and not the last alone"
    parser.add_argument("--each", action="store_true", help=told)
    each = parser.parse_args().each
    last: Optional[Mesh] = None
    try:
        for last in followed(sys.stdin):
            if each:
                sys.stdout.writelines(last.lines())
    except FrameFault as fault:
        sys.exit(f"follow: {fault}")
    if last is None:
        sys.exit("follow: no frame or change stands in this text")
    if not each:
        sys.stdout.writelines(last.lines())


if __name__ == "__main__":
    main()
