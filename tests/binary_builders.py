"""Makes numbers of binary files, and STL files: builders of cases."""
import struct
from typing import List


def numbers(given: str) -> bytes:
    """Numbers as bytes: FORMAT NUMBER.., where FORMAT has the order of bytes, `<` or `>`, and
    letters of Python's `struct`: one for each number, or one for all."""
    letters, *words = given.split()
    order, kinds = letters[0], letters[1:]
    if len(kinds) == 1:
        kinds *= len(words)
    if len(kinds) != len(words):
        raise ValueError(f"{len(kinds)} letters, and {len(words)} numbers")
    values = [float(n) if kind in "fd" else int(n) for kind, n in zip(kinds, words)]
    return struct.pack(order + kinds, *values)


def stl_of(corners: List[float]) -> bytes:
    """A binary STL file of facets with these coordinates, nine each."""
    count = len(corners) // 9
    head = b"-" * 80 + struct.pack("<I", count)
    facet = struct.Struct("<12fH")
    return head + b"".join(
        facet.pack(0, 0, 1, *corners[9 * k : 9 * k + 9], 0) for k in range(count)
    )


def facets(given: str) -> bytes:
    """A binary STL file: nine coordinates for each facet."""
    return stl_of([float(number) for number in given.split()])


def empty_facets(given: str) -> bytes:
    """A binary STL file of so many facets, all of whose bytes are 0."""
    return b"-" * 80 + struct.pack("<I", int(given)) + bytes(50 * int(given))


def apart(given: str) -> bytes:
    """A binary STL file of so many facets, no two of whose corners are the same point."""
    return stl_of([float(c) for k in range(3 * int(given)) for c in (k % 1024, k // 1024, 0)])
