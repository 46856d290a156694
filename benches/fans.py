"""Measures `build` on fans of many faces round one vertex, and prints a table.

    python3 benches/fans.py [PROGRAM] [SIZE..]

PROGRAM is proved/vdpm, which `./prove vdpm` makes, unless another is named; the sizes are 1000,
4000 and 16000 faces unless others are. Seconds are processor time, the least of three runs, or of
fewer where they take long.
"""
import sys
import tempfile
from pathlib import Path

import meshes
from measure import HEAD, HERE, mesh_at, row


def main() -> None:
    sizes = [int(w) for w in sys.argv[1:] if w.isdigit()] or [1000, 4000, 16000]
    named = [w for w in sys.argv[1:] if not w.isdigit()]
    program = named[0] if named else str(HERE.parent / "proved" / "vdpm")
    print(HEAD)
    with tempfile.TemporaryDirectory() as folder:
        obj, stream = Path(folder) / "mesh.obj", Path(folder) / "mesh.vdpm"
        for kind in meshes.FANS:
            for size in sizes:
                faces = mesh_at(obj, kind, size)
                row(f"{kind}: build", program, ["build"], obj, stream, faces)


if __name__ == "__main__":
    main()
