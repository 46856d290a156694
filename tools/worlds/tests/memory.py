"""That cutting takes no more memory for a large input: it is done by a process that may take little
beyond what it had at its start."""
import random
import struct
import subprocess
import sys
import unittest
from pathlib import Path

from .common import TOP, WithWorld

# Reads an input, and parts a mesh in two. The bound is set once all is imported; what is mapped
# from a file doesn't count.
_CHILD = """
import resource, sys
from pathlib import Path
sys.path.insert(0, sys.argv[1])
from worlds import soups
from worlds.inputs import Asked, cut_of
from worlds.progress import Work

soups._BUCKET = 1 << 14
status = Path("/proc/self/status").read_text()
held = int(next(line for line in status.splitlines() if line.startswith("VmData")).split()[1])
most = 1024 * (held + int(sys.argv[3]))
resource.setrlimit(resource.RLIMIT_DATA, (most, most))
quiet = lambda _: None
cut = cut_of(Asked(Path(sys.argv[2]), Path(sys.argv[2] + ".world"), 5000), quiet, Work(quiet))
halves = iter(cut.halves(()))
print(next(halves).name, next(halves).name)
"""
ROOM = 16 * 1024  # KiB


def sheet(path: Path, cells: int, is_shuffled: bool) -> None:
    """A bent sheet as a binary PLY file."""
    side = range(cells)
    numbers = [(10.0 * i, 10.0 * j, 7.0 * ((i * j) % 11)) for i in side for j in side]
    corners = [
        face for i in range(cells - 1) for a in range(i * cells, (i + 1) * cells - 1)
        for face in ((a, a + 1, a + cells), (a + 1, a + cells + 1, a + cells))
    ]
    if is_shuffled:
        random.Random(3).shuffle(corners)
    with path.open("wb") as file:
        file.write(
            "ply\nformat binary_little_endian 1.0\n"
            f"element vertex {len(numbers)}\n"
            "property float x\nproperty float y\nproperty float z\n"
            f"element face {len(corners)}\nproperty list uchar int vertex_indices\nend_header\n"
            .encode("ascii")
        )
        file.write(b"".join(struct.pack("<3f", *one) for one in numbers))
        file.write(b"".join(struct.pack("<B3i", 3, *one) for one in corners))


@unittest.skipUnless(sys.platform.startswith("linux"), "no /proc")
class Memory(WithWorld):
    def read_within(self, source: Path, room: int) -> "subprocess.CompletedProcess[str]":
        words = [sys.executable, "-c", _CHILD, str(TOP / "tools"), str(source), str(room)]
        return subprocess.run(words, capture_output=True, text=True, check=False)

    def test_a_mesh_is_parted_in_little_memory(self) -> None:
        path = self.room / "sheet.ply"
        sheet(path, 400, True)
        done = self.read_within(path, ROOM)
        self.assertEqual((done.stdout, done.returncode), (" 0\n", 0), done.stderr[-400:])

    def test_a_field_is_read_in_little_memory(self) -> None:
        path = self.room / "field.pgm"
        path.write_bytes(b"P5\n2000 2000\n65535\n" + bytes(range(250)) * 32_000)
        done = self.read_within(path, ROOM)
        self.assertEqual((done.stdout, done.returncode), (" 0\n", 0), done.stderr[-400:])
