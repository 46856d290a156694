"""Measures each command on meshes of several sizes, and prints a table.

    python3 benches/measure.py [PROGRAM] [small|all|flights|prepare]

PROGRAM is proved/vdpm, which `./prove vdpm` makes, unless another is named; for `prepare` it is
proved/prepare. `flights` measures 100 views of a flight round a sphere of 199,808 faces and 30
views that jump over it; `prepare` texts of its own kind. Seconds are processor time, the least of
three runs; memory is the peak, and a peak below some 15 MB is that of this script itself, from
which the program is started. Machines differ and are shared: compare the figures of one run with
one another, and the last column between sizes, where linear work stays level.
"""
import os
import subprocess
import sys
import tempfile
import time
from math import cos, pi, sin
from pathlib import Path
from typing import Callable, List, NamedTuple, Tuple

import meshes

HERE = Path(__file__).resolve().parent
SMALL = [
    ("grid", 32), ("grid", 100), ("ramp", 100), ("sphere", 71), ("cylinder", 500), ("cone", 500),
]  # fmt: skip
ALL = SMALL + [
    ("grid", 316), ("ramp", 316), ("sphere", 224), ("grid", 700), ("cylinder", 4000),
    ("cone", 4000),
]  # fmt: skip
ALL_MOVES = "4294967295"
HEAD = "| work | faces | seconds | MB | microseconds a face |\n|---|---|---|---|---|"


class Cost(NamedTuple):
    """Status, processor seconds and peak MB of a run."""

    status: int
    seconds: float
    memory: float


def run_once(program: str, words: List[str], source: Path, target: Path) -> Cost:
    quiet = subprocess.DEVNULL
    with open(source, "rb") as given, open(target, "wb") as put:
        process = subprocess.Popen([program, *words], stdin=given, stdout=put, stderr=quiet)
        _, status, usage = os.wait4(process.pid, 0)
        stopped = os.WIFSIGNALED(status)
        process.returncode = -os.WTERMSIG(status) if stopped else os.WEXITSTATUS(status)
    seconds = usage.ru_utime + usage.ru_stime
    return Cost(process.returncode, seconds, usage.ru_maxrss / 1024)


def measured(program: str, words: List[str], source: Path, target: Path) -> Cost:
    """The least time of three runs, or of fewer where they take long."""
    begun = time.monotonic()
    best = run_once(program, words, source, target)
    for _ in range(2):
        if time.monotonic() - begun > 20:
            break
        best = min(best, run_once(program, words, source, target), key=lambda cost: cost.seconds)
    return best


def row(
    name: str, program: str, words: List[str], source: Path, target: Path, faces: int
) -> None:
    cost = measured(program, words, source, target)
    note = "" if cost.status == 0 else f" (status {cost.status})"
    each = 1e6 * cost.seconds / faces
    told = f"{faces} | {cost.seconds:.3f} | {cost.memory:.0f} | {each:.2f}"
    print(f"| {name} | {told} |{note}", flush=True)


def written(path: Path, content: Callable[[], bytes]) -> Path:
    """Writes what `content()` gives, in a process of its own: a program's peak is never below that
    of its parent."""
    process = os.fork()
    if process == 0:
        path.write_bytes(content())
        os._exit(0)
    _, status = os.waitpid(process, 0)
    if status != 0:
        sys.exit(f"{path} could not be written")
    return path


def count_of_faces(path: Path) -> int:
    with open(path) as lines:
        return sum(line.startswith("f ") for line in lines)


def mesh_at(path: Path, kind: str, size: int) -> int:
    """Writes a mesh, and answers how many faces it has."""
    written(path, lambda: meshes.text(kind, size).encode())
    return count_of_faces(path)


def moves(records: int, back: bool) -> str:
    lines = [f"s {k}\n" for k in range(records)]
    if back:
        lines += [f"c {k}\n" for k in reversed(range(records))]
    return "".join(lines)


def views(eyes: List[Tuple[int, int, int]], tolerance: int) -> str:
    return "".join(f"v {x} {y} {z} 1000 {tolerance}\n" for x, y, z in eyes)


def twenty_views() -> str:
    """From eyes along a way high over the mesh, with tolerances that differ a little."""
    eyes = [(3000 * i - 30000, 2000 * i - 20000, 40000) for i in range(20)]
    return "".join(views([eye], 40 + i % 7) for i, eye in enumerate(eyes))


def round_the_sphere(parts: int) -> List[Tuple[int, int, int]]:
    """The eyes of so many parts of a way round a sphere of 30,000 units, not far from it."""
    ways = [2 * pi * i / parts for i in range(parts)]
    return [(round(50000 * cos(way)), round(50000 * sin(way)), 9000) for way in ways]


def row_of_script(
    name: str, program: str, budget: str, folder: Path, stream: Path, script: str, faces: int
) -> None:
    source = written(folder / "script", lambda: stream.read_bytes() + script.encode())
    row(name, program, ["view", budget], source, folder / "out", faces)


def rows_of(program: str, folder: Path, kind: str, size: int) -> None:
    obj, stream, out = folder / "mesh.obj", folder / "mesh.vdpm", folder / "out"
    faces = mesh_at(obj, kind, size)
    label = f"{kind} {size}"
    row(f"{label}: canon", program, ["canon"], obj, out, faces)
    row(f"{label}: build", program, ["build"], obj, stream, faces)
    row(f"{label}: check", program, ["check"], stream, out, faces)
    row(f"{label}: expand", program, ["expand"], stream, out, faces)
    row(f"{label}: open", program, ["view", "0"], stream, out, faces)
    with open(stream, "rb") as given:
        told = subprocess.run([program, "check"], stdin=given, capture_output=True).stdout
    records = int(told.split()[7])
    scripts = [
        ("all splits and collapses", "0", moves(records, True)),
        ("20 views", ALL_MOVES, twenty_views()),
        ("10 full frames", "0", moves(records, False) + "w\n" * 10),
    ]
    for name, budget, script in scripts:
        row_of_script(f"{label}: {name}", program, budget, folder, stream, script, faces)


def rows_of_flights(program: str, folder: Path) -> None:
    """Views without frames: a smooth way round a sphere, and jumps across it."""
    obj, stream = folder / "mesh.obj", folder / "mesh.vdpm"
    faces = mesh_at(obj, "sphere", 224)
    row("sphere 224: build", program, ["build"], obj, stream, faces)
    row("sphere 224: open", program, ["view", "0"], stream, folder / "out", faces)
    near = round_the_sphere(1000)[:100]
    jumps = [round_the_sphere(30)[7 * i % 30] for i in range(30)]
    for name, eyes in (("a flight of 100 views", near), ("30 views that jump", jumps)):
        script = views(eyes, 8)
        row_of_script(f"sphere 224: {name}", program, ALL_MOVES, folder, stream, script, faces)


def decimal_grid(size: int) -> bytes:
    """The hilly grid as programs write it: in metres, with seven decimals."""
    points, faces = meshes.grid(size)
    lines = [f"v {x / 997:.7f} {y / 997:.7f} {z / 997:.7f}" for x, y, z in points]
    lines += [f"f {a + 1} {b + 1} {c + 1}" for a, b, c in faces]
    return ("\n".join(lines) + "\n").encode()


def rows_of_prepare(program: str, folder: Path) -> None:
    obj, out = folder / "mesh.obj", folder / "out"
    faces = mesh_at(obj, "grid", 316)
    row("grid 316: prepare, as it stands", program, [], obj, out, faces)
    written(obj, lambda: decimal_grid(316))
    row("grid 316: prepare, with seven decimals", program, [], obj, out, faces)
    faces = mesh_at(obj, "cone", 100000)
    row("cone 100000: prepare", program, [], obj, out, faces)


def main() -> None:
    words = sys.argv[1:]
    named = [w for w in words if w not in ("small", "all", "flights", "prepare")]
    name = "prepare" if "prepare" in words else "vdpm"
    program = named[0] if named else str(HERE.parent / "proved" / name)
    print(HEAD)
    with tempfile.TemporaryDirectory() as folder:
        if "prepare" in words:
            rows_of_prepare(program, Path(folder))
        elif "flights" in words:
            rows_of_flights(program, Path(folder))
        else:
            for kind, size in ALL if "all" in words else SMALL:
                rows_of(program, Path(folder), kind, size)


if __name__ == "__main__":
    main()
