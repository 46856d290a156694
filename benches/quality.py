"""How near simplified meshes stay to their input, by `vdpm build`, `simplify` and other libraries:

    python3 benches/quality.py [MODEL..] [--shares 10 1 0.1] [--by NAME..] [--room FOLDER]

A MODEL is KIND:SIZE of benches/meshes.py, terrain:CELLS of benches/terrain.py, or an OBJ text that
`vdpm canon` takes, as `prepare` writes it. Each is simplified to these shares of its faces, in per
cent. A row has the mean, the root mean square and the greatest distance from the input to what was
made of it (`out`) and from that to the input (`back`), in units of the grid, by benches/peers/
distance.cpp: over --samples places that are spread evenly by area, and for the greatest over all
corners, too. Samples don't show what lies between them: the greatest distance is no bound.

Seconds are processor time of the whole program, which reads an OBJ text and writes what it made,
and MB its peak; a peak below that of this script, some 15 MB, isn't seen. What is made by `build`
and `simplify` leads back to the input, too, and what the others make doesn't.

The others are compiled by g++ where Debian's packages are there: libcgal-dev and libeigen3-dev
(`cgal` by Garland and Heckbert's planes, `cgal_lt` by Lindstrom and Turk's), libmeshoptimizer-dev,
libopenmesh-dev, and python3-vtk9. What can't be is left out, and said. In --room, which is a
temporary folder unless one is named, programs, meshes and streams stay.
"""
import argparse
import subprocess
import sys
import tempfile
from pathlib import Path
from typing import Dict, List, NamedTuple, Optional, Sequence

import meshes
from measure import count_of_faces, run_once, written

HERE = Path(__file__).resolve().parent
TOP = HERE.parent
PEERS = HERE / "peers"
DEBIAN_PYTHON = "/usr/bin/python3"  # the one that sees the packages of Debian
MODELS = ["sphere:71", "block:50", "towers:100", "terrain:100"]
NOTHING = Path("/dev/null")


class Peer(NamedTuple):
    """A program of benches/peers, and what g++ is told for it."""

    source: str
    words: Sequence[str]


CGAL = ["-I/usr/include/eigen3", "-lgmp", "-lmpfr"]
COMPILED = {
    "cgal": Peer("cgal.cpp", CGAL),
    "cgal_lt": Peer("cgal.cpp", ["-DLINDSTROM_TURK", *CGAL]),
    "meshoptimizer": Peer("meshoptimizer.cpp", ["-lmeshoptimizer"]),
    "openmesh": Peer("openmesh.cpp", ["-lOpenMeshTools", "-lOpenMeshCore"]),
}
OURS = ("build", "simplify")
NAMES = [*OURS, *COMPILED, "vtk"]


class Cost(NamedTuple):
    seconds: float
    memory: float  # MB


class Distances(NamedTuple):
    mean: float
    rms: float
    greatest: float


class Made(NamedTuple):
    """What a program made of a mesh, and what that took."""

    obj: Path
    cost: Cost


def say(line: str) -> None:
    print(f"quality: {line}", file=sys.stderr, flush=True)


def compiled(room: Path, name: str, peer: Peer) -> Optional[Path]:
    """The program, which is compiled where it isn't there yet; none where it can't be."""
    program = room / f"peer_{name}"
    if not program.exists():
        source = str(PEERS / peer.source)
        words = ["g++", "-std=c++17", "-O2", "-DNDEBUG", "-w", "-o", str(program), source]
        try:
            done = subprocess.run([*words, *peer.words], stderr=subprocess.PIPE, check=False)
        except FileNotFoundError:
            say(f"{name} is left out, since there is no g++")
            return None
        if done.returncode:
            errors = [line for line in done.stderr.decode().splitlines() if "error" in line]
            say(f"{name} is left out: {(errors or ['g++ failed'])[0]}")
            return None
    return program


def has_vtk() -> bool:
    words = [DEBIAN_PYTHON, "-c", "import vtkmodules.vtkFiltersCore, vtkmodules.vtkIOGeometry"]
    try:
        return subprocess.run(words, stderr=subprocess.DEVNULL, check=False).returncode == 0
    except FileNotFoundError:
        return False


def commands(room: Path, asked: argparse.Namespace) -> Dict[str, List[str]]:
    """What is run for each name that there is a program of."""
    found: Dict[str, List[str]] = {}
    for name in asked.by:
        if name in OURS:
            found[name] = [str(asked.vdpm), "build"] if name == "build" else [str(asked.simplify)]
        elif name in COMPILED:
            program = compiled(room, name, COMPILED[name])
            if program:
                found[name] = [str(program)]
        elif has_vtk():
            found[name] = [DEBIAN_PYTHON, str(PEERS / "vtk_peer.py")]
        else:
            say("vtk is left out: python3-vtk9 isn't there")
    return found


def cost_of(words: List[str], source: Path, target: Path, runs: int) -> Cost:
    """The least seconds and the greatest peak of so many runs."""
    seconds, memory = [], []
    for _ in range(runs):
        status, used, peak = run_once(words[0], words[1:], source, target)
        if status:
            sys.exit(f"quality: {' '.join(words)} ended with status {status}")
        seconds.append(used)
        memory.append(peak)
    return Cost(min(seconds), max(memory))


def base_mesh(vdpm: Path, stream: Path) -> Path:
    """The mesh from which the stream begins, as an OBJ text."""
    script = stream.with_suffix(".script")
    written(script, lambda: stream.read_bytes() + b"w\nq\n")
    draw = [sys.executable, str(TOP / "tools" / "frames_to_obj.py"), str(stream)]
    look = [str(vdpm), "view", "0"]
    with open(script, "rb") as given:
        with subprocess.Popen(look, stdin=given, stdout=subprocess.PIPE) as view:
            subprocess.run(draw, stdin=view.stdout, stdout=subprocess.DEVNULL, check=True)
    if view.returncode:
        sys.exit(f"quality: {stream} can't be viewed")
    return stream.with_name(f"{stream.name}-1.obj")


def made_by(
    asked: argparse.Namespace, name: str, words: List[str], obj: Path, faces: int
) -> Made:
    """The mesh simplified to so many faces."""
    target = obj.with_name(f"{obj.stem}.{name}.{faces}")
    if name in OURS:
        cost = cost_of([*words, str(faces)], obj, target, asked.runs)
        return Made(base_mesh(asked.vdpm, target), cost)
    return Made(target, cost_of([*words, str(obj), str(faces)], NOTHING, target, asked.runs))


def distances(program: Path, one: Path, other: Path, samples: int) -> List[Distances]:
    """From the first mesh to the second, and back."""
    words = [str(program), str(one), str(other), str(samples)]
    told = subprocess.run(words, stdout=subprocess.PIPE, check=True).stdout.decode("ascii")
    return [Distances(*(float(field) for field in line.split())) for line in told.splitlines()]


def number(value: float) -> str:
    """With three figures, or whole where there are more before the point."""
    for least, places in ((99.95, 0), (9.995, 1)):
        if value >= least:
            return f"{value:,.{places}f}"
    return f"{value:.2f}"


def place_of(room: Path, model: str) -> Path:
    return room / f"{Path(model).stem.replace(':', '_')}.obj"


def rows(asked: argparse.Namespace, room: Path, model: str, share: float) -> None:
    obj = place_of(room, model)
    whole = count_of_faces(obj)
    target = max(4, int(whole * share / 100))
    for name, words in asked.commands.items():
        made = made_by(asked, name, words, obj, target)
        left = count_of_faces(made.obj)
        if left == 0:
            say(f"{name} left no face of {obj.stem} at {share:g} per cent")
            continue
        out, back = distances(asked.distance, obj, made.obj, asked.samples)
        cells = [f"{obj.stem}, {whole:,}", f"{share:g}", name, f"{left:,}"]
        cells += [" / ".join(map(number, out)), " / ".join(map(number, back))]
        cells += [f"{made.cost.seconds:.2f}", f"{made.cost.memory:.0f}"]
        print(f"| {' | '.join(cells)} |", flush=True)


def text_of(model: str) -> bytes:
    """The OBJ text of a model."""
    kind, _, size = model.partition(":")
    if kind == "terrain":
        words = [sys.executable, str(HERE / "terrain.py"), size]
        return subprocess.run(words, stdout=subprocess.PIPE, check=True).stdout
    if size:
        return meshes.text(kind, int(size)).encode("ascii")
    return Path(model).read_bytes()


def put(asked: argparse.Namespace, room: Path, model: str) -> None:
    """Writes the model's canonical text into the room."""
    obj = place_of(room, model)
    given = written(obj.with_suffix(".given"), lambda: text_of(model))
    with open(given, "rb") as source, open(obj, "wb") as target:
        done = subprocess.run([asked.vdpm, "canon"], stdin=source, stdout=target, check=False)
    if done.returncode:
        sys.exit(f"quality: {model} isn't a mesh for vdpm; ./prepare makes one of it")


def arguments() -> argparse.Namespace:
    parser = argparse.ArgumentParser(description="Measures how near simplified meshes stay.")
    parser.add_argument("models", nargs="*", default=MODELS)
    parser.add_argument("--shares", type=float, nargs="+", default=[10, 1, 0.1])
    parser.add_argument("--by", nargs="+", choices=NAMES, default=NAMES)
    parser.add_argument("--samples", type=int, default=100000)
    parser.add_argument("--runs", type=int, default=1)
    parser.add_argument("--room", type=Path)
    parser.add_argument("--vdpm", type=Path, default=TOP / "vdpm")
    parser.add_argument("--simplify", type=Path, default=TOP / "simplify")
    return parser.parse_args()


def measure(asked: argparse.Namespace, room: Path) -> None:
    asked.distance = compiled(room, "distance", Peer("distance.cpp", []))
    if not asked.distance:
        sys.exit("quality: distances can't be measured without g++")
    asked.commands = commands(room, asked)
    print("| model, faces | % | by | faces | out: mean / rms / greatest | back | seconds | MB |")
    print("|" + "---|" * 8)
    for model in asked.models:
        put(asked, room, model)
        for share in asked.shares:
            rows(asked, room, model, share)


def main() -> None:
    asked = arguments()
    if asked.room:
        asked.room.mkdir(parents=True, exist_ok=True)
        measure(asked, asked.room.resolve())
        return
    with tempfile.TemporaryDirectory() as room:
        measure(asked, Path(room))


if __name__ == "__main__":
    main()
