"""Measures what `pack` saves, and prints tables.

    python3 benches/packed.py meshes [--program PATH] [MESH.obj ..]
    python3 benches/packed.py records [--program PATH] [MESH.obj ..]
    python3 benches/packed.py world WORLD [--program PATH] [--jobs J]
    python3 benches/packed.py window WORLD [--program PATH]

`meshes` tells the bytes a vertex of streams as `simplify` writes them: as they are, by `zstd -19`,
`xz -9e` and `pack`, and of the same meshes by Debian's `draco` at its best level, with coordinates
of 16 bits. Draco keeps one mesh, with no hierarchy and no order of the input, and rounds to a grid
of its own. The meshes are the examples and some of terrain.py and meshes.py, unless files are
named. A program that isn't there leaves its column empty. `records` tells how many per cent of a
packed text's bytes tell its base mesh, and its first records as well.

`world` tells the bytes of a world's streams as they are, by xz, each for itself, and packed.
`window` tells the seconds until the window over a world can be asked, has drawn a tile, and shows
what it wants, in a headless Chromium that runs already; build the world --packed or --plain before.
"""
import argparse
import shutil
import subprocess
import sys
import tempfile
import threading
import time
from concurrent.futures import ThreadPoolExecutor
from pathlib import Path
from typing import Iterator, List, Optional, Tuple

TOP = Path(__file__).resolve().parent.parent
sys.path.insert(0, str(TOP / "tools"))

from browser import Browser  # noqa: E402
from viewer.main import programs_of  # noqa: E402
from viewer.model import model_of  # noqa: E402
from viewer.program import beside  # noqa: E402
from viewer.world import WorldServer, showing_of  # noqa: E402
from worlds.form import Tile, World, read_world  # noqa: E402
from worlds.fronts import needed, run, stream_of  # noqa: E402

ZSTD = ["zstd", "-19", "-q", "-c"]
XZ = ["xz", "-9e", "-c"]
SHARES = (1, 10, 25, 50)
DRACO = ["-cl", "10", "-qp", "16"]
MADE = (
    ("terrain 120", "terrain.py", ["120"]),
    ("terrain 120 with sea", "terrain.py", ["120", "sea"]),
    ("terrain 316", "terrain.py", ["316"]),
    ("sphere 100", "meshes.py", ["sphere", "100"]),
    ("block 36", "meshes.py", ["block", "36"]),
    ("towers 60", "meshes.py", ["towers", "60"]),
)
MEMORY = 1_000_000_000
DRAWN = "globalThis.viewer?.tiles?.drawn.length > 0"
SETTLED = "globalThis.viewer?.tiles && viewer.isSettled"


def meshes(room: Path) -> Iterator[Tuple[str, Path]]:
    for name in ("torus", "asteroid"):
        yield name, TOP / "examples" / f"{name}.obj"
    for name, script, words in MADE:
        path = room / f"{name.replace(' ', '-')}.obj"
        with path.open("wb") as out:
            command = [sys.executable, str(TOP / "benches" / script), *words]
            subprocess.run(command, stdout=out, check=True)
        yield name, path


def size_by(words: List[str], data: bytes) -> Optional[int]:
    return len(run(words, data)) if shutil.which(words[0]) else None


def size_by_draco(mesh: Path, room: Path) -> Optional[int]:
    encoder = shutil.which("draco_encoder")
    if encoder is None:
        return None
    out = room / "mesh.drc"
    subprocess.run(
        [encoder, "-i", str(mesh), "-o", str(out), *DRACO], check=True, stdout=subprocess.DEVNULL
    )
    return out.stat().st_size


def row(name: str, mesh: Path, vdpm: Path, room: Path) -> str:
    programs = programs_of(vdpm)
    model = model_of(mesh, programs)
    vertices, stream = int(model.counts.split()[1]), model.stream
    sizes = [
        len(stream), size_by(ZSTD, stream), size_by(XZ, stream),
        len(run([str(programs.pack)], stream)), size_by_draco(mesh, room),
    ]
    cells = ["–" if size is None else f"{size / vertices:.2f}" for size in sizes]
    return f"| {name} | {vertices:,} | {' | '.join(cells)} |"


def tell_meshes(asked: argparse.Namespace) -> None:
    print("| mesh | vertices | stream | zstd -19 | xz -9e | packed | Draco, 16 bits |")
    print("|" + "---|" * 7)
    with tempfile.TemporaryDirectory() as folder:
        room = Path(folder)
        named = [(Path(path).stem, Path(path)) for path in asked.given]
        for name, mesh in named or meshes(room):
            print(row(name, mesh, asked.program, room), flush=True)


def told_by(pack: str, packed: bytes) -> int:
    """How many records the bytes tell; -1 where they don't tell the base mesh."""
    words = [pack, "--unpack", "--records", "4294967295"]
    done = subprocess.run(words, input=packed, stdout=subprocess.PIPE, stderr=subprocess.DEVNULL)
    return -1 if done.returncode else records_of(done.stdout)


def records_of(stream: bytes) -> int:
    at = 24 if stream[4] == 2 else 20
    return int.from_bytes(stream[at : at + 4], "little")


def bytes_telling(pack: str, packed: bytes, records: int) -> int:
    """How many bytes from the front tell so many records."""
    low, high = 0, len(packed)
    while low < high:
        middle = (low + high) // 2
        if told_by(pack, packed[:middle]) < records:
            low = middle + 1
        else:
            high = middle
    return low


def tell_records(asked: argparse.Namespace) -> None:
    heads = " | ".join(f"{share} per cent" for share in SHARES)
    print(f"| mesh | records | bytes | base mesh | {heads} |")
    print("|" + "---|" * (4 + len(SHARES)))
    programs = programs_of(asked.program)
    with tempfile.TemporaryDirectory() as folder:
        named = [(Path(path).stem, Path(path)) for path in asked.given]
        for name, mesh in named or meshes(Path(folder)):
            stream = model_of(mesh, programs).stream
            packed, count = run([str(programs.pack)], stream), records_of(stream)
            wanted = [count * share // 100 for share in (0, *SHARES)]
            told = [bytes_telling(str(programs.pack), packed, records) for records in wanted]
            cells = " | ".join(f"{100 * length / len(packed):.1f}" for length in told)
            print(f"| {name} | {count:,} | {len(packed):,} | {cells} |", flush=True)


def sizes_of(vdpm: Path, world: World, tile: Tile) -> Tuple[int, int, int]:
    text = stream_of(vdpm, world, tile)
    pack = [str(beside(vdpm, "pack"))]
    packed = needed(world.stream(tile)) if world.packed else run(pack, text)
    return len(text), len(run(XZ, text)), len(packed)


def tell_world(asked: argparse.Namespace) -> None:
    world = read_world(Path(asked.given[0]))
    with ThreadPoolExecutor(asked.jobs) as pool:
        each = list(pool.map(
            lambda tile: sizes_of(asked.program, world, tile), world.tiles.values()
        ))
    print("| streams | vertices cut | plain, MB | xz, MB | packed, MB |")
    print("|" + "---|" * 5)
    vertices = sum(tile.vertices for tile in world.level(0))
    megabytes = " | ".join(f"{sum(sizes) / 1e6:.1f}" for sizes in zip(*each))
    print(f"| {len(each)} | {vertices:,} | {megabytes} |")


def tell_window(asked: argparse.Namespace) -> None:
    """Beside other seconds, those since the first step."""
    file = Path(asked.given[0]) / "world.json"
    browser = Browser(1280, 800)
    begun = time.monotonic()
    server = WorldServer(showing_of(asked.program.resolve(), file, MEMORY))
    threading.Thread(target=server.serve_forever, daemon=True).start()
    told = [time.monotonic() - begun]
    try:
        browser.go(f"{server.address}?sharpness=0.2")
        for state in (DRAWN, SETTLED):
            browser.until(state, 600)
            told.append(time.monotonic() - begun)
        kind = "packed" if read_world(file).packed else "plain"
        shown = browser.run("viewer.tiles.counts.faces")
        seconds = ", ".join(f"{number:.1f}" for number in told)
        print(f"{kind}: asked, drawn, settled after {seconds} s; {shown:,} faces")
        if asked.picture:
            browser.picture(asked.picture)
        for complaint in browser.errors():
            print(complaint, file=sys.stderr)
    finally:
        browser.close()
        server.shutdown()
        server.server_close()
        server.showing.close()


TABLES = {
    "meshes": tell_meshes, "records": tell_records, "world": tell_world, "window": tell_window,
}  # fmt: skip


def main() -> None:
    parser = argparse.ArgumentParser(description="Measures what pack saves.")
    parser.add_argument("what", choices=TABLES)
    parser.add_argument("given", nargs="*", help="meshes, or a world")
    parser.add_argument("--program", type=Path, default=TOP / "vdpm", help="another vdpm")
    parser.add_argument("--jobs", type=int, default=4)
    parser.add_argument("--picture", type=Path, help="where a picture of the window goes")
    asked = parser.parse_intermixed_args()
    TABLES[asked.what](asked)


if __name__ == "__main__":
    main()
