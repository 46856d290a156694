"""Places of a projected system, as UTM, round the middle of the Earth: by `gdaltransform`, which
comes with GDAL."""
import shutil
import subprocess
from typing import List, Sequence, Tuple

from .form import WorldFault

Point = Tuple[float, float, float]
TOOL = "gdaltransform"
EARTH = "EPSG:4978"  # metres from the middle of the Earth, WGS 84
RADIUS = 6_371_000.0


def on_earth(crs: str, points: Sequence[Point]) -> List[Point]:
    """Points of a system with heights in metres; east comes first, then north."""
    words = [TOOL, "-s_srs", crs, "-t_srs", EARTH]
    if shutil.which(TOOL) is None:
        raise WorldFault(f"{TOOL} isn't installed, which --crs needs (Debian: `gdal-bin`)")
    text = "".join("{!r} {!r} {!r}\n".format(*point) for point in points)
    done = subprocess.run(words, input=text, capture_output=True, text=True, check=False)
    said = done.stderr.strip().rpartition("\n")[2]
    try:
        found = [tuple(map(float, line.split())) for line in done.stdout.splitlines()]
        result = [(x, y, z) for x, y, z in found]
    except ValueError:
        result = []
    if done.returncode or len(result) != len(points) or "inf" in done.stdout:
        raise WorldFault(f"{TOOL} puts the world nowhere on the Earth by --crs {crs}: {said}")
    return result


def sagitta(points: Sequence[Point], faces: Sequence[Sequence[int]]) -> float:
    """How far a straight side is below one that keeps its height, at most: what faces that were
    flat in the projected system are off by."""
    longest = 0.0
    for a, b, c in faces:
        for p, q in ((points[a], points[b]), (points[b], points[c]), (points[c], points[a])):
            longest = max(longest, sum((i - j) ** 2 for i, j in zip(p, q)))
    return longest / (8 * RADIUS)
