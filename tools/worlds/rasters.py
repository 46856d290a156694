"""Fields that GDAL reads, and fields in degrees.

A GeoTIFF or an .hgt becomes an ASCII grid by `gdal_translate`, where it is installed. A field whose
columns and rows are degrees, as those of SRTM are, has to be projected to metres before: what it
says then names the command.
"""
import shlex
import shutil
import subprocess
from pathlib import Path
from typing import Callable, NamedTuple, Optional

from .form import WorldFault

Say = Callable[[str], None]
SUFFIXES = (".tif", ".tiff", ".hgt", ".dem", ".bil", ".img", ".vrt", ".nc")
_TIFF = (b"II*\0", b"MM\0*", b"II+\0", b"MM\0+")
_DEGREES = ("GEOGCS", "GEOGCRS", "GEOGRAPHIC")
_COARSEST = 0.1  # degrees from point to point
GDAL = "gdal_translate"


def is_raster(path: Path) -> bool:
    """Whether GDAL reads a file, by its name or its first bytes."""
    if path.suffix.lower() in SUFFIXES:
        return True
    with path.open("rb") as file:
        return file.read(4) in _TIFF


def grid_of(path: Path, folder: Path, say: Say) -> Path:
    """The ASCII grid of a raster, which is made in a folder."""
    grid = folder / f"{path.stem}.asc"
    words = [GDAL, "-of", "AAIGrid", str(path), str(grid)]
    if shutil.which(GDAL) is None:
        raise WorldFault(
            f"{path} is a raster, which GDAL reads: install it (Debian: `apt install gdal-bin`), or"
            f" run `{shlex.join([*words[:-1], path.stem + '.asc'])}` where it is, and cut the .asc"
        )
    folder.mkdir(parents=True, exist_ok=True)
    say(f"reads {path} by {shlex.join(words)}")
    done = subprocess.run(words, stdin=subprocess.DEVNULL, capture_output=True, check=False)
    if done.returncode != 0 or not grid.is_file():
        said = done.stderr.decode("utf-8", "replace").strip().rpartition("\n")[2]
        raise WorldFault(f"{path}: {GDAL} ended with status {done.returncode}: {said}")
    return grid


class Extent(NamedTuple):
    """Where a field lies, how far its points are apart at most, and how high it is."""

    west: float
    south: float
    east: float
    north: float
    step: float
    rise: float


def _told_degrees(path: Path) -> Optional[bool]:
    """What the .prj beside a grid says; None where there is none."""
    beside = path.with_suffix(".prj")
    if not beside.is_file():
        return None
    told = beside.read_text(encoding="latin-1").upper()
    return not told.lstrip().startswith("PROJC") and any(word in told for word in _DEGREES)


def is_in_degrees(path: Path, extent: Extent) -> bool:
    """By the .prj beside the grid; without one, where the points could be degrees and the heights
    range over more than the field is wide."""
    told = _told_degrees(path)
    if told is not None:
        return told
    west, south, east, north, step, rise = extent
    could = -180 <= west and east <= 360 and -90 <= south and north <= 90 and step <= _COARSEST
    return could and rise > max(east - west, north - south)


def zone_of(extent: Extent) -> int:
    """The number by EPSG of the field's zone of UTM (WGS 84)."""
    middle = ((extent.west + extent.east) / 2 + 180) % 360
    return (32600 if extent.south + extent.north >= 0 else 32700) + int(middle / 6) + 1


def refuse_degrees(path: Path, source: Path, extent: Extent) -> None:
    """WorldFault where the points of a source's grid are degrees apart, and its heights metres."""
    if not is_in_degrees(path, extent):
        return
    from_degrees = [] if is_raster(source) else ["-s_srs", "EPSG:4326"]
    made = f"{source.stem}_metres"
    # Heights between whole metres stay, and there are none beside the field.
    kept = ["-ot", "Float32", "-dstnodata", "-99999"]
    to_metres = ["-t_srs", f"EPSG:{zone_of(extent)}", "-r", "bilinear", *kept]
    to_metres += [str(source), f"{made}.tif"]
    raise WorldFault(
        f"{source} is in degrees: its points are {extent.step:g} apart, from {extent.west:g} to"
        f" {extent.east:g} and {extent.south:g} to {extent.north:g}, and its heights range over"
        f" {extent.rise:g}. Make metres of them first, and cut {made}.tif:\n"
        f"    {shlex.join(['gdalwarp', *from_degrees, *to_metres])}"
    )
