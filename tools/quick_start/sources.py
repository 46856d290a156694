"""What a program or the library is made from: the crates below it by crates.txt, and a sum of
their files."""
import hashlib
import os
from dataclasses import dataclass
from pathlib import Path
from typing import Dict, Iterator, List, Sequence, Tuple

from .stopped import Stopped

# The program depends on the first alone; that it is proved, on all.
CODE = ("src",)
PROVED = ("src", "specs", "proofs")
PROGRAMS = ("vdpm", "prepare", "simplify", "pack", "paint")
LIBRARY = "libvdpm"
# What is built of the library, and the link by which a linker finds the second. Its number is
# VDPM_VERSION_MAJOR of libvdpm.h.
STATIC, SHARED, LINK = "libvdpm.a", "libvdpm.so.1", "libvdpm.so"


@dataclass(frozen=True)
class Program:
    """A program of the repository at `top`, or its library."""

    top: Path
    name: str

    @property
    def is_library(self) -> bool:
        return self.name == LIBRARY

    @property
    def crate(self) -> str:
        return "vdpm_c" if self.is_library else self.name

    @property
    def folder(self) -> Path:
        return self.top / "crates" / self.crate

    @property
    def files(self) -> Tuple[str, ...]:
        """What is built of it: of the library the static and the shared one."""
        return (STATIC, SHARED) if self.is_library else (self.name,)

    def files_in(self, folder: str) -> List[Path]:
        """The files in that folder of the repository, `proved` or `unproved`."""
        return [self.top / folder / name for name in self.files]

    @property
    def proved(self) -> Path:
        return self.top / "proved" / self.name

    @property
    def unproved(self) -> Path:
        return self.top / "unproved" / self.name


def crate_rows(top: Path) -> Dict[str, List[str]]:
    """The libraries that each crate is listed with, those of the kit among them."""
    try:
        text = (top / "crates.txt").read_text(encoding="utf-8")
    except OSError as error:
        raise Stopped(f"crates.txt can't be read ({error.strerror})") from error
    rows = (line.partition("#")[0].partition(":") for line in text.splitlines())
    return {head.split()[0]: libraries.split() for head, _, libraries in rows if head.strip()}


def crates_below(rows: Dict[str, List[str]], name: str) -> List[str]:
    """The crate and those of the repository that it stands on, each once, itself first."""
    if name not in rows:
        raise Stopped(f"crates.txt has no crate {name}")
    found = [name]
    for crate in found:
        found += [below for below in rows[crate] if below in rows and below not in found]
    return found


def files_of(folder: Path) -> Iterator[Path]:
    """The files below a folder, in an order that depends on their names alone."""
    for place, folders, names in os.walk(folder):
        folders.sort()
        yield from (Path(place) / name for name in sorted(names))


def sum_of_file(path: Path) -> str:
    return hashlib.sha256(path.read_bytes()).hexdigest()


def sum_of_sources(program: Program, parts: Sequence[str]) -> str:
    """A sum of the crates below the program: their rows, and the files in these folders."""
    rows = crate_rows(program.top)
    total = hashlib.sha256()
    for crate in sorted(crates_below(rows, program.crate)):
        total.update(repr((crate, rows[crate])).encode())
        for part in parts:
            for path in files_of(program.top / "crates" / crate / part):
                said = (str(path.relative_to(program.top)), sum_of_file(path))
                total.update(repr(said).encode())
    return total.hexdigest()


def places_read(program: Program) -> List[str]:
    """The files and folders that `start.sh` looks through for anything newer than the program."""
    below = crates_below(crate_rows(program.top), program.crate)
    return ["crates.txt", *(f"crates/{crate}" for crate in sorted(below))]
