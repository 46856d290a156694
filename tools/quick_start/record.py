"""What is known of a program that was built: a file NAME.record beside it, of lines `KEY VALUE`.

The record's own time is when the sources were last seen to have the sum that it tells. A program
whose sum is the record's, and below whose sources nothing is newer than the record, is the one of
these sources; `start.sh` looks at no more. Where something is newer, `is_current` reads it all.
"""
import os
import subprocess
import time
from dataclasses import dataclass
from pathlib import Path
from typing import Dict, Optional, Sequence

from .cargo import BY_CARGO, MAKER, sum_with_maker
from .sources import CODE, PROVED, Program, places_read, sum_of_file, sum_of_sources

# A file's time may lag that much behind the clock, in nanoseconds.
LAG = 100_000_000


@dataclass(frozen=True)
class Record:
    """Says by which kit, or which cargo, and of which sources a program was built, and whether it
    was proved."""

    program: str
    proved: bool
    commit: str
    kit: str
    built: str
    sources: str
    sum: str

    @property
    def is_by_cargo(self) -> bool:
        return self.kit.startswith(BY_CARGO)


def path_of(built: Path) -> Path:
    return built.with_name(f"{built.name}.record")


def read_record(built: Path) -> Optional[Record]:
    """The record beside a program, if there is one that tells all."""
    try:
        lines = path_of(built).read_text(encoding="utf-8").splitlines()
    except (OSError, ValueError):
        return None
    said: Dict[str, str] = dict(line.partition(" ")[::2] for line in lines)
    keys = ("program", "commit", "kit", "built", "sources", "sum")
    if not all(key in said for key in (*keys, "proved")):
        return None
    return Record(proved=said["proved"] == "yes", **{key: said[key] for key in keys})


def commit_of(top: Path) -> str:
    """The commit that is checked out, and whether the sources differ from it."""

    def git(*words: str) -> str:
        quiet = subprocess.DEVNULL
        done = subprocess.run(["git", *words], cwd=top, stdin=quiet, stdout=subprocess.PIPE,
                              stderr=quiet, text=True, check=True)
        return done.stdout.strip()

    try:
        head = git("rev-parse", "--short=12", "HEAD")
        changed = git("status", "--porcelain", "--", "crates.txt", "crates")
    except (OSError, subprocess.CalledProcessError):
        return "unknown"
    return f"{head} with changes" if changed else head


def text_of(record: Record, places: Sequence[str]) -> str:
    """The record as text, with the places that `start.sh` looks through."""
    said = {**record.__dict__, "proved": "yes" if record.proved else "no"}
    rows = [f"{key} {value}" for key, value in said.items()] + [f"from {place}" for place in places]
    return "".join(row + "\n" for row in rows)


def write_record(program: Program, built: Path, proved: bool, by: str, sources: str,
                 seen: int) -> None:
    """Writes the record of a program just built, as one step. `seen` is the time, in nanoseconds,
    at which the sources were seen to have the sum `sources`."""
    now = time.strftime("%Y-%m-%d %H:%M:%S UTC", time.gmtime())
    record = Record(program.name, proved, commit_of(program.top), by, now, sources,
                    sum_of_file(built))
    half = path_of(built).with_name(f".{built.name}.record.{os.getpid()}")
    places = [*places_read(program), *(MAKER if record.is_by_cargo else ())]
    half.write_text(text_of(record, places), encoding="utf-8")
    as_seen(half, seen)
    os.replace(half, path_of(built))


def as_seen(path: Path, seen: int) -> None:
    os.utime(path, ns=(seen - LAG, seen - LAG))


def sum_now(program: Program, record: Record) -> str:
    """The sum that a program built in the record's way would have of the sources as they are."""
    if record.is_by_cargo:
        return sum_with_maker(program)
    return sum_of_sources(program, PROVED if record.proved else CODE)


def is_current(program: Program, built: Path) -> bool:
    """Whether a program is the one of the sources as they are, by their sums. If so its record gets
    the time of this look, so that the next start need not read them."""
    record, seen = read_record(built), time.time_ns()
    use = os.R_OK if program.is_library else os.X_OK
    if record is None or not os.access(built, use) or record.sum != sum_of_file(built):
        return False
    if record.sources != sum_now(program, record):
        return False
    try:
        as_seen(path_of(built), seen)
    except OSError:
        # (a folder that can't be written to: the next start looks again)
        pass
    return True
