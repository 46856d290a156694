"""Builds a program or the library without the Rattle kit: the sources as plain Rust, by cargo.

`tools/plain_rust.py` makes that package in unproved/rust, and it stays there with what cargo built
of it, so that the next program is built soon. The profile `checked` stops a program at an overflow,
an index out of range and an assertion that fails.
"""
import contextlib
import fcntl
import hashlib
import shutil
import subprocess
import sys
from pathlib import Path
from typing import Iterator, List

from .joining import join, stop_without_tools
from .sources import CODE, STATIC, Program, files_of, sum_of_file, sum_of_sources
from .stopped import Stopped
from .way import Way

# What begins the line of a record that tells by what a program was built.
BY_CARGO = "cargo "
PROFILE = "checked"
# What a program of plain Rust is made by, beside its sources.
MAKER = ("tools/plain_rust.py", "tools/plain_rust")
TO_INSTALL = (
    "Debian has it by `apt-get install cargo` (Debian 12 by `apt-get install cargo-web`), and "
    "https://rustup.rs for any system"
)
SHOWN = 6


def sum_with_maker(program: Program) -> str:
    """A sum of the program's sources and of what makes plain Rust of them."""
    total = hashlib.sha256(sum_of_sources(program, CODE).encode())
    for place in MAKER:
        path = program.top / place
        for file in files_of(path) if path.is_dir() else [path]:
            if "__pycache__" not in file.parts and file.is_file():
                total.update(f"{file.relative_to(program.top)} {sum_of_file(file)}\n".encode())
    return total.hexdigest()


def run_shown(words: List[str], folder: Path, what: str) -> str:
    """What a command prints; where it fails, what it says of that ends the build."""
    done = subprocess.run(words, cwd=folder, stdin=subprocess.DEVNULL, stdout=subprocess.PIPE,
                          stderr=subprocess.STDOUT, text=True, errors="replace", check=False)
    if done.returncode:
        lines = done.stdout.strip().splitlines() or [f"status {done.returncode}"]
        told = [line for line in lines if line.startswith("error")] or lines[-SHOWN:]
        raise Stopped("\n  ".join([f"{what}:", *told[:SHOWN]]))
    return done.stdout.strip()


@contextlib.contextmanager
def package_alone(folder: Path) -> Iterator[None]:
    """Waits until no other build makes the package."""
    with open(folder / "rust.lock", "w", encoding="utf-8") as lock:
        fcntl.flock(lock, fcntl.LOCK_EX)
        yield


def words_for(program: Program) -> List[str]:
    """What of the package cargo builds."""
    if program.is_library:
        return ["--lib", "--features", "c"]
    return ["--bin", program.name]


def make(program: Program, room: Path) -> None:
    """Puts the program, or the files of the library, into the room."""
    if program.is_library:
        stop_without_tools()
    package = program.unproved.parent / "rust"
    maker = [sys.executable, str(program.top / MAKER[0]), str(package)]
    words = ["cargo", "build", "--quiet", "--profile", PROFILE, *words_for(program)]
    with package_alone(package.parent):
        run_shown(maker, program.top, "the sources can't be made plain Rust")
        run_shown([*words, "--target-dir", str(package / "target")], package,
                  "cargo failed: is it recent enough? the oldest that will do is rust-version in "
                  f"{package}/Cargo.toml; {TO_INSTALL}")
        made = package / "target" / PROFILE
        if program.is_library:
            join([made / STATIC], room)
        else:
            shutil.copy2(made / program.name, room / program.name)


def way_of_cargo() -> Way:
    """Building by the cargo on the path."""
    if shutil.which("cc") is None:
        raise Stopped("cargo needs a linker, and cc isn't on the path: `apt-get install gcc`")
    version = run_shown(["cargo", "--version"], Path.cwd(), f"cargo can't be run; {TO_INSTALL}")
    return Way(version.splitlines()[-1], sum_with_maker, make, "by cargo, without a proof")
