"""Building the programs and the library of the Cargo package, so that they run elsewhere."""
import os
import shutil
import subprocess
import tempfile
from pathlib import Path
from typing import Dict, List, NamedTuple, Optional, Sequence

from quick_start.joining import archive_of, glibc_of
from quick_start.sources import SHARED

PROGRAMS = ("vdpm", "prepare", "simplify", "pack", "paint")
MUSL = "x86_64-unknown-linux-musl"
RELEASE = "target/release"
LIBRARIES = ("usr/lib/x86_64-linux-gnu", "lib/x86_64-linux-gnu")
# What is wanted of the programs, and tried for the library.
WANTED_GLIBC = 31


class NotBuilt(Exception):
    """What failed."""


class Built(NamedTuple):
    """The files that were built, and what is to be told of them."""

    programs: Dict[str, bytes]
    library: bytes
    archive: bytes
    linked: str
    glibc: int


def said_by(words: Sequence[str]) -> str:
    """The first line that a command prints."""
    try:
        done = subprocess.run(words, stdout=subprocess.PIPE, stderr=subprocess.DEVNULL, check=True)
    except (OSError, subprocess.CalledProcessError) as fault:
        raise NotBuilt(f"{words[0]} can't be run") from fault
    return done.stdout.decode().split("\n")[0]


def cargo(package: Path, words: Sequence[str], *codes: str) -> None:
    """Builds a part of the package."""
    options = [option for code in codes for option in ("-C", code)]
    all_words = ["cargo", "rustc", "--quiet", "--release", "--offline", *words, "--", *options]
    settings = {**os.environ, "CARGO_TARGET_DIR": str(package / "target")}
    done = subprocess.run(all_words, cwd=package, env=settings, check=False)
    if done.returncode:
        raise NotBuilt(f"`{' '.join(all_words)}` ended with status {done.returncode}")


def has_musl() -> bool:
    sysroot = Path(said_by(["rustc", "--print", "sysroot"]))
    return any((sysroot / "lib/rustlib" / MUSL / "lib").glob("libstd-*.rlib"))


def sysroot_codes(sysroot: Optional[Path]) -> List[str]:
    """Has the linker take the C library of a system that is unpacked in a folder."""
    if sysroot is None:
        return []
    top = sysroot.resolve()
    # (cc looks at the places of its own system first, whatever its root)
    places = [f"link-arg=-L{top}/{place}" for place in LIBRARIES]
    return [f"link-arg=--sysroot={top}", *places]


def programs(package: Path) -> Dict[str, bytes]:
    """The programs, which ask for no library: each run needs a kernel alone."""
    more = ["--target", MUSL] if has_musl() else []
    made = package / (f"target/{MUSL}/release" if more else RELEASE)
    for name in PROGRAMS:
        codes = ["strip=symbols", "target-feature=+crt-static"]
        cargo(package, ["--bin", name, *more], *codes)
    return {name: (made / name).read_bytes() for name in PROGRAMS}


def build(package: Path, sysroot: Optional[Path] = None) -> Built:
    """Builds the programs and the library. Raises NotBuilt."""
    if shutil.which("cargo") is None:
        raise NotBuilt("there is no cargo")
    made = programs(package)
    words = ["--lib", "--crate-type", "cdylib,staticlib", "--features", "c"]
    named = f"link-arg=-Wl,-soname,{SHARED}"
    cargo(package, words, "strip=debuginfo", named, *sysroot_codes(sysroot))
    library = (package / RELEASE / "libvdpm.so").read_bytes()
    with tempfile.TemporaryDirectory(prefix="release-") as room:
        archive = archive_of([package / RELEASE / "libvdpm.a"], Path(room)).read_bytes()
    linked = "statically with musl" if has_musl() else "statically with glibc"
    return Built(made, library, archive, linked, glibc_of(library))


def compilers() -> List[str]:
    """Which compilers build it."""
    return [said_by([name, "--version"]) for name in ("rustc", "cargo", "cc")]
