"""The package as a WebAssembly module that imports nothing, by the compiler that is here.

Three ways are known, and the first that stands is gone: a compiler that has the target's std, as
rustup adds it; one that has the sources of std, as Debian packages them for its browsers, and makes
that std beside the package; and Debian's own compiler, which is older than the package asks for,
but has in hand what it lacks.
"""
import os
import re
import shutil
import subprocess
from pathlib import Path
from typing import Dict, Iterator, List, NamedTuple, Optional, Sequence, Tuple

TARGET = "wasm32-unknown-unknown"
MODULE = f"target/{TARGET}/release/vdpm.wasm"
MAGIC = b"\0asm"
# What Rust 1.63 has and doesn't give without being asked.
NOT_YET_STABLE = ("let_else",)
OLDEST = (1, 63)
# Compilers, and the cargo beside each: that of the path, and Debian's.
PLACES: Sequence[Tuple[str, str]] = (("rustc", "cargo"), ("/usr/bin/rustc", "/usr/bin/cargo"))
INSTALL = """no compiler for WebAssembly is here. Any of these installs one:
    rustup target add wasm32-unknown-unknown
    apt-get install rustc-web cargo-web rust-web-src lld        # Debian 12 with its updates
    apt-get install rustc libstd-rust-dev-wasm32 lld            # Debian 12"""


class NotBuilt(Exception):
    """Why there is no module."""


class Compiler(NamedTuple):
    """A rustc, the cargo beside it if there is one, and what it has."""

    rustc: str
    cargo: Optional[str]
    version: Tuple[int, int]
    sysroot: Path

    @property
    def has_std(self) -> bool:
        """Whether the target's std is ready."""
        return any((self.sysroot / "lib/rustlib" / TARGET / "lib").glob("libstd-*.rlib"))

    @property
    def library(self) -> Path:
        """Where the sources of std are, if they are here."""
        return self.sysroot / "lib/rustlib/src/rust/library"

    @property
    def has_sources(self) -> bool:
        return (self.library / "std/Cargo.toml").is_file()


class Way(NamedTuple):
    """How a module is made: the command, what it is told beside, and the file that it leaves."""

    told: str
    words: List[str]
    settings: Dict[str, str]


def said_by(words: Sequence[str]) -> str:
    """What a command prints; nothing where it fails or isn't there."""
    try:
        done = subprocess.run(words, stdout=subprocess.PIPE, stderr=subprocess.DEVNULL, check=True)
    except (OSError, subprocess.CalledProcessError):
        return ""
    return done.stdout.decode()


def compilers(places: Sequence[Tuple[str, str]] = PLACES) -> Iterator[Compiler]:
    """The compilers at these places, each once."""
    seen = set()
    for rustc, cargo in places:
        version = re.match(r"rustc (\d+)\.(\d+)", said_by([rustc, "--version"]))
        sysroot = said_by([rustc, "--print", "sysroot"]).strip()
        if version and sysroot and sysroot not in seen:
            seen.add(sysroot)
            number = (int(version[1]), int(version[2]))
            yield Compiler(rustc, shutil.which(cargo), number, Path(sysroot))


def linker_of(compiler: Compiler) -> Dict[str, str]:
    """A linker, where the compiler hasn't its own."""
    own = any((compiler.sysroot / "lib/rustlib").glob("*/bin/rust-lld"))
    found = None if own or shutil.which("rust-lld") else shutil.which("wasm-ld")
    return {"CARGO_TARGET_WASM32_UNKNOWN_UNKNOWN_LINKER": found} if found else {}


def cargo_words(cargo: str, more: Sequence[str]) -> List[str]:
    words = [cargo, "rustc", "--quiet", "--release", "--lib", "--crate-type", "cdylib"]
    return [*words, "--features", "c", "--target", TARGET, *more, "--", "-C", "strip=symbols"]


def with_ready_std(compiler: Compiler, least: Tuple[int, int]) -> Optional[Way]:
    if not compiler.cargo or not compiler.has_std or compiler.version < least:
        return None
    words = cargo_words(compiler.cargo, ["--offline"])
    return Way("the target's std of", words, {"RUSTC": compiler.rustc, **linker_of(compiler)})


def with_sources_of_std(compiler: Compiler, least: Tuple[int, int]) -> Optional[Way]:
    if not compiler.cargo or not compiler.has_sources or compiler.version < least:
        return None
    more = ["-Z", "build-std=std,panic_abort"]
    vendor = compiler.library / "vendor"
    if vendor.is_dir():
        more += ["--offline", "--config", 'source.crates-io.replace-with="vendor"']
        more += ["--config", f'source.vendor.directory="{vendor}"']
    settings = {"RUSTC_BOOTSTRAP": "1", "RUSTC": compiler.rustc, **linker_of(compiler)}
    return Way("the sources of std of", cargo_words(compiler.cargo, more), settings)


def by_old_compiler(compiler: Compiler, least: Tuple[int, int]) -> Optional[Way]:
    if not compiler.has_std or not OLDEST <= compiler.version < least:
        return None
    words = [compiler.rustc, "--edition", "2021", "--crate-name", "vdpm", "--crate-type", "cdylib"]
    words += ["--target", TARGET, "--cfg", 'feature="c"', "--cap-lints", "allow"]
    for code in ("opt-level=3", "lto=fat", "codegen-units=1", "panic=abort", "strip=symbols"):
        words += ["-C", code]
    for linker in linker_of(compiler).values():
        words += ["-C", f"linker={linker}"]
    for feature in NOT_YET_STABLE:
        words += ["-Z", f"crate-attr=feature({feature})"]
    return Way("the older", [*words, "src/lib.rs", "-o", MODULE], {"RUSTC_BOOTSTRAP": "1"})


def least_version(package: Path) -> Tuple[int, int]:
    """The oldest compiler that the package says is enough."""
    text = (package / "Cargo.toml").read_text(encoding="utf-8")
    found = re.search(r'^rust-version = "(\d+)\.(\d+)', text, re.MULTILINE)
    return (int(found[1]), int(found[2])) if found else (1, 0)


def ways(found: Sequence[Compiler], least: Tuple[int, int]) -> Iterator[Tuple[Compiler, Way]]:
    """The ways that stand, best first."""
    for way_of in (with_ready_std, with_sources_of_std, by_old_compiler):
        for compiler in found:
            way = way_of(compiler, least)
            if way is not None:
                yield compiler, way


def best_way(
    package: Path, places: Sequence[Tuple[str, str]] = PLACES
) -> Tuple[Compiler, Way]:
    """How the module of a package is made here. Raises NotBuilt where no compiler makes it."""
    found = next(ways(list(compilers(places)), least_version(package)), None)
    if found is None:
        raise NotBuilt(INSTALL)
    return found


def build(package: Path, out: Path,
          places: Sequence[Tuple[str, str]] = PLACES) -> str:
    """Makes the module of a package, and answers by which compiler.

    Raises NotBuilt where none is here, or where it fails.
    """
    compiler, way = best_way(package, places)
    made = package / MODULE
    made.parent.mkdir(parents=True, exist_ok=True)
    done = subprocess.run(way.words, cwd=package, env={**os.environ, **way.settings}, check=False)
    if done.returncode or not made.is_file() or not made.read_bytes().startswith(MAGIC):
        raise NotBuilt(f"{way.words[0]} ended with status {done.returncode}, and no module")
    out.parent.mkdir(parents=True, exist_ok=True)
    shutil.copyfile(made, out)
    return f"{way.told} rustc {compiler.version[0]}.{compiler.version[1]}"
