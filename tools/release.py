#!/usr/bin/env python3
"""Makes a release in dist/, without a network:

    python3 tools/release.py [--glibc FOLDER]

The programs for Linux on x86-64, which run on any; libvdpm with its header; the Cargo package; a
Python wheel that holds its library; the WebAssembly module, where a compiler for it is here;
SHA256SUMS; and RELEASE.txt, which tells of what commit and by which compilers. The same commit and
compilers make the same bytes. FOLDER has the packages libc6, libc6-dev and libgcc-s1 of an older
Debian, as `dpkg -x` unpacks them, with links made relative: libvdpm.so is linked with their glibc,
and runs on that and later ones. Needs cargo and cc. What isn't committed isn't released.
"""
import argparse
import shutil
import sys
import tempfile
from pathlib import Path
from typing import Dict, Optional

from plain_rust import webassembly
from plain_rust.package import Files, Unknown, package, sum_of_all, write
from quick_start.install import texts
from quick_start.record import commit_of
from quick_start.sources import LINK, SHARED, STATIC
from quick_start.stopped import Stopped
from releasing.archives import Entries, Entry, sums, tar_gz
from releasing.building import Built, NotBuilt, build, compilers
from releasing.telling import proof_of, text, time_of
from releasing.wheel import wheel

TOP = Path(__file__).resolve().parent.parent
LICENSES = ("LICENSE-APACHE", "LICENSE-MIT")


def version_of(files: Files, commit: str) -> str:
    """The package's version with its commit."""
    lines = files["Cargo.toml"].decode().splitlines()
    number = next(line.split('"')[1] for line in lines if line.startswith("version = "))
    return f"{number}+{commit}"


def natives(built: Built, page: Entries) -> Entries:
    """What is for Linux."""
    made = {f"bin/{name}": Entry(data, runs=True) for name, data in built.programs.items()}
    made[f"lib/{SHARED}"] = Entry(built.library, runs=True)
    made[f"lib/{LINK}"] = Entry(b"", runs=True, leads_to=SHARED)
    made[f"lib/{STATIC}"] = Entry(built.archive)
    made["include/libvdpm.h"] = Entry((TOP / "libvdpm.h").read_bytes())
    made.update({place: Entry(text.encode()) for place, text in texts(TOP).items()})
    return {**made, **page}


def module_entries(module: Path, page: Entries) -> Entries:
    """The WebAssembly module and the class over it."""
    names = ("vdpm.mjs", "session.mjs", "tables.mjs", "buffers.mjs", "simplifying.mjs", "made.mjs",
             "memory.mjs", "faults.mjs")
    scripts = {name: Entry((TOP / "tools/wasm" / name).read_bytes()) for name in names}
    return {"vdpm.wasm": Entry(module.read_bytes()), **scripts, **page}


def made_module(room: Path) -> Optional[str]:
    """By what the module is made in the room; nothing where no compiler for it is here."""
    try:
        return webassembly.build(room, room / "vdpm.wasm")
    except webassembly.NotBuilt as why:
        if str(why) != webassembly.INSTALL:
            raise
        print(f"release: LEFT OUT: the WebAssembly module: {why}", file=sys.stderr)
        return None


def released(room: Path, commit: str, sysroot: Optional[Path]) -> Dict[str, bytes]:
    """All files but the sums, by their names."""
    files = package(TOP)
    write(files, room)
    version, built, module = version_of(files, commit), build(room, sysroot), made_module(room)
    proof, time, by = proof_of(TOP), time_of(TOP, commit), compilers()
    told = {**proof, "commit": commit, "time": time}
    page = {name: Entry(files[name]) for name in LICENSES}
    said = {"RELEASE.txt": text(version, told, built, module, by).encode()}
    page["RELEASE.txt"] = Entry(said["RELEASE.txt"])
    named = f"vdpm-{version}"

    def archive(kind: str, entries: Entries) -> Dict[str, bytes]:
        return {f"{named}-{kind}.tar.gz": tar_gz(f"{named}-{kind}", entries)}

    said.update(archive("x86_64-linux", natives(built, page)))
    said.update(archive("rust", {name: Entry(data) for name, data in files.items()}))
    record = {"commit": commit, "built": time, "kit": by[0], "sources": sum_of_all(TOP)}
    said.update(wheel(TOP, built.library, version, built.glibc, record))
    if module is not None:
        said.update(archive("wasm", module_entries(room / "vdpm.wasm", page)))
    return said


def put(files: Dict[str, bytes], dist: Path) -> None:
    """Makes the folder have these files and their sums, and no others."""
    shutil.rmtree(dist, ignore_errors=True)
    dist.mkdir(parents=True)
    for name, data in files.items():
        (dist / name).write_bytes(data)
    (dist / "SHA256SUMS").write_text(sums(sorted(dist.iterdir())), encoding="ascii")


def main() -> int:
    parser = argparse.ArgumentParser(description=(__doc__ or "").split("\n\n")[0])
    parser.add_argument("--glibc", type=Path, metavar="FOLDER")
    arguments = parser.parse_args()
    commit = commit_of(TOP)
    if " " in commit or commit == "unknown":
        print(f"release: the commit is {commit}, so nothing is released", file=sys.stderr)
        return 1
    try:
        with tempfile.TemporaryDirectory(prefix="release-") as room:
            put(released(Path(room), commit, arguments.glibc), TOP / "dist")
    except (Unknown, Stopped, NotBuilt, webassembly.NotBuilt) as why:
        print(f"release: {why}", file=sys.stderr)
        return 1
    for path in sorted((TOP / "dist").iterdir()):
        print(f"{path.stat().st_size:>9} dist/{path.name}")
    return 0


if __name__ == "__main__":
    sys.exit(main())
