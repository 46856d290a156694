#!/usr/bin/env python3
"""Makes a Cargo package of plain Rust from the sources, by erasing contracts and ghosts.

    python3 tools/plain_rust.py OUT
    python3 tools/plain_rust.py --wasm OUT.wasm

OUT is a new folder, or a package that was made before. In it `cargo build --release` gives the
programs and a library; the feature `c` adds the functions of libvdpm.h. Nothing in the package is
proved. A form of a source that isn't known, or that Rust would run differently, ends the making
with status 1 and its place, and OUT stays as it was. With `--wasm` the functions of libvdpm.h are
built as one WebAssembly module, by whichever compiler for it is here; tools/wasm has a class over
it.
"""
import sys
import tempfile
from pathlib import Path

from plain_rust import webassembly
from plain_rust.package import Unknown, is_made, package, write
from quick_start.stopped import Stopped

TOP = Path(__file__).resolve().parent.parent
PACKAGE = TOP / "tools/plain_rust/parts/package"


def make_module(out: Path) -> None:
    """Builds the module in a folder that goes again. Whether a compiler is here is known first."""
    webassembly.best_way(PACKAGE)
    with tempfile.TemporaryDirectory(prefix="plain_rust-") as room:
        write(package(TOP), Path(room))
        print(f"plain_rust: {out} is made by {webassembly.build(Path(room), out)}")


def main() -> int:
    if len(sys.argv) == 3 and sys.argv[1] == "--wasm":
        try:
            make_module(Path(sys.argv[2]))
        except (Unknown, Stopped, webassembly.NotBuilt) as why:
            print(f"plain_rust: {why}", file=sys.stderr)
            return 1
        return 0
    if len(sys.argv) != 2 or sys.argv[1].startswith("-"):
        print(__doc__, file=sys.stderr)
        return 64
    out = Path(sys.argv[1])
    if not is_made(out):
        print(f"plain_rust: {out} is no package that was made here", file=sys.stderr)
        return 1
    try:
        write(package(TOP), out)
    except (Unknown, Stopped) as why:
        print(f"plain_rust: {why}", file=sys.stderr)
        return 1
    return 0


if __name__ == "__main__":
    sys.exit(main())
