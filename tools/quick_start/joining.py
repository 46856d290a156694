"""Puts the library's files together of its code: libvdpm.a, and libvdpm.so.1 with its link.

All code becomes one piece first, in which no names are seen but those in `libvdpm.symbols`, and
nothing stays that these don't lead to. So another library of the same compiler, with the same code
below it, may be linked into the same program.
"""
import contextlib
import os
import re
import shutil
from pathlib import Path
from typing import List, Sequence

from .running import run_tool
from .sources import LINK, SHARED, STATIC
from .stopped import Stopped

SYMBOLS = Path(__file__).with_name("libvdpm.symbols")
# (what rustc leaves for its own linking)
OF_RUSTC = (".llvmbc", ".llvmcmd")
GLIBC = re.compile(rb"\0GLIBC_2\.(\d+)(?:\.\d+)?(?=\0)")


def symbols() -> List[str]:
    """The functions of libvdpm.h."""
    return SYMBOLS.read_text(encoding="ascii").split()


def stop_without_tools() -> None:
    """Stops where a tool lacks that a library is put together by, beside those of the kit."""
    for name, what in (("cc", "C compiler"), ("ar", "archiver"), ("objcopy", "`objcopy`")):
        if shutil.which(name) is None:
            raise Stopped(f"the library needs a {what}, and {name} isn't on the path")


def one_piece(code: Sequence[Path], room: Path) -> Path:
    """All that the functions lead to in these files, in the room, with no other names seen."""
    whole, piece = room / "whole.o", room / "vdpm.o"
    needed = [f"-Wl,--require-defined={name}" for name in symbols()]
    words = ["cc", "-r", "-nostdlib", "-Wl,--gc-sections", "-Wl,--force-group-allocation", *needed]
    files = ["-Wl,--start-group", *map(str, code), "-Wl,--end-group"]
    run_tool([*words, *files, "-o", str(whole)])
    words = ["objcopy", "--strip-debug", f"--keep-global-symbols={SYMBOLS}"]
    run_tool([*words, *(f"--remove-section={it}" for it in OF_RUSTC), str(whole), str(piece)])
    return piece


def archive_of(code: Sequence[Path], room: Path) -> Path:
    """The static library, in the room."""
    run_tool(["ar", "rcs", str(room / STATIC), str(one_piece(code, room))])
    return room / STATIC


def join(code: Sequence[Path], room: Path) -> None:
    """Makes the library's files in the room."""
    archive, seen = archive_of(code, room), room / "symbols.map"
    lines = ["{ global:", *(f"{name};" for name in symbols()), "local: *; };", ""]
    seen.write_text("\n".join(lines), encoding="ascii")
    words = ["cc", "-shared", f"-Wl,-soname,{SHARED}", f"-Wl,--version-script={seen}"]
    words += ["-Wl,--gc-sections", "-Wl,--as-needed", "-Wl,-z,defs", "-Wl,-z,relro,-z,now"]
    whole = ["-Wl,--whole-archive", str(archive), "-Wl,--no-whole-archive"]
    run_tool([*words, *whole, "-o", str(room / SHARED)])


def put_link(folder: Path) -> None:
    """Makes the link by which a linker finds the shared library, as one step."""
    half = folder / f".{LINK}.{os.getpid()}"
    with contextlib.suppress(FileNotFoundError):
        half.unlink()
    half.symlink_to(SHARED)
    os.replace(half, folder / LINK)


def glibc_of(data: bytes) -> int:
    """The N of the latest glibc 2.N that a shared file asks for."""
    return max((int(found) for found in GLIBC.findall(data)), default=0)
