"""Puts the library where a linker, pkg-config and CMake look for one."""
import os
import re
import shutil
from pathlib import Path
from typing import Dict

from .joining import put_link
from .record import is_current, path_of, read_record
from .sources import SHARED, STATIC, Program
from .stopped import Stopped

HEADER = "libvdpm.h"
LICENSES = ("LICENSE-APACHE", "LICENSE-MIT")
NUMBER = re.compile(r"^#define VDPM_VERSION_(?:MAJOR|MINOR|PATCH) (\d+)$", re.MULTILINE)
# Where each text of cmake/ goes.
TEXTS = {
    "lib/pkgconfig": ("libvdpm.pc",),
    "lib/cmake/vdpm": ("vdpm-config.cmake", "vdpm-config-version.cmake"),
}


def version_of(top: Path) -> str:
    """The version that the header tells."""
    return ".".join(NUMBER.findall((top / HEADER).read_text(encoding="utf-8")))


def texts(top: Path) -> Dict[str, str]:
    """What tells other tools of the library, by its place under a prefix. They find the files by
    where they stand themselves, so that all of it may be moved together."""
    version, found = version_of(top), {}
    told = {"@VERSION@": version, "@MAJOR@": version.split(".")[0], "@SHARED@": SHARED}
    for folder, names in TEXTS.items():
        for name in names:
            text = (top / "cmake" / name).read_text(encoding="utf-8")
            for mark, value in told.items():
                text = text.replace(mark, value)
            found[f"{folder}/{name}"] = text
    return found


def folder_to_install(program: Program) -> Path:
    """Where the library stands of the sources as they are: the proved one before another."""
    for name in ("proved", "unproved"):
        if all(is_current(program, built) for built in program.files_in(name)):
            return program.top / name
    raise Stopped("it isn't built of these sources")


def put(source: Path, place: Path, mode: int = 0o644) -> None:
    """Copies a file, as one step: a program that has the old one loaded keeps it."""
    place.parent.mkdir(parents=True, exist_ok=True)
    half = place.with_name(f".{place.name}.{os.getpid()}")
    shutil.copyfile(source, half)
    half.chmod(mode)
    os.replace(half, place)


def install(top: Path, built: Path, prefix: Path) -> None:
    """Puts the library that stands in the folder `built` under the prefix."""
    put(top / HEADER, prefix / "include" / HEADER)
    put(built / STATIC, prefix / "lib" / STATIC)
    put(built / SHARED, prefix / "lib" / SHARED, 0o755)
    put_link(prefix / "lib")
    for place, text in texts(top).items():
        (prefix / place).parent.mkdir(parents=True, exist_ok=True)
        (prefix / place).write_text(text, encoding="utf-8")
    told = prefix / "share/doc/libvdpm"
    for path in (path_of(built / SHARED), *(top / name for name in LICENSES)):
        put(path, told / path.name)


def is_proved(built: Path) -> bool:
    record = read_record(built / SHARED)
    return record is not None and record.proved
