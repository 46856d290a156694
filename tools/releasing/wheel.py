"""A Python wheel that holds its library."""
import base64
import hashlib
from pathlib import Path
from typing import Dict

from .archives import Entries, Entry, zipped

NAME = "vdpm"
PLATFORM = "manylinux_2_{}_{}"
LEAST_GLIBC = 17  # (older ones have other names for the same)
METADATA = """Metadata-Version: 2.1
Name: {name}
Version: {version}
Summary: View-dependent progressive meshes in a program's own memory
License: MIT OR Apache-2.0
Requires-Python: >=3.8
Description-Content-Type: text/markdown

`import vdpm`: streams of OBJ texts, and viewers of streams, as arrays. The library in it {said}
"""
BY_RUSTC = """was built
of commit {commit} by rustc, from sources that are proved in Rattle, with their contracts erased:
the sources are proved, and this library isn't."""
WHEEL = """Wheel-Version: 1.0
Generator: tools/release.py
Root-Is-Purelib: false
Tag: {tag}
"""


def tag_of(glibc: int, machine: str = "x86_64") -> str:
    """Which systems the wheel is for: those whose glibc is 2.N or later."""
    return f"py3-none-{PLATFORM.format(max(glibc, LEAST_GLIBC), machine)}"


def record_of(library: bytes, told: Dict[str, str]) -> str:
    """The record beside the library, by which `vdpm.version()` tells of it."""
    said = {"program": "libvdpm", "proved": "no", **told}
    said["sum"] = hashlib.sha256(library).hexdigest()
    return "".join(f"{key} {value}\n" for key, value in said.items())


def line_of(name: str, entry: Entry) -> str:
    """The line of a file in the wheel's RECORD."""
    digest = base64.urlsafe_b64encode(hashlib.sha256(entry.data).digest()).rstrip(b"=").decode()
    return f"{name},sha256={digest},{len(entry.data)}\n"


def wheel(top: Path, library: bytes, version: str, glibc: int, told: Dict[str, str],
          said: str = "", machine: str = "x86_64") -> Dict[str, bytes]:
    """The wheel by its name. `told` is what the record says of the library, and `said` how the
    description goes on of it."""
    info = f"{NAME}-{version}.dist-info"
    entries: Entries = {
        f"{NAME}/{path.name}": Entry(path.read_bytes())
        for path in sorted((top / "python" / NAME).iterdir()) if path.suffix in (".py", ".typed")
    }
    entries[f"{NAME}/libvdpm.so"] = Entry(library, runs=True)
    entries[f"{NAME}/libvdpm.so.record"] = Entry(record_of(library, told).encode())
    for name in ("LICENSE-APACHE", "LICENSE-MIT"):
        entries[f"{info}/{name}"] = Entry((top / name).read_bytes())
    said = said or BY_RUSTC.format(commit=told["commit"])
    text = METADATA.format(name=NAME, version=version, said=said)
    entries[f"{info}/METADATA"] = Entry(text.encode())
    entries[f"{info}/WHEEL"] = Entry(WHEEL.format(tag=tag_of(glibc, machine)).encode())
    lines = [line_of(name, entry) for name, entry in sorted(entries.items())]
    lines.append(f"{info}/RECORD,,\n")
    entries[f"{info}/RECORD"] = Entry("".join(lines).encode())
    return {f"{NAME}-{version}-{tag_of(glibc, machine)}.whl": zipped(entries)}
