"""Archives whose bytes depend on what they hold alone: names in order, one time, no owner."""
import gzip
import hashlib
import io
import tarfile
import zipfile
from pathlib import Path
from typing import Dict, Iterable, NamedTuple

# The first time that a zip can tell; a tar has none.
FIRST_TIME = (1980, 1, 1, 0, 0, 0)


class Entry(NamedTuple):
    """A file of an archive."""

    data: bytes
    runs: bool = False
    leads_to: str = ""  # (of a link, which has no data)


Entries = Dict[str, Entry]


def mode_of(entry: Entry) -> int:
    return 0o755 if entry.runs else 0o644


def tar_gz(folder: str, entries: Entries) -> bytes:
    """A tar of these files in a folder, by gzip."""
    tar = io.BytesIO()
    with tarfile.open(fileobj=tar, mode="w", format=tarfile.USTAR_FORMAT) as archive:
        for name, entry in sorted(entries.items()):
            info = tarfile.TarInfo(f"{folder}/{name}")
            info.size, info.mode = len(entry.data), mode_of(entry)
            if entry.leads_to:
                info.type, info.linkname = tarfile.SYMTYPE, entry.leads_to
            archive.addfile(info, io.BytesIO(entry.data))
    return gzip.compress(tar.getvalue(), mtime=0)


def zipped(entries: Entries) -> bytes:
    """A zip of these files."""
    out = io.BytesIO()
    with zipfile.ZipFile(out, "w", zipfile.ZIP_DEFLATED) as archive:
        for name, entry in sorted(entries.items()):
            info = zipfile.ZipInfo(name, FIRST_TIME)
            info.compress_type, info.create_system = zipfile.ZIP_DEFLATED, 3
            info.external_attr = (0o100000 | mode_of(entry)) << 16
            archive.writestr(info, entry.data)
    return out.getvalue()


def sums(files: Iterable[Path]) -> str:
    """The lines of SHA256SUMS, as `sha256sum -c` reads them."""
    lines = [f"{hashlib.sha256(path.read_bytes()).hexdigest()}  {path.name}\n" for path in files]
    return "".join(sorted(lines, key=lambda line: line.split("  ")[1]))
