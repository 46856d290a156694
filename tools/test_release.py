"""Tries the making of releases, by a cargo that makes nothing: python3 tools/test_release.py"""
import base64
import contextlib
import hashlib
import io
import os
import subprocess
import sys
import tarfile
import tempfile
import unittest
import zipfile
from pathlib import Path
from typing import Dict
from unittest import mock

sys.path.insert(0, str(Path(__file__).resolve().parent))

import release  # noqa: E402
from plain_rust import webassembly  # noqa: E402
from releasing import building  # noqa: E402
from releasing.archives import Entry, sums, tar_gz, zipped  # noqa: E402
from quick_start.joining import glibc_of  # noqa: E402
from releasing.building import Built, NotBuilt  # noqa: E402
from releasing.telling import proof_of, text  # noqa: E402
from releasing.wheel import tag_of, wheel  # noqa: E402

TOP = Path(__file__).resolve().parent.parent
ENTRIES = {"b": Entry(b"two"), "a/run": Entry(b"#!", runs=True)}
LINKED = {**ENTRIES, "c": Entry(b"", leads_to="b")}
TOLD = {"commit": "0123456789ab", "built": "2026-01-01 00:00:00 UTC", "kit": "rustc 1",
        "sources": "5"}
LIBRARY = b"\x7fELF\0GLIBC_2.2.5\0GLIBC_2.34\0GLIBC_PRIVATE\0"
BUILT = Built({"vdpm": b"1", "prepare": b"2", "simplify": b"3", "pack": b"4", "paint": b"5"},
              LIBRARY, b"!<arch>\n", "statically with glibc", 34)
# A cargo that leaves what it is asked for, and a list of what that was.
CARGO = """#!/bin/sh
echo "$@" >> asked
folder="$CARGO_TARGET_DIR/release"
mkdir -p "$folder"
case "$*" in
*--bin*) while test "$1" != --bin; do shift; done; echo "$2" > "$folder/$2" ;;
*--lib*) printf '\\000GLIBC_2.30\\000' > "$folder/libvdpm.so"; echo > "$folder/libvdpm.a" ;;
esac
"""


class Archives(unittest.TestCase):
    def test_a_tar_has_its_files_in_order_and_no_time(self) -> None:
        made = tar_gz("top", ENTRIES)
        self.assertEqual(made, tar_gz("top", dict(reversed(list(ENTRIES.items())))))
        with tarfile.open(fileobj=io.BytesIO(made)) as archive:
            found = [(it.name, it.mode, it.mtime, it.uid) for it in archive]
        self.assertEqual(found, [("top/a/run", 0o755, 0, 0), ("top/b", 0o644, 0, 0)])

    def test_a_tar_has_links(self) -> None:
        with tarfile.open(fileobj=io.BytesIO(tar_gz("top", LINKED))) as archive:
            self.assertEqual(archive.getmember("top/c").linkname, "b")
            link = archive.extractfile("top/c")
            self.assertEqual(link and link.read(), b"two")

    def test_a_zip_has_modes_and_no_time(self) -> None:
        made = zipped(ENTRIES)
        self.assertEqual(made, zipped(dict(reversed(list(ENTRIES.items())))))
        with zipfile.ZipFile(io.BytesIO(made)) as archive:
            self.assertEqual(archive.read("b"), b"two")
            self.assertEqual(archive.getinfo("a/run").external_attr >> 16, 0o100755)

    def test_sums_are_read_by_sha256sum(self) -> None:
        with tempfile.TemporaryDirectory() as name:
            for file in ("b", "a"):
                (Path(name) / file).write_text(file, encoding="ascii")
            told = sums(sorted(Path(name).iterdir()))
            done = subprocess.run(["sha256sum", "-c"], input=told.encode(), cwd=name, check=True,
                                  stdout=subprocess.PIPE)
        self.assertEqual(done.stdout, b"a: OK\nb: OK\n")


class Wheels(unittest.TestCase):
    def entries(self) -> Dict[str, bytes]:
        (name, made), = wheel(TOP, LIBRARY, "0.0.0+1", 34, TOLD).items()
        self.assertEqual(name, "vdpm-0.0.0+1-py3-none-manylinux_2_34_x86_64.whl")
        with zipfile.ZipFile(io.BytesIO(made)) as archive:
            return {it: archive.read(it) for it in archive.namelist()}

    def test_its_record_tells_each_file(self) -> None:
        entries = self.entries()
        lines = entries.pop("vdpm-0.0.0+1.dist-info/RECORD").decode().splitlines()
        told = dict(line.split(",", 1) for line in lines)
        self.assertEqual(told.pop("vdpm-0.0.0+1.dist-info/RECORD"), ",")
        digests = {name: base64.urlsafe_b64encode(hashlib.sha256(data).digest()).decode()
                   for name, data in entries.items()}
        wanted = {name: f"sha256={digests[name].rstrip('=')},{len(data)}"
                  for name, data in entries.items()}
        self.assertEqual(told, wanted)

    def test_the_package_finds_the_library_in_it(self) -> None:
        with tempfile.TemporaryDirectory() as name:
            for place, data in self.entries().items():
                path = Path(name) / place
                path.parent.mkdir(parents=True, exist_ok=True)
                path.write_bytes(data)
            words = [sys.executable, "-c", "import vdpm; print(*vdpm.version()[1:3])"]
            settings = {key: value for key, value in os.environ.items() if key != "VDPM_LIBRARY"}
            done = subprocess.run(words, env={**settings, "PYTHONPATH": name}, cwd=name, check=True,
                                  stdout=subprocess.PIPE)
        self.assertEqual(done.stdout.decode().split(), ["False", TOLD["commit"]])

    def test_a_tag_tells_the_oldest_system(self) -> None:
        self.assertEqual(tag_of(31), "py3-none-manylinux_2_31_x86_64")
        self.assertEqual(tag_of(2), "py3-none-manylinux_2_17_x86_64")


class Building(unittest.TestCase):
    def setUp(self) -> None:
        room = tempfile.TemporaryDirectory(prefix="release-")
        self.addCleanup(room.cleanup)
        self.top = Path(room.name)
        cargo = self.top / "bin/cargo"
        cargo.parent.mkdir()
        cargo.write_text(CARGO, encoding="ascii")
        cargo.chmod(0o755)
        path = f"{cargo.parent}:{os.environ['PATH']}"
        patches = contextlib.ExitStack()
        self.addCleanup(patches.close)
        patches.enter_context(mock.patch.dict(os.environ, {"PATH": path}))
        patches.enter_context(mock.patch.object(building, "has_musl", return_value=False))
        patches.enter_context(mock.patch.object(building, "archive_of", lambda code, _: code[0]))

    def test_programs_are_static_and_the_library_is_linked_with_a_glibc(self) -> None:
        (self.top / "old").mkdir()
        built = building.build(self.top, self.top / "old")
        self.assertEqual(built.programs["simplify"], b"simplify\n")
        self.assertEqual((built.glibc, built.linked), (30, "statically with glibc"))
        asked = (self.top / "asked").read_text(encoding="ascii").splitlines()
        self.assertEqual(len(asked), 6)
        self.assertTrue(all("target-feature=+crt-static" in line for line in asked[:5]))
        self.assertIn("--features c", asked[5])
        self.assertIn("link-arg=-Wl,-soname,libvdpm.so.1", asked[5])
        self.assertIn(f"link-arg=--sysroot={self.top.resolve()}/old", asked[5])

    def test_what_fails_is_told(self) -> None:
        (self.top / "bin/cargo").write_text("#!/bin/sh\nexit 101\n", encoding="ascii")
        with self.assertRaises(NotBuilt) as raised:
            building.build(self.top)
        self.assertIn("ended with status 101", str(raised.exception))

    def test_the_glibc_is_the_latest_that_is_asked_for(self) -> None:
        self.assertEqual(glibc_of(LIBRARY), 34)
        self.assertEqual(glibc_of(b"no names"), 0)


class Whole(unittest.TestCase):
    def setUp(self) -> None:
        room = tempfile.TemporaryDirectory(prefix="release-")
        self.addCleanup(room.cleanup)
        self.room = Path(room.name)
        files = {"Cargo.toml": b'version = "0.0.0"\n', "src/lib.rs": b"// all\n"}
        files.update({name: b"page" for name in release.LICENSES})
        patches = [mock.patch.object(release, name, return_value=value) for name, value in (
            ("package", files), ("build", BUILT), ("compilers", ["rustc 1", "cargo 1", "cc 1"]),
            ("sum_of_all", "5"), ("time_of", "2026-01-01 00:00:00 UTC"))]
        for patch in patches:
            patch.start()
            self.addCleanup(patch.stop)

    def released(self, module: bool) -> Dict[str, bytes]:
        def fake(room: Path, out: Path) -> str:
            if not module:
                raise webassembly.NotBuilt(webassembly.INSTALL)
            out.write_bytes(b"\0asm")
            return "the older rustc 1.63"
        with mock.patch.object(webassembly, "build", fake):
            return release.released(self.room, "0123456789ab", None)

    def test_all_files_are_there_and_the_same_again(self) -> None:
        made = self.released(True)
        kinds = ("py3-none-manylinux_2_34_x86_64.whl", "rust.tar.gz", "wasm.tar.gz",
                 "x86_64-linux.tar.gz")
        named = [f"vdpm-0.0.0+0123456789ab-{kind}" for kind in kinds]
        self.assertEqual(sorted(made), ["RELEASE.txt", *named])
        self.assertEqual(made, self.released(True))
        release.put(made, self.room / "dist")
        subprocess.run(["sha256sum", "--quiet", "-c", "SHA256SUMS"], cwd=self.room / "dist",
                       check=True)

    def test_without_a_compiler_there_is_no_module_and_that_is_told(self) -> None:
        with mock.patch("sys.stderr", io.StringIO()) as said:
            made = self.released(False)
        self.assertFalse(any("wasm" in name for name in made))
        self.assertIn("LEFT OUT", said.getvalue())
        self.assertIn("There is no WebAssembly module", made["RELEASE.txt"].decode())

    def test_the_text_tells_commit_logic_and_compilers(self) -> None:
        told = {**proof_of(TOP), "commit": "0123", "time": "now"}
        self.assertRegex(told["logic"], "^[0-9a-f]{16}$")
        said = text("0.0.0+0123", told, BUILT, None, ["rustc 1"])
        for part in ("commit 0123", told["logic"], told["kit"], "- rustc 1",
                     "statically with glibc", "glibc 2.34"):
            self.assertIn(part, said)


if __name__ == "__main__":
    unittest.main()
