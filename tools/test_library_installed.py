"""Tries the library's files as a distribution would take them: what names they show, what they are
called, and that pkg-config and CMake find them where they are installed.

    python3 tools/test_library_installed.py
"""
import os
import re
import shutil
import subprocess
import tempfile
import unittest
from pathlib import Path
from typing import List

from tried_library import TOP, take_library

from quick_start.install import install, version_of
from quick_start.joining import glibc_of, symbols
from quick_start.sources import SHARED, STATIC

HEADER = (TOP / "libvdpm.h").read_text(encoding="utf-8")
DECLARED = re.compile(r"^(?:uint32_t|void) (vdpm_\w+)\(", re.MULTILINE)
CALLER = """#include <libvdpm.h>
int main(void) {
    vdpm_viewer viewer = VDPM_CLOSED;
    uint64_t place = 0;
    const uint8_t none = 0;
    return vdpm_open(&none, 0, 0, &viewer, &place) == 22 ? 0 : 1;
}
"""
PROJECT = """cmake_minimum_required(VERSION 3.10)
project(caller C)
find_package(vdpm @VERSION@ REQUIRED)
add_executable(shared caller.c)
target_link_libraries(shared vdpm::vdpm)
add_executable(static caller.c)
target_link_libraries(static vdpm::static)
"""


def setUpModule() -> None:
    take_library()
    for name in ("cc", "nm", "readelf", "objcopy"):
        if shutil.which(name) is None:
            raise unittest.SkipTest(f"there is no {name}")


def said(*words: object, **settings: str) -> str:
    done = subprocess.run([str(it) for it in words], stdout=subprocess.PIPE, check=True, text=True,
                          env={**os.environ, **settings})
    return done.stdout


def seen(*words: object) -> List[str]:
    """The names that nm prints, in order."""
    lines = (line.split() for line in said("nm", "--defined-only", *words).splitlines())
    return sorted(line[2] for line in lines if len(line) == 3)


class InRoom(unittest.TestCase):
    def setUp(self) -> None:
        room = tempfile.TemporaryDirectory(prefix="library-")
        self.addCleanup(room.cleanup)
        self.room = Path(room.name)
        self.built = Path(os.environ["VDPM_LIBRARY"]).resolve().parent
        self.caller = self.room / "caller.c"
        self.caller.write_text(CALLER, encoding="ascii")


class Files(InRoom):
    def test_they_show_the_functions_of_the_header_and_nothing_else(self) -> None:
        self.assertEqual(symbols(), sorted(DECLARED.findall(HEADER)))
        self.assertEqual(seen("-D", self.built / SHARED), symbols())
        self.assertEqual(seen("-g", self.built / STATIC), symbols())

    def test_the_shared_one_is_called_by_its_major_version(self) -> None:
        told = said("readelf", "-d", self.built / SHARED)
        self.assertIn(f"Library soname: [{SHARED}]", told)
        self.assertNotIn("TEXTREL", told)
        major = re.search(r"VDPM_VERSION_MAJOR (\d+)", HEADER)
        self.assertTrue(major)
        self.assertEqual(SHARED, f"libvdpm.so.{major and major[1]}")
        self.assertEqual(os.readlink(self.built / "libvdpm.so"), SHARED)

    def test_the_version_is_that_of_the_packages(self) -> None:
        version = version_of(TOP)
        self.assertRegex(version, r"^\d+\.\d+\.\d+$")
        cargo = TOP / "tools/plain_rust/parts/package/Cargo.toml"
        self.assertIn(f'\nversion = "{version}"\n', cargo.read_text(encoding="utf-8"))

    def test_the_glibc_that_is_asked_for_is_as_the_page_tells(self) -> None:
        page = (TOP / "docs/LIBRARY.md").read_text(encoding="utf-8")
        told = re.search(r"glibc 2\.(\d+)", page)
        asked = glibc_of((self.built / SHARED).read_bytes())
        self.assertLessEqual(asked, int(told[1]) if told else 0)

    def test_two_archives_go_into_one_program(self) -> None:
        other, archive = self.room / "other.o", self.room / "libother.a"
        names = [f"--redefine-sym={name}=other_{name}" for name in symbols()]
        words = ["cc", "-r", "-nostdlib", "-Wl,--whole-archive", self.built / STATIC, "-o", other]
        said(*words)
        said("objcopy", *names, other)
        said("ar", "rcs", archive, other)
        both = ["-Wl,--whole-archive", self.built / STATIC, archive, "-Wl,--no-whole-archive"]
        said("cc", f"-I{TOP}", self.caller, *both, "-o", self.room / "both")
        said(self.room / "both")


class Installed(InRoom):
    def setUp(self) -> None:
        super().setUp()
        install(TOP, self.built, self.room / "made")
        # (all may be moved together)
        self.prefix = (self.room / "made").rename(self.room / "a prefix")

    @unittest.skipUnless(shutil.which("pkg-config"), "there is no pkg-config")
    def test_pkg_config_finds_it(self) -> None:
        path = {"PKG_CONFIG_PATH": str(self.prefix / "lib/pkgconfig")}
        self.assertEqual(said("pkg-config", "--modversion", "libvdpm", **path).strip(),
                         version_of(TOP))
        flags = said("pkg-config", "--cflags", "--libs", "libvdpm", **path).strip()
        line = f"cc {self.caller} {flags} -o {self.room}/caller"
        said("sh", "-c", line)
        said(self.room / "caller", LD_LIBRARY_PATH=str(self.prefix / "lib"))

    @unittest.skipUnless(shutil.which("cmake"), "there is no cmake")
    def test_cmake_finds_it(self) -> None:
        text = PROJECT.replace("@VERSION@", version_of(TOP))
        (self.room / "CMakeLists.txt").write_text(text, encoding="ascii")
        work = self.room / "work"
        said("cmake", "-S", self.room, "-B", work, f"-DCMAKE_PREFIX_PATH={self.prefix}")
        said("cmake", "--build", work)
        for name in ("shared", "static"):
            said(work / name)

    @unittest.skipUnless(shutil.which("cmake"), "there is no cmake")
    def test_cmake_refuses_another_major_version(self) -> None:
        (self.room / "CMakeLists.txt").write_text(PROJECT.replace("@VERSION@", "99.0"),
                                                  encoding="ascii")
        words = ["cmake", "-S", str(self.room), "-B", str(self.room / "work"),
                 f"-DCMAKE_PREFIX_PATH={self.prefix}"]
        done = subprocess.run(words, capture_output=True, check=False)
        self.assertNotEqual(done.returncode, 0)
        self.assertIn(b"99.0", done.stderr)


if __name__ == "__main__":
    unittest.main()
