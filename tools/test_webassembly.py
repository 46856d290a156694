"""Tries how a compiler for WebAssembly is chosen: python3 tools/test_webassembly.py"""
import sys
import tempfile
import unittest
from pathlib import Path
from typing import List, Tuple

sys.path.insert(0, str(Path(__file__).resolve().parent))

from plain_rust.webassembly import (INSTALL, MODULE, TARGET, Compiler, NotBuilt,  # noqa: E402
                                    build, compilers, least_version, ways)

STD = f"lib/rustlib/{TARGET}/lib/libstd-1.rlib"
SOURCES = "lib/rustlib/src/rust/library/std/Cargo.toml"
VENDOR = "lib/rustlib/src/rust/library/vendor/one/Cargo.toml"
LEAST = (1, 65)
# A rustc that answers as one does, and leaves a module where it is told to.
RUSTC = """#!/bin/sh
case "$1 $2" in
"--version "*) echo "rustc VERSION (a day)" ;;
"--print sysroot") echo "SYSROOT" ;;
*) test "$RUSTC_BOOTSTRAP" = 1 || exit 9
   while test "$1" != -o; do shift; done
   printf '\\000asm' > "$2" ;;
esac
"""
CARGO = f"""#!/bin/sh
mkdir -p target/{TARGET}/release
echo "$@" > words
printf '\\000asmcargo' > {MODULE}
"""


class Ways(unittest.TestCase):
    def setUp(self) -> None:
        self.room = tempfile.TemporaryDirectory(prefix="ways-")
        self.addCleanup(self.room.cleanup)
        self.top = Path(self.room.name)
        (self.top / "package/src").mkdir(parents=True)
        (self.top / "package/Cargo.toml").write_text('rust-version = "1.65"\n', encoding="ascii")

    def script(self, name: str, text: str) -> str:
        path = self.top / name
        path.parent.mkdir(parents=True, exist_ok=True)
        path.write_text(text, encoding="ascii")
        path.chmod(0o755)
        return str(path)

    def compiler(self, name: str, version: str, *files: str) -> Tuple[str, str]:
        """Where a compiler and its cargo are that have these files."""
        sysroot = self.top / name
        for file in files:
            (sysroot / file).parent.mkdir(parents=True, exist_ok=True)
            (sysroot / file).write_text("", encoding="ascii")
        said = RUSTC.replace("VERSION", version).replace("SYSROOT", str(sysroot))
        return self.script(f"{name}/rustc", said), self.script(f"{name}/cargo", CARGO)

    def told(self, *places: Tuple[str, str]) -> List[str]:
        return [way.told for _, way in ways(list(compilers(places)), LEAST)]

    def test_the_oldest_compiler_is_read(self) -> None:
        self.assertEqual(least_version(self.top / "package"), LEAST)

    def test_a_ready_std_goes_before_its_sources(self) -> None:
        place = self.compiler("new", "1.95.0", SOURCES, STD)
        self.assertEqual(self.told(place), ["the target's std of", "the sources of std of"])

    def test_an_old_compiler_comes_last(self) -> None:
        old, new = self.compiler("old", "1.63.0", STD), self.compiler("new", "1.96.0", SOURCES)
        self.assertEqual(self.told(old, new), ["the sources of std of", "the older"])

    def test_what_lacks_std_or_is_too_old_is_no_way(self) -> None:
        places = self.compiler("bare", "1.95.0"), self.compiler("older", "1.62.0", STD)
        self.assertEqual(self.told(*places), [])

    def test_a_compiler_counts_once(self) -> None:
        place = self.compiler("new", "1.95.0", STD)
        self.assertEqual(list(compilers([place, place, ("/no/rustc", "/no/cargo")])),
                         [Compiler(place[0], place[1], (1, 95), self.top / "new")])

    def test_vendored_sources_need_no_network(self) -> None:
        place = self.compiler("web", "1.96.0", SOURCES, VENDOR)
        said = build(self.top / "package", self.top / "out.wasm", [place])
        self.assertEqual(said, "the sources of std of rustc 1.96")
        words = (self.top / "package/words").read_text(encoding="ascii")
        for wanted in ("--offline", "build-std=std,panic_abort", "source.vendor.directory="):
            self.assertIn(wanted, words)
        self.assertEqual((self.top / "out.wasm").read_bytes(), b"\0asmcargo")

    def test_an_old_compiler_makes_it_without_cargo(self) -> None:
        rustc, _ = self.compiler("old", "1.63.0", STD)
        said = build(self.top / "package", self.top / "out.wasm", [(rustc, "/no/cargo")])
        self.assertEqual(said, "the older rustc 1.63")
        self.assertEqual((self.top / "out.wasm").read_bytes(), b"\0asm")

    def test_where_none_is_here_it_is_told_what_to_install(self) -> None:
        with self.assertRaises(NotBuilt) as raised:
            build(self.top / "package", self.top / "out.wasm", [("/no/rustc", "/no/cargo")])
        self.assertEqual(str(raised.exception), INSTALL)
        self.assertFalse((self.top / "out.wasm").exists())


if __name__ == "__main__":
    unittest.main()
