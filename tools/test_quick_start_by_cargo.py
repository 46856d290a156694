"""Tries how the programs and the library are built where there is no kit, over a cargo of tests:
python3 tools/test_quick_start_by_cargo.py"""
import shutil
import unittest
from pathlib import Path

from fake_kit import MAKER, make_cargo, write
from quick_start.cargo import TO_INSTALL
from tried_quick_start import SCRIPT, Ended, OverTestKit

NOTICE = "not proved on this machine yet, run-time checks are on; cargo built it"
TOOLS = ("bash", "sh", "cat", "dirname", "sha256sum", "find", "grep", "cp", "chmod", "mkdir")
LIBRARY_TOOL = Path(__file__).resolve().with_name("library.py")


class ByCargo(OverTestKit):
    def setUp(self) -> None:
        super().setUp()
        top = self.repository.top
        write(top / "tools/plain_rust.py", MAKER)
        write(top / "tools/plain_rust/rule.py", "a rule\n")
        self.tools = make_cargo(top.parent / "no kit", TOOLS)
        self.builds = self.tools / "builds"

    def run_here(self, *words: str, given: str = "") -> Ended:
        return self.repository.run(*words, given=given, path=str(self.tools))

    def built(self) -> int:
        return len(self.builds.read_text().splitlines()) if self.builds.exists() else 0

    def assert_by_cargo(self, ran: Ended, name: str = "vdpm") -> None:
        self.assertTrue(ran.stderr.endswith(f"{name}: {NOTICE}\ntold\n"), ran.stderr)
        self.assertEqual(ran.returncode, 3)


class Programs(ByCargo):
    def test_output_and_status_are_the_programs_own(self) -> None:
        ran = self.run_here("vdpm", given="in")
        self.assertEqual(ran.stdout, "in")
        self.assertIn("vdpm: building from the sources, by cargo, without a proof", ran.stderr)
        self.assert_by_cargo(ran)
        self.assert_by_cargo(self.run_here("prepare"), "prepare")

    def test_built_once_and_then_run_at_once(self) -> None:
        self.run_here("vdpm")
        self.assertEqual(self.run_here("vdpm").stderr, f"vdpm: {NOTICE}\ntold\n")
        self.assertEqual(self.built(), 1)

    def test_a_changed_source_or_rule_is_built_anew(self) -> None:
        for count, place in enumerate(("crates/low/src/lib.rt", "tools/plain_rust/rule.py")):
            self.run_here("vdpm")
            self.repository.change(place, "more\n")
            self.assert_by_cargo(self.run_here("vdpm"))
            self.assertEqual(self.built(), count + 2)

    def test_with_a_kit_it_is_the_kit_that_builds(self) -> None:
        self.run_here("vdpm")
        self.repository.change("crates/vdpm/src/main.rt", "# more\n")
        self.assert_unproved(self.repository.run("vdpm"))
        self.assertEqual((self.built(), self.repository.built()), (1, 1))

    def test_status_tells_by_what_it_was_built(self) -> None:
        self.run_here("vdpm")
        said = self.run_here("prove", "--status").stdout
        self.assertIn("unproved/vdpm: not proved, run-time checks on; of these sources\n", said)
        self.assertIn("by cargo 1.99.0 (of tests)\n", said)

    def test_proving_asks_for_the_kit(self) -> None:
        self.assert_not_built(self.run_here("prove"), "rt of the Rattle kit isn't on the path")


class NotBuilt(ByCargo):
    def test_neither_kit_nor_cargo(self) -> None:
        (self.tools / "cargo").unlink()
        ran = self.run_here("vdpm")
        self.assert_not_built(ran, "rt of the Rattle kit", "neither is cargo", TO_INSTALL)
        self.assertEqual(len(ran.stderr.splitlines()), 1)

    def test_no_linker(self) -> None:
        (self.tools / "cc").unlink()
        self.assert_not_built(self.run_here("vdpm"), "cc isn't on the path")

    def test_a_form_that_is_not_known(self) -> None:
        self.repository.change("crates/vdpm/src/main.rt", "# UNKNOWN\n")
        self.assert_not_built(self.run_here("vdpm"), "crates/vdpm/src/main.rt:1: a form")

    def test_a_compiler_that_is_too_old(self) -> None:
        self.run_here("vdpm")
        self.repository.change("crates/vdpm/src/main.rt", "# REFUSED\n")
        self.assert_not_built(self.run_here("vdpm"), "requires rustc 1.99", TO_INSTALL)
        write(self.repository.top / "crates/vdpm/src/main.rt", SCRIPT)
        self.assert_by_cargo(self.run_here("vdpm"))


class Library(ByCargo):
    def test_both_files_are_built_and_told(self) -> None:
        tool = Path(shutil.copy2(LIBRARY_TOOL, self.repository.top / "tools/library.py"))
        ran = self.run_here(str(self.tools / "python3"), str(tool))
        self.assertEqual(ran.returncode, 0)
        self.assertIn("libvdpm: building from the sources, by cargo, without a proof", ran.stderr)
        self.assertIn("unproved/libvdpm.a and unproved/libvdpm.so.1 are built", ran.stderr)
        for end in ("a", "so.1"):
            built = self.repository.top / f"unproved/libvdpm.{end}"
            self.assertEqual(built.read_text(), "a library\n")
            said = self.run_here("prove", "--status").stdout
            self.assertIn(f"unproved/{built.name}: not proved, run-time checks on; of these", said)


if __name__ == "__main__":
    unittest.main()
