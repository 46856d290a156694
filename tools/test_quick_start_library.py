"""Tries how ./prove builds the library, over a kit of tests:
python3 tools/test_quick_start_library.py"""
import os
import shutil
import subprocess
import sys
import unittest

from fake_kit import write
from tried_quick_start import OverTestKit

class Library(OverTestKit):
    def setUp(self) -> None:
        super().setUp()
        self.archive, self.shared = (self.repository.top / f"proved/libvdpm.{end}"
                                     for end in ("a", "so.1"))

    def status(self) -> str:
        return self.repository.run("prove", "--status").stdout

    def test_both_are_built_and_told(self) -> None:
        ran = self.repository.run("prove", "libvdpm")
        self.assertEqual(ran.returncode, 0, ran.stderr)
        self.assertIn("prove: 2 crates,", ran.stderr)
        self.assertIn("libvdpm is proved and built: proved/libvdpm.a and proved/libvdpm.so.1\n",
                      ran.stderr)
        for built in (self.archive, self.shared):
            self.assertEqual(built.read_text(), "a library\n")
            self.assertIn(f"proved/{built.name}: proved; of these sources\n", self.status())
        left = sorted(it.name for it in self.archive.parent.iterdir())
        names = [self.archive.name, self.shared.name]
        records = [f"{name}.record" for name in names]
        self.assertEqual(left, sorted([*names, *records, "libvdpm.so"]))
        self.assertEqual(os.readlink(self.shared.with_suffix("")), "libvdpm.so.1")

    def test_programs_alone_are_proved_without_words(self) -> None:
        self.assertEqual(self.repository.run("prove").returncode, 0)
        self.assertFalse(self.shared.exists())
        self.assertIn("proved/libvdpm.so.1: not built\n", self.status())

    def test_beside_a_program(self) -> None:
        ran = self.repository.run("prove", "vdpm", "libvdpm")
        self.assertEqual(ran.returncode, 0, ran.stderr)
        self.assertTrue(self.shared.exists())
        self.assertEqual(self.repository.run("vdpm").stderr, "told\n")

    def test_nothing_is_proved_twice_unless_one_of_the_two_is_another(self) -> None:
        self.repository.run("prove", "libvdpm")
        again = self.repository.run("prove", "libvdpm").stderr
        self.assertIn("libvdpm is proved already", again)
        for built in (self.archive, self.shared):
            write(built, "other\n")
            self.assertIn(f"proved/{built.name}: proved; is another file than was built\n",
                          self.status())
            self.repository.run("prove", "libvdpm")
            self.assertEqual(built.read_text(), "a library\n")

    def test_other_sources_are_told(self) -> None:
        self.repository.run("prove", "libvdpm")
        self.repository.change("crates/low/specs/Low.antt", "more\n")
        self.assertIn("proved/libvdpm.so.1: proved; of other sources than these\n", self.status())

    def test_an_open_goal_is_named_and_nothing_built(self) -> None:
        self.repository.change("crates/vdpm_c/src/lib.rt", "# OPEN\n")
        ran = self.repository.run("prove", "libvdpm")
        self.assertEqual(ran.returncode, 1)
        self.assertIn("crate vdpm_c is not proved", ran.stderr)
        self.assertFalse(self.shared.exists())

    def test_an_older_library_never_passes_for_one_that_was_not_built(self) -> None:
        self.repository.run("prove", "libvdpm")
        self.repository.change("crates/vdpm_c/src/lib.rt", "# UNBUILT\n")
        self.assertEqual(self.repository.run("prove", "libvdpm").returncode, 1)
        self.assertIn("proved/libvdpm.a: proved; of other sources than these\n", self.status())

    def test_without_a_c_compiler_nothing_is_begun(self) -> None:
        tools = self.repository.kit / "tools"
        tools.mkdir()
        for name in ("bash", "sh", "cat", "dirname", "python3"):
            (tools / name).symlink_to(shutil.which(name) or name)
        (self.repository.kit / "bin/cc").unlink()
        ran = self.repository.run("prove", "libvdpm", path=f"{self.repository.kit}/bin:{tools}")
        self.assert_not_built(ran, "the library needs a C compiler, and cc isn't on the path")
        self.assertFalse((self.repository.top / "build.log").exists())

    def test_it_is_no_program_to_run(self) -> None:
        words = [sys.executable, str(self.repository.top / "tools/programs.py"), "build", "libvdpm"]
        self.assertEqual(subprocess.run(words, capture_output=True, check=False).returncode, 2)


if __name__ == "__main__":
    unittest.main()
