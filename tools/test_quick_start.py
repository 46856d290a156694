"""Tries how the programs build and choose what they run, over a kit of tests.

    python3 tools/test_quick_start.py [--real]

With --real the kit on the path and cargo are tried too, which takes some minutes.
"""
import os
import shutil
import signal
import subprocess
import sys
import time
import unittest

from fake_kit import write
from tried_quick_start import NOTICE, SCRIPT, OverTestKit

class Unproved(OverTestKit):
    def test_output_and_status_are_the_programs_own(self) -> None:
        ran = self.repository.run("vdpm", given="in")
        self.assertEqual(ran.stdout, "in")
        self.assert_unproved(ran)
        self.assert_unproved(self.repository.run("prepare"), "prepare")

    def test_built_once_and_then_run_at_once(self) -> None:
        self.repository.run("vdpm")
        ran = self.repository.run("vdpm")
        self.assertEqual(ran.stderr, f"vdpm: {NOTICE}\ntold\n")
        self.assertEqual(self.repository.built(), 1)

    def test_a_changed_source_is_built_anew(self) -> None:
        self.repository.run("vdpm")
        self.repository.change("crates/low/src/lib.rt", "more\n")
        self.assert_unproved(self.repository.run("vdpm"))
        self.assertEqual(self.repository.built(), 2)

    def test_a_source_put_back_with_an_old_time_is_built_anew(self) -> None:
        self.repository.run("vdpm")
        source = self.repository.top / "crates/vdpm/src/main.rt"
        write(source, SCRIPT + "#\n")
        os.utime(source, (1, 1))
        self.assert_unproved(self.repository.run("vdpm"))
        self.assertEqual(self.repository.built(), 2)

    def test_a_source_taken_away_is_noticed(self) -> None:
        self.repository.change("crates.txt", "# one line more\n")
        write(self.repository.top / "crates/low/src/more.rt", "more\n")
        self.repository.run("vdpm")
        (self.repository.top / "crates/low/src/more.rt").unlink()
        self.repository.run("vdpm")
        self.assertEqual(self.repository.built(), 2)

    def test_what_does_not_count_builds_nothing(self) -> None:
        self.repository.run("vdpm")
        (self.repository.top / "crates/low/src/lib.rt").touch()
        self.repository.change("crates/low/specs/Low.antt", "more\n")
        self.repository.change("crates/prepare/src/main.rt", "# more\n")
        for _ in range(2):
            self.assertEqual(self.repository.run("vdpm").stderr, f"vdpm: {NOTICE}\ntold\n")
        self.assertEqual(self.repository.built(), 1)

    def test_another_file_in_its_place_is_not_run(self) -> None:
        self.repository.run("vdpm")
        write(self.repository.top / "unproved/vdpm", "#!/bin/sh\necho other\n")
        self.assert_unproved(self.repository.run("vdpm"))
        self.assertEqual(self.repository.built(), 2)


class Together(OverTestKit):
    def test_two_at_once_build_once(self) -> None:
        self.repository.change("crates/vdpm/src/main.rt", "# SLOW\n")
        first = self.begun()
        second = self.repository.start("vdpm")
        assert second.stderr is not None
        self.assertIn("waiting", second.stderr.readline())
        write(self.repository.kit / "bin/go", "")
        said = [one.communicate()[1] for one in (first, second)]
        self.assertEqual([one.returncode for one in (first, second)], [3, 3], said)
        self.assertEqual(self.repository.built(), 1)
        self.assertNotIn("waiting", said[0])

    def begun(self) -> "subprocess.Popen[str]":
        """A build that has begun, and ends once the kit has its file `bin/go`."""
        count = self.repository.built()
        begun = self.repository.start("vdpm")
        while self.repository.built() == count:
            time.sleep(0.02)
        return begun

    def test_a_build_that_was_stopped_leaves_nothing_behind(self) -> None:
        for ended_by in (signal.SIGKILL, signal.SIGTERM):
            self.repository.change("crates/vdpm/src/main.rt", "# SLOW\n")
            begun = self.begun()
            os.killpg(begun.pid, ended_by)
            begun.communicate()
            self.assertFalse((self.repository.top / "unproved/vdpm.record").exists())
            write(self.repository.kit / "bin/go", "")
            self.assert_unproved(self.repository.run("vdpm"))
            (self.repository.kit / "bin/go").unlink()
            left = sorted(it.name for it in (self.repository.top / "unproved").iterdir())
            self.assertEqual(left, ["vdpm", "vdpm.lock", "vdpm.record"])
            (self.repository.top / "unproved/vdpm.record").unlink()


class NotBuilt(OverTestKit):
    def test_sources_that_do_not_compile(self) -> None:
        self.repository.run("vdpm")
        self.repository.change("crates/vdpm/src/main.rt", "# REFUSED\n")
        ran = self.repository.run("vdpm")
        self.assert_not_built(ran, "don't compile", "main.rt:1:3: error[odd]: a word is odd")

    def test_no_kit_and_a_kit_that_lacks_a_tool(self) -> None:
        ran = self.repository.run("vdpm", path="/usr/bin:/bin")
        names = ("rt", "cargo", "python3")
        found = [shutil.which(name, path="/usr/bin:/bin") for name in names]
        if found[:2] == [None, None] and found[2] is not None:
            self.assert_not_built(ran, "vdpm: the command rt of the Rattle kit isn't on the path")
            self.assertEqual(len(ran.stderr.splitlines()), 1)
        (self.repository.kit / "bin/rattle-link").unlink()
        ran = self.repository.run("vdpm")
        self.assert_not_built(ran, "lacks bin/rattle-link")
        self.assertEqual(len(ran.stderr.splitlines()), 1)

    def test_a_folder_that_cannot_be_written(self) -> None:
        write(self.repository.top / "unproved", "a file in the folder's place")
        ran = self.repository.run("vdpm")
        self.assert_not_built(ran, "nothing can be written to")
        self.assertEqual(len(ran.stderr.splitlines()), 1)

    def test_a_kit_that_works_otherwise_proves(self) -> None:
        self.repository.change("crates/vdpm/src/main.rt", "# OTHERWISE\n")
        ran = self.repository.run("vdpm")
        self.assertIn("this kit builds nothing without a proof, so ./prove vdpm begins", ran.stderr)
        self.assertNotIn(NOTICE, ran.stderr)
        self.assertEqual(ran.returncode, 3)


if __name__ == "__main__":
    if "--real" in sys.argv:
        sys.argv.remove("--real")
        from real_quick_start import OverRealCargo, OverRealKit  # noqa: F401
    unittest.main()
