"""Tries ./prove, and how programs that were proved are run, over a kit of tests:
python3 tools/test_quick_start_proved.py"""
import shutil
import unittest

from fake_kit import write
from quick_start.sources import PROGRAMS
from tried_quick_start import OverTestKit

class Proved(OverTestKit):
    def prove(self, *names: str) -> None:
        ran = self.repository.run("prove", *names)
        self.assertEqual(ran.returncode, 0, ran.stderr)

    def test_what_was_proved_is_run_without_a_word(self) -> None:
        self.repository.run("vdpm")
        self.prove()
        for name in PROGRAMS:
            self.assertEqual(self.repository.run(name).stderr, "told\n")

    def test_it_stays_where_the_gate_empties_what_rt_made(self) -> None:
        self.prove("vdpm")
        shutil.rmtree(self.repository.top / "crates/vdpm/out")
        self.assertEqual(self.repository.run("vdpm").stderr, "told\n")

    def test_progress_is_told(self) -> None:
        said = self.repository.run("prove").stderr
        self.assertIn("prove: 2 of 7 crates done", said)
        self.assertIn("prove: vdpm is proved and built: proved/vdpm", said)

    def test_a_changed_source_or_definition_is_not_proved(self) -> None:
        for place in ("crates/low/src/lib.rt", "crates/low/specs/Low.antt"):
            self.prove("vdpm")
            self.repository.change(place, "more\n")
            for _ in range(2):
                self.assert_unproved(self.repository.run("vdpm"))

    def test_it_is_taken_again_once_the_change_is_undone(self) -> None:
        source = self.repository.top / "crates/low/src/lib.rt"
        self.prove("vdpm")
        write(source, "other\n")
        self.repository.run("vdpm")
        write(source, "low\n")
        self.assertEqual(self.repository.run("vdpm").stderr, "told\n")

    def test_another_program_in_its_place_is_not_run(self) -> None:
        self.prove("vdpm")
        write(self.repository.top / "proved/vdpm", "#!/bin/sh\necho other\n")
        self.assert_unproved(self.repository.run("vdpm"))

    def test_an_older_program_never_passes_for_one_that_was_not_built(self) -> None:
        self.prove("vdpm")
        self.repository.change("crates/vdpm/src/main.rt", "# UNBUILT\n")
        self.assertEqual(self.repository.run("prove", "vdpm").returncode, 1)
        self.assert_unproved(self.repository.run("vdpm"))

    def test_nothing_is_proved_twice(self) -> None:
        self.prove("vdpm")
        self.assertIn("vdpm is proved already", self.repository.run("prove", "vdpm").stderr)

    def test_an_open_goal_is_named(self) -> None:
        self.repository.change("crates/vdpm/src/main.rt", "# OPEN\n")
        ran = self.repository.run("prove", "vdpm")
        self.assertEqual(ran.returncode, 1)
        self.assertIn("crate vdpm is not proved", ran.stderr)
        self.assertIn("crates/vdpm: src/main.rt:1:2: it is not proved that one is two", ran.stderr)
        self.assert_unproved(self.repository.run("vdpm"))

    def test_sources_that_do_not_compile_are_named(self) -> None:
        self.repository.change("crates/vdpm/src/main.rt", "# REFUSED\n")
        ran = self.repository.run("prove", "vdpm")
        self.assertEqual(ran.returncode, 70)
        self.assertIn("src/main.rt:1:3: error[odd]: a word is odd", ran.stderr)

    def test_a_proof_that_is_stopped_from_outside_says_so(self) -> None:
        self.repository.change("crates/vdpm/src/main.rt", "# STOPPED\n")
        ran = self.repository.run("prove", "vdpm")
        self.assertEqual(ran.returncode, 70)
        self.assertIn("rt was stopped by signal 15", ran.stderr)

    def test_status_tells_what_stands(self) -> None:
        self.prove("prepare")
        self.repository.run("vdpm")
        said = self.repository.run("prove", "--status").stdout
        self.assertIn("proved/vdpm: not built\n", said)
        self.assertIn("unproved/vdpm: not proved, run-time checks on; of these sources\n", said)
        self.assertIn("proved/prepare: proved; of these sources\n", said)
        self.assertIn("by a kit of tests 1\n", said)
        self.repository.change("crates/prepare/src/main.rt", "# more\n")
        self.assertIn("prepare: proved; of other sources than these, so it isn't run",
                      self.repository.run("prove", "--status").stdout)

    def version_told(self) -> str:
        ran = self.repository.run("prepare", "--version")
        self.assertEqual((ran.returncode, ran.stderr), (0, ""))
        return ran.stdout

    def test_version_tells_of_what_would_be_run(self) -> None:
        missing = "not built of these sources yet: the next run builds it\n"
        self.assertTrue(self.version_told().startswith("prepare "))
        self.assertTrue(self.version_told().endswith(missing))
        self.assertEqual(self.repository.built(), 0)
        self.repository.run("prepare")
        self.assertIn("\nnot proved, run-time checks are on\n", self.version_told())
        self.prove("prepare")
        self.assertIn("\nproved\n", self.version_told())
        self.assertIn(" by a kit of tests 1\nof these sources, sha256 ", self.version_told())
        self.repository.change("crates/prepare/src/main.rt", "# more\n")
        self.assertTrue(self.version_told().endswith(missing))

    def test_no_place_for_what_was_proved(self) -> None:
        write(self.repository.top / "proved", "a file in the folder's place")
        ran = self.repository.run("prove", "vdpm")
        self.assertEqual(ran.returncode, 70)
        self.assertNotIn("Traceback", ran.stderr)

    def test_words_that_are_not_understood(self) -> None:
        self.assertEqual(self.repository.run("prove", "other").returncode, 2)


if __name__ == "__main__":
    unittest.main()
