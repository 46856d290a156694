"""Tries how ./test counts what its parts tell: python3 tests/test_parts.py"""
import contextlib
import io
import tempfile
import unittest
from pathlib import Path
from typing import List, Optional, Tuple
from unittest import mock

import parts
from parts import Count, Run


class Counting(unittest.TestCase):
    def test_the_last_line_counts(self) -> None:
        rows = [
            (Run(0, "1 passed, 9 failed\nx\n7 passed, 0 failed\n"), Count(7, 0)),
            (Run(1, "7 passed, 2 failed\n"), Count(7, 2)),
            (Run(1, "7 passed, 0 failed\n"), Count(7, 1)),
            (Run(0, "7 passed, 2 failed\n"), Count(7, 2)),
            (Run(0, "7 passed, 0 failed (pm_io alone: not the gate)\n"), parts.FAILURE),
            (Run(0, ""), parts.FAILURE),
        ]
        for run, wanted in rows:
            self.assertEqual(parts.counted(run, parts.LAST_LINE), wanted, run)

    def test_unit_tests_are_counted(self) -> None:
        rows = [
            (Run(0, "Ran 5 tests in 1s\n\nOK\n"), Count(5, 0)),
            (Run(1, "Ran 5 tests in 1s\n\nFAILED (failures=1, errors=2)\n"), Count(2, 3)),
            (Run(1, "Ran 1 test in 1s\n\nOK\n"), Count(0, 1)),
            (Run(1, "ImportError: x\n"), parts.FAILURE),
            (Run(-9, "Ran 2 tests in 1s\n\nOK\n"), Count(1, 1)),
        ]
        for run, wanted in rows:
            with mock.patch.object(parts, "ran", return_value=run):
                self.assertEqual(parts.unit_tests(Path("test_x.py"), {}), wanted, run)

    def test_what_is_left_out_is_told(self) -> None:
        text = "Ran 5 tests in 1s\n\nOK (skipped=2)\n"
        with_reason = f"{text}LEFT OUT: no Chromium\n"
        rows = [(text, "test_x.py: 2 tests"), (with_reason, "test_x.py: no Chromium")]
        for said, reason in rows:
            with mock.patch.object(parts, "ran", return_value=Run(0, said)):
                count = parts.unit_tests(Path("test_x.py"), {})
            self.assertEqual(count, Count(3, 0, (reason,)))


class Rust(unittest.TestCase):
    def told(
        self, answers: List[Run], cargo: Optional[str] = "/bin/cargo"
    ) -> Tuple[Count, List[List[str]]]:
        """What the part counts where its commands end so, and those commands."""
        with mock.patch("shutil.which", return_value=cargo):
            with mock.patch.object(parts, "ran", side_effect=answers) as ran:
                count = parts.rust({}, Path("/r"))
        return count, [call.args[0] for call in ran.call_args_list]

    def test_tests_of_cargo_are_summed(self) -> None:
        line = "test result: ok. 30 passed; 0 failed; 0 ignored; 0 measured\n"
        bad = "test result: FAILED. 2 passed; 3 failed; 0 ignored\n"
        rows = [
            (Run(0, f"{line}\n{line}"), Count(60, 0)),
            (Run(101, f"{line}{bad}"), Count(32, 3)),
            (Run(101, line), Count(30, 1)),
            (Run(0, ""), parts.FAILURE),
        ]
        for run, wanted in rows:
            self.assertEqual(parts.cargo_tests(run), wanted, run)

    def test_without_cargo_it_is_left_out(self) -> None:
        count, commands = self.told([], None)
        self.assertEqual((count.passed, count.failed, commands), (0, 0, []))
        self.assertIn("cargo isn't on the path", count.left_out[0])

    def test_what_cannot_be_made_or_built_fails(self) -> None:
        for answers in ([Run(1, "")], [Run(0, ""), Run(101, "")]):
            self.assertEqual(self.told(answers)[0], parts.FAILURE)

    def test_all_is_tried_over_what_cargo_built(self) -> None:
        tests = Run(0, "test result: ok. 30 passed; 0 failed;\n")
        cases, units = Run(0, "7 passed, 0 failed\n"), Run(0, "Ran 5 tests in 1s\n\nOK\n")
        answers = [Run(0, ""), Run(0, ""), tests, cases, *[units] * len(parts.LIBRARY_TESTS)]
        with mock.patch.object(parts, "web_module", return_value=parts.NONE):
            count, commands = self.told(answers)
        self.assertEqual(count, Count(37 + 5 * len(parts.LIBRARY_TESTS), 0))
        self.assertEqual(commands[3][2:4], ["--vdpm", "/r/target/checked/vdpm"])


class Documents(unittest.TestCase):
    def test_commands_name_the_programs_that_were_proved(self) -> None:
        given = {"vdpm": Path("/p/vdpm"), "prepare": Path("/p/prepare")}
        rows = [
            ("    $ ./vdpm canon | ./prepare 3 > x\n", "    $ /p/vdpm canon | /p/prepare 3 > x\n"),
            ("    $ ../vdpm; ./vdpm-old; cat tour/./vdpm\n", None),
            ("`./vdpm canon` says whether it fits\n", None),
            ("    ./vdpm view 5\n", None),
        ]
        for line, wanted in rows:
            self.assertEqual(parts.with_path(line, given), wanted or line)

    def test_documents_stay_where_nothing_was_proved(self) -> None:
        with tempfile.TemporaryDirectory() as room:
            path = Path(room) / "x.md"
            self.assertEqual(parts.with_paths(path, Path(room), {}), path)


class Whole(unittest.TestCase):
    def ended(self, counts: List[Count], names: List[str]) -> Tuple[int, str]:
        """The status and the last line where the parts tell these counts."""
        made = {str(i): (lambda *_, count=count: count) for i, count in enumerate(counts)}
        said = io.StringIO()
        with mock.patch.object(parts, "PARTS", made), contextlib.redirect_stdout(said):
            status = parts.main(names)
        return status, said.getvalue().splitlines()[-1]

    def test_the_parts_are_summed(self) -> None:
        counts = [Count(3, 0), Count(0, 0, ("no Chromium",)), Count(4, 0)]
        self.assertEqual(self.ended(counts, []), (0, "7 passed, 0 failed"))
        self.assertEqual(self.ended(counts, ["2"]), (0, "4 passed, 0 failed"))

    def test_it_goes_on_after_a_failing_part(self) -> None:
        counts = [Count(0, 1), Count(4, 0)]
        self.assertEqual(self.ended(counts, []), (1, "4 passed, 1 failed"))

    def test_nothing_at_all_is_no_success(self) -> None:
        self.assertEqual(self.ended([Count(0, 0)], []), (1, "0 passed, 0 failed"))

    def test_a_word_that_is_no_part_is_refused(self) -> None:
        with contextlib.redirect_stderr(io.StringIO()):
            self.assertEqual(parts.main(["nothing"]), 2)


if __name__ == "__main__":
    unittest.main()
