"""Tries what looks over the Python and the modules: python3 tests/test_lint.py"""
import contextlib
import io
import unittest
from typing import List, Tuple
from unittest import mock

import lint


class Linting(unittest.TestCase):
    def ended(self, installed: List[str], clean: List[str], names: List[str]) -> Tuple[int, str]:
        """The status and what is said where these are installed, and these find nothing."""
        said = io.StringIO()
        with mock.patch("shutil.which", lambda name: name if name in installed else None), \
                mock.patch.object(lint, "is_clean", lambda name: name in clean), \
                contextlib.redirect_stdout(said), contextlib.redirect_stderr(said):
            status = lint.main(names)
        return status, said.getvalue()

    def test_each_that_is_installed_counts(self) -> None:
        status, said = self.ended(["flake8", "mypy"], ["flake8", "mypy"], [])
        self.assertEqual((status, said.splitlines()[-1]), (0, "2 passed, 0 failed"))
        self.assertIn("LEFT OUT: tsc isn't installed (Debian's package node-typescript", said)

    def test_what_is_found_fails(self) -> None:
        status, said = self.ended(["flake8", "mypy"], ["mypy"], [])
        self.assertEqual((status, said.splitlines()[-1]), (1, "1 passed, 1 failed"))

    def test_none_is_no_failure(self) -> None:
        status, said = self.ended([], [], ["mypy"])
        self.assertEqual((status, said.splitlines()[-1]), (0, "0 passed, 0 failed"))

    def test_another_word_is_refused(self) -> None:
        self.assertEqual(self.ended([], [], ["black"])[0], 2)

    def test_files_of_a_program_go_into_the_room(self) -> None:
        for words in lint.words_of("mypy", "/room"):
            self.assertEqual(words[:3], ["mypy", "--cache-dir", "/room"])


if __name__ == "__main__":
    unittest.main()
