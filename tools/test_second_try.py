"""Tries the second try of tests in a browser: python3 tools/test_second_try.py"""
import contextlib
import io
import unittest
from typing import List

from second_try import MOST, TriedTwice


class Fake(unittest.TestCase):
    """A test in a browser that fails so often, and then passes."""

    def __init__(self, fails: int, has_page: bool = True) -> None:
        super().__init__("check")
        self.fails = fails
        if has_page:
            self.page = None

    def __eq__(self, other: object) -> bool:
        return self is other

    def __hash__(self) -> int:
        return id(self)

    def check(self) -> None:
        self.fails -= 1
        print("this is kept")
        with self.subTest("a part"):
            self.assertLess(self.fails, 0, "late")


class Trying(unittest.TestCase):
    def setUp(self) -> None:
        self.begun = 0

    def begin(self) -> None:
        self.begun += 1

    def tried(self, *tests: Fake) -> unittest.TestResult:
        suite = TriedTwice([unittest.TestSuite(tests)], self.begin)
        with contextlib.redirect_stdout(io.StringIO()):
            self.result = unittest.TestResult()
            self.result.buffer = True
            suite.run(self.result)
        self.saved: List[str] = suite.saved
        return self.result

    def test_what_passes_then_has_passed_and_is_told(self) -> None:
        self.assertTrue(self.tried(Fake(0), Fake(1), Fake(0)).wasSuccessful())
        self.assertEqual((self.result.testsRun, self.begun), (3, 1))
        [line] = self.saved
        self.assertRegex(line, r"^TRIED TWICE: .*\.Fake\.check: AssertionError: 0 not less .*late$")

    def test_what_fails_again_fails_with_both(self) -> None:
        self.assertFalse(self.tried(Fake(2), Fake(1)).wasSuccessful())
        first, second = (told for _, told in self.result.failures)
        self.assertNotIn("The second time", first)
        self.assertRegex(second, r"^The second time:\n(.*\n)*AssertionError: 0 not less")
        self.assertEqual(len(self.saved), 1)

    def test_what_has_no_page_fails_at_once(self) -> None:
        self.assertFalse(self.tried(Fake(1, has_page=False)).wasSuccessful())
        self.assertEqual((self.saved, self.begun), ([], 0))

    def test_so_many_are_saved_and_no_more(self) -> None:
        self.assertTrue(self.tried(*(Fake(1) for _ in range(MOST))).wasSuccessful())
        self.assertEqual(len(self.saved), MOST)
        self.assertFalse(self.tried(*(Fake(1) for _ in range(MOST + 1))).wasSuccessful())
        self.assertEqual((self.saved, len(self.result.failures)), ([], MOST + 1))


if __name__ == "__main__":
    unittest.main()
