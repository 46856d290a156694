"""A second try of tests in a browser, which may fail where the machine does much else."""
import re
import unittest
from typing import Callable, Dict, Iterable, List, Tuple

MOST = 3  # tests that may fail at first in a run that passes
Failures = List[Tuple[unittest.TestCase, str]]


class TriedTwice(unittest.TestSuite):
    """Tests, after which those with a page that failed are run once more, each by itself. Where
    that passes it is told in `saved`, and the test has passed. Where more than MOST failed nothing
    is run again."""

    def __init__(self, tests: Iterable[unittest.TestSuite], before: Callable[[], object]) -> None:
        """`before` is called before each test that is run again."""
        super().__init__(tests)
        self.before = before
        self.saved: List[str] = []

    def run(self, result: unittest.TestResult, debug: bool = False) -> unittest.TestResult:
        super().run(result, debug)
        failed: Dict[unittest.TestCase, str] = {}
        for test, told in result.failures + result.errors:
            failed[whole(test)] = told
        again = {test: told for test, told in failed.items() if hasattr(test, "page")}
        for test, told in again.items() if len(again) <= MOST else ():
            second = unittest.TestResult()
            second.buffer = result.buffer
            self.before()
            unittest.TestSuite([test]).run(second)
            if second.wasSuccessful():
                result.failures, result.errors = (
                    without(test, them) for them in (result.failures, result.errors)
                )
                self.saved.append(f"TRIED TWICE: {test.id()}: {last_line(told)}")
            for one, more in second.failures + second.errors:
                result.failures.append((one, f"The second time:\n{more}"))
        return result


def whole(test: unittest.TestCase) -> unittest.TestCase:
    """The test that a part of a test is of, or itself."""
    found: unittest.TestCase = getattr(test, "test_case", test)
    return found


def last_line(told: str) -> str:
    """The last line of a failure, before what the test has written."""
    return re.split(r"\n(?:Stdout|Stderr):\n", told)[0].rstrip().splitlines()[-1]


def without(test: unittest.TestCase, failures: Failures) -> Failures:
    return [(other, told) for other, told in failures if whole(other) is not test]
