"""Tries the tools for worlds: python3 tools/test_world.py [--pairs N] [NAME ..]

Random fronts of N pairs of neighbours or more are compared for each of two worlds, 20 where no
number is given. What needs the program `simplify` is left out where there is none, and that is
said. NAMEs choose tests, as those of `python3 -m unittest` do: `cutting.Fields`, say.
"""
import os
import sys
import unittest
from collections import Counter
from pathlib import Path

TOOLS = Path(__file__).resolve().parent
SUBJECTS = (
    "reading", "cutting", "whole", "memory", "building", "packing", "tiles", "others", "meeting",
    "hostile", "commands",
)  # fmt: skip


def main() -> None:
    words = sys.argv[1:]
    if words[:1] == ["--pairs"]:
        os.environ["WORLD_TESTS_PAIRS"] = words[1]
        words = words[2:]
    sys.path.insert(0, str(TOOLS))
    names = [f"worlds.tests.{name}" for name in words or SUBJECTS]
    suite = unittest.defaultTestLoader.loadTestsFromNames(names)
    result = unittest.TextTestRunner(buffer=True).run(suite)
    if result.skipped:
        reasons = Counter(reason for _, reason in result.skipped)
        told = "; ".join(f"{count} tests: {reason}" for reason, count in reasons.items())
        print(f"LEFT OUT: {told}")
    sys.exit(0 if result.wasSuccessful() else 1)


if __name__ == "__main__":
    main()
