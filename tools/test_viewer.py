"""Tries the window: python3 tools/test_viewer.py [PROGRAM] [NAME ..]

PROGRAM is the vdpm to use, with its prepare beside it; this repository's if none is given. What
needs a browser is left out where no Chromium is found, and that is said. NAMEs choose tests, as
those of `python3 -m unittest` do: `looking.Looking`, say.
"""
import os
import sys
import unittest
from pathlib import Path

from browser import NAMES
from second_try import TriedTwice

TOOLS = Path(__file__).resolve().parent
SUBJECTS = (
    "programs", "models", "large", "serving", "films", "looking", "controls", "settings",
    "following", "gliding", "judging", "keeping", "playing", "arrays", "libraries", "worlds",
    "draping", "textured", "terrain", "exaggerating", "hollows", "upright", "sizes", "returning",
    "alone", "coming", "dresses", "stepping",
)
NO_BROWSER = "no Chromium"


def new_browser() -> None:
    """The next test gets a browser of its own, since the one before may have ended."""
    from viewer.tests.pages import browser

    browser.cache_clear()


def main() -> None:
    words = sys.argv[1:]
    if words and Path(words[0]).is_file():
        os.environ["VIEWER_TESTS_PROGRAM"] = str(Path(words.pop(0)).resolve())
    sys.path.insert(0, str(TOOLS))
    names = [f"viewer.tests.{name}" for name in words or SUBJECTS]
    suite = TriedTwice([unittest.defaultTestLoader.loadTestsFromNames(names)], new_browser)
    result = unittest.TextTestRunner(buffer=True).run(suite)
    for line in suite.saved:
        print(line)
    for reason in sorted({why for _, why in result.skipped}):
        tests = [test.id() for test, why in result.skipped if why == reason]
        classes = sorted({".".join(name.split(".")[2:4]) for name in tests})
        print(f"LEFT OUT: {len(tests)} tests, {reason}: {', '.join(classes)}")
        if reason == NO_BROWSER:
            print(f"None of these is here: {', '.join(NAMES)}")
    sys.exit(0 if result.wasSuccessful() else 1)


if __name__ == "__main__":
    main()
