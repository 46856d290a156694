"""Tries that the Python of the repository is of one style: python3 tests/test_python.py

Each function tells the types of what it takes and answers, and no line has more than 100 columns.
"""
import ast
import unittest
from pathlib import Path
from typing import Iterator, List

TOP = Path(__file__).resolve().parent.parent
FOLDERS = ("benches", "docs", "tests", "tools")
WIDTH = 100


def files() -> List[Path]:
    found = [path for folder in FOLDERS for path in (TOP / folder).rglob("*.py")]
    return sorted(path for path in found if "__pycache__" not in path.parts)


def without_types(text: str) -> Iterator[str]:
    """The functions that don't tell a type."""
    for node in ast.walk(ast.parse(text)):
        if isinstance(node, (ast.FunctionDef, ast.AsyncFunctionDef)):
            given = node.args
            taken = [*given.posonlyargs, *given.args, *given.kwonlyargs, given.vararg, given.kwarg]
            named = [arg for arg in taken if arg is not None and arg.arg not in ("self", "cls")]
            if node.returns is None or any(arg.annotation is None for arg in named):
                yield f"{node.name} in line {node.lineno}"


class Style(unittest.TestCase):
    def test_there_are_files(self) -> None:
        self.assertTrue(files())

    def test_functions_tell_their_types(self) -> None:
        for path in files():
            text = path.read_text(encoding="utf-8")
            self.assertEqual(list(without_types(text)), [], path)

    def test_a_function_without_types_is_found(self) -> None:
        text = "def a(x: int, *y) -> int:\n    pass\n\nclass B:\n    def c(self):\n        pass\n"
        self.assertEqual(list(without_types(text)), ["a in line 1", "c in line 5"])

    def test_lines_are_as_wide_as_is_agreed(self) -> None:
        for path in files():
            lines = path.read_text(encoding="utf-8").splitlines()
            long = [i for i, line in enumerate(lines, 1) if len(line) > WIDTH]
            self.assertEqual(long, [], path)


if __name__ == "__main__":
    unittest.main()
