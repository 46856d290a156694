"""Answers as a program should: python3 tests/model PROGRAM WORDS.. < input."""
import sys
from pathlib import Path

sys.path.insert(0, str(Path(__file__).resolve().parent.parent))

from model import answer  # noqa: E402


def main() -> int:
    program, *words = sys.argv[1:]
    data = b"" if words[:1] == ["demo"] else sys.stdin.buffer.read()
    status, output, error = answer(program, words, data)
    sys.stdout.buffer.write(output)
    sys.stderr.write(error)
    return status


sys.exit(main())
