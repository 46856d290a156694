"""Tries what looks over the width of lines: python3 tests/test_widths.py"""
import unittest

from widths import MOST_COLUMNS, wide_lines

LONG = "x" * MOST_COLUMNS


class Widths(unittest.TestCase):
    def wide(self, kind: str, line: str) -> bool:
        return bool(list(wide_lines(kind, f"short\n{line}\n")))

    def test_a_line_of_most_columns_stands(self) -> None:
        self.assertFalse(self.wide(".py", LONG))
        self.assertEqual(list(wide_lines(".py", f"a\n{LONG}y\n")), [(2, MOST_COLUMNS + 1)])

    def test_columns_are_letters_and_not_bytes(self) -> None:
        self.assertFalse(self.wide(".antt", "≡" * MOST_COLUMNS))

    def test_an_attribute_is_one_line(self) -> None:
        self.assertFalse(self.wide(".rt", f"    #[tactic(auto, using({LONG}))]"))
        self.assertTrue(self.wide(".rt", f"    let a = {LONG};"))

    def test_an_import_of_one_name_is_one_line(self) -> None:
        self.assertFalse(self.wide(".antt", f"use Rattle.a.{{{LONG}}}"))
        self.assertTrue(self.wide(".antt", f"use Rattle.a.{{b, {LONG}}}"))

    def test_rows_pictures_and_what_is_printed_stand_in_pages(self) -> None:
        for line in (f"| a {LONG} |", f"![a {LONG}](b)", f"    $ a {LONG}", f"- {LONG}y"):
            self.assertFalse(self.wide(".md", line), line)
        self.assertTrue(self.wide(".md", f"a {LONG}"))


if __name__ == "__main__":
    unittest.main()
