"""Tries the slots of a renderer's buffer by the library: python3 tools/test_library_slots.py"""
import ctypes
import unittest
from typing import Any, List, Sequence, Tuple

from tried_library import take_library

from vdpm.library import DONE, NONE, NO_ROOM, NOT_SO, OUT_OF_RANGE, Handle, load


def setUpModule() -> None:
    take_library()


def numbers(given: Sequence[int]) -> Any:
    return (ctypes.c_uint32 * len(given))(*given)


class Slots(unittest.TestCase):
    def setUp(self) -> None:
        self.library, self.handle = load(), Handle()
        self.slots = ctypes.byref(self.handle)

    def tearDown(self) -> None:
        self.library.vdpm_slots_close(self.slots)

    def open(self, items: int) -> int:
        return int(self.library.vdpm_slots_open(ctypes.c_uint32(items), self.slots))

    def change(self, gone: Sequence[int], put: Sequence[int],
               room: int) -> Tuple[int, List[int], List[int]]:
        """The status, what stands in 5 numbers of which the first are the room, and the sizes."""
        writes, sizes = numbers([77] * 5), numbers([77, 77])
        status = self.library.vdpm_slots_change(
            self.slots, numbers(gone), ctypes.c_size_t(len(gone)), numbers(put),
            ctypes.c_size_t(len(put)), writes, ctypes.c_size_t(room), sizes)
        return int(status), list(writes), list(sizes)

    def of(self, items: Sequence[int], room: int) -> Tuple[int, List[int]]:
        out = numbers([77] * 5)
        status = self.library.vdpm_slots_of(self.slots, numbers(items),
                                            ctypes.c_size_t(len(items)), out,
                                            ctypes.c_size_t(room))
        return int(status), list(out)

    def test_items_keep_their_slots(self) -> None:
        self.assertEqual(self.open(8), DONE)
        self.assertEqual(self.change([], [5, 2, 7], 4), (DONE, [0, 1, 2, 77, 77], [3, 3]))
        self.assertEqual(self.change([2, 5], [7, 0], 5), (DONE, [2, 1, 0, 77, 77], [3, 3]))
        self.assertEqual(self.of([7, 5, 0, 8], 5), (DONE, [2, NONE, 1, NONE, 77]))
        self.assertEqual(self.change([], [1, 3], 2), (DONE, [0, 3, 77, 77, 77], [2, 4]))

    def test_what_is_no_change_changes_nothing(self) -> None:
        self.assertEqual(self.open(4), DONE)
        self.assertEqual(self.change([], [3, 1], 5)[0], DONE)
        untold = [77] * 5, [77, 77]
        refused: List[Tuple[List[int], List[int]]] = [
            ([0], []), ([3, 3], []), ([], [4]), ([], [NONE]), ([], [0, 0]), ([3], [3]),
            ([NONE], []),
        ]
        for gone, put in refused:
            with self.subTest(gone=gone, put=put):
                self.assertEqual(self.change(gone, put, 5), (OUT_OF_RANGE, *untold))
                self.assertEqual(self.of([3, 1, 0], 3), (DONE, [0, 1, NONE, 77, 77]))

    def test_too_little_room_tells_how_much_is_wanted(self) -> None:
        self.assertEqual(self.open(4), DONE)
        self.assertEqual(self.change([], [3, 1], 1), (NO_ROOM, [77] * 5, [2, 0]))
        self.assertEqual(self.of([3, 1], 1), (NO_ROOM, [77] * 5))
        self.assertEqual(self.of([3, 1], 2), (DONE, [NONE, NONE, 77, 77, 77]))

    def test_one_that_is_not_open_and_one_that_is(self) -> None:
        self.assertEqual(self.change([], [], 0), (NOT_SO, [77] * 5, [77, 77]))
        self.assertEqual(self.of([], 0), (NOT_SO, [77] * 5))
        self.assertEqual((self.open(0), self.open(0)), (DONE, NOT_SO))
        self.assertEqual(self.change([], [], 0), (DONE, [77] * 5, [0, 0]))
        self.library.vdpm_slots_close(self.slots)
        self.assertEqual(self.of([], 0), (NOT_SO, [77] * 5))


if __name__ == "__main__":
    unittest.main()
