"""Tries what the library packs and unpacks: python3 tools/test_library_packed.py

The library (tools/tried_library.py) is called from Python. What it packs and unpacks is compared
byte for byte with what the cases of `pack` tell, and with what tests/model/packed.py makes of the
streams of other cases; a fault with the one that the case tells.
"""
import ctypes
import hashlib
import unittest
from functools import partial
from typing import Any, Callable, Iterator, List, Set

from tried_library import TOP, Asked, all_asked, cases_of, flat, stream_length, take_library

import vdpm
from model.packed import packed
from vdpm.faults import OF_PACKED
from vdpm.library import DONE, FAULTY, NOT_SO, Handle, Told, load

OCTAHEDRON = TOP / "examples" / "octahedron.obj"


def setUpModule() -> None:
    take_library()


def streams() -> Iterator[bytes]:
    """The streams that scripts of the cases are told of, each once."""
    seen: Set[bytes] = set()
    for asked in all_asked():
        if len(asked.given) < 32 or asked.fault is not None:
            continue
        stream = asked.given[: stream_length(asked.given)]
        if stream not in seen:
            seen.add(stream)
            yield stream


def octahedron() -> bytes:
    return vdpm.build(OCTAHEDRON.read_bytes(), 0, 2)


class Packed(unittest.TestCase):
    def is_as_told(self, asked: Asked, function: Any) -> None:
        """The same bytes, or the same fault."""
        if asked.fault is None:
            made = function(asked.given)
            if asked.output is not None:
                self.assertEqual(made, asked.output)
            else:
                self.assertEqual(hashlib.sha256(made).hexdigest(), asked.digest)
            return
        with self.assertRaises(vdpm.StreamFault) as raised:
            function(asked.given)
        self.assertEqual((raised.exception.number, raised.exception.place), asked.fault)
        self.assertTrue(raised.exception.cure)

    def test_the_cases_of_pack(self) -> None:
        tried = [0, 0, 0, 0]
        for asked in cases_of("pack"):
            does: Callable[..., bytes] = vdpm.pack
            if len(asked.words) == 3:
                does = partial(vdpm.unpack, records=int(asked.words[2]))
            elif asked.words:
                does = vdpm.unpack
            with self.subTest(asked.name):
                self.is_as_told(asked, does)
            tried[len(asked.words)] += 1
        self.assertGreater(tried[0], 10)
        self.assertGreater(tried[1], 100)
        self.assertGreater(tried[3], 50)

    def test_streams_come_back_and_are_packed_as_the_model_packs_them(self) -> None:
        tried = 0
        for stream in streams():
            with self.subTest(tried):
                it = vdpm.pack(stream)
                self.assertEqual(vdpm.unpack(it), stream)
                if len(stream) < 20_000:
                    self.assertEqual(it, packed(stream))
            tried += 1
        self.assertGreater(tried, 5)

    def test_what_is_packed_opens(self) -> None:
        stream = octahedron()
        with vdpm.Session(stream) as plain, vdpm.Session(vdpm.pack(stream)) as session:
            self.assertEqual(session.sizes(), plain.sizes())
            self.assertEqual(flat(session.frame().faces), flat(plain.frame().faces))

    def test_what_is_no_packed_text_opens_nothing(self) -> None:
        it = vdpm.pack(octahedron())
        for data, number in ((it[:-1], 35), (it + b"\0", 36), (b"VDPK\2" + it[5:], 34)):
            with self.subTest(number), self.assertRaises(vdpm.StreamFault) as raised:
                vdpm.Session(data)
            self.assertEqual((raised.exception.number, raised.exception.place), (number, None))
            self.assertEqual(raised.exception.cure, OF_PACKED[number][2])

    def test_a_byte_that_is_cut_off_is_told(self) -> None:
        for data, place in ((b"", 0), (octahedron()[:-1], len(octahedron()) - 1)):
            with self.subTest(place), self.assertRaises(vdpm.StreamFault) as raised:
                vdpm.pack(data)
            self.assertEqual((raised.exception.number, raised.exception.place), (22, place))

    def test_the_first_records_show_what_the_whole_does(self) -> None:
        for stream in streams():
            it = vdpm.pack(stream)
            with vdpm.Session(stream) as whole:
                records = whole.sizes().records
            for count in sorted({0, records // 3, records // 2}):
                with self.subTest(count), vdpm.Session(stream) as whole, \
                        vdpm.Session(vdpm.unpack(it, records=count)) as part:
                    self.assertEqual(part.sizes().records, count)
                    for k in range(count):
                        self.assertEqual(part.split(k), whole.split(k))
                    for mine, its in zip(part.frame(), whole.frame()):
                        self.assertEqual(flat(mine), flat(its))
            self.assertEqual(vdpm.unpack(it, records=records), stream)

    def test_a_packed_text_that_is_cut_off_tells_its_first_records(self) -> None:
        it = vdpm.pack(octahedron())
        with self.assertRaises(vdpm.StreamFault) as raised:
            vdpm.unpack(it[:9], records=1)
        self.assertEqual(raised.exception.number, 35)
        self.assertEqual(vdpm.unpack(it[:-1], records=0), vdpm.unpack(it, records=0))
        for records in (-1, 2 ** 32):
            with self.subTest(records), self.assertRaises(ValueError):
                vdpm.unpack(it, records=records)

    def test_a_str_is_no_stream(self) -> None:
        functions: List[Any] = [vdpm.pack, vdpm.unpack]
        for function in functions:
            with self.assertRaises(TypeError):
                function("VDPM")


class Handles(unittest.TestCase):
    def test_a_handle_has_its_bytes_until_it_is_closed(self) -> None:
        library, made, fault = load(), Handle(None, 0), Told(7, 7)
        stream, lengths = octahedron(), (ctypes.c_size_t(), ctypes.c_size_t())
        self.assertEqual(library.vdpm_pack(stream, len(stream), made, fault), DONE)
        self.assertEqual((fault.number, fault.place), (0, 0))
        for function in (library.vdpm_pack, library.vdpm_unpack):
            self.assertEqual(function(stream, len(stream), made, fault), NOT_SO)
        self.assertEqual(library.vdpm_made_length(made, *lengths), DONE)
        self.assertEqual([it.value for it in lengths], [len(vdpm.pack(stream)), 0])
        library.vdpm_made_close(made)
        self.assertEqual(library.vdpm_made_length(made, *lengths), NOT_SO)

    def test_nothing_is_made_where_there_is_a_fault(self) -> None:
        library, made, fault = load(), Handle(None, 0), Told()
        self.assertEqual(library.vdpm_unpack(b"VDPM", 4, made, fault), FAULTY)
        self.assertEqual((fault.number, fault.place, made.open), (34, 0, 0))


if __name__ == "__main__":
    unittest.main()
