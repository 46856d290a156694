"""Tries the model's first records: python3 tests/test_model_prefix.py"""
import unittest
from random import Random
from typing import List, Set

from model import answer
from model.faults import Fault
from model.front import judge_hierarchy
from model.hierarchy import Hierarchy
from model.packed import first_unpacked, packed_words
from model.prefix import first_records
from model.script import Session, serve
from model.shown import frame_text
from model.stream import read_stream, stream_text
from random_inputs import random_stream
from random_meshes import random_mesh
from worked import OCTAHEDRON_STREAM, stream_of

WITH_A_RECORD = stream_of(
    *(1, 5, 4, 4, 1),
    *(0, -100, 0, 1, 1, 0, 0, -100, 1, 2, 50, 50, 0, 1, 3, -50, 0, 50, 2, 0),
    *(0, 2, 4, 1, 3, 2, 1, 2, 0, 3, 1, 3, 2, 0, 1, 4),
    *(3, 1, -100, 0, 0, 4, 0, 0, 100, 5, 3),
    *(2, 3, 4, 5, 2, 4, 3, 0, 4, 6, 7, 3),
)


def is_valid(h: Hierarchy) -> bool:
    """Seldom a random place is out of range."""
    return answer("vdpm", ["check"], stream_text(h, 0)).status == 0


def hierarchies(count: int) -> List[Hierarchy]:
    """Random hierarchies with records."""
    rngs = [Random(f"prefix {number}") for number in range(count)]
    made = [random_stream(rng, random_mesh(rng))[0] for rng in rngs]
    return [h for h in made if 0 < len(h.records) <= 60 and is_valid(h)]


def random_front(rng: Random, h: Hierarchy, n: int) -> Set[int]:
    """Some of the first n records, each with the one that made the node which it splits."""
    split: Set[int] = set()
    for k in range(n):
        maker = h.nodes[h.records[k].s].maker
        if (maker is None or maker in split) and rng.random() < 0.7:
            split.add(k)
    return split


def random_moves(rng: Random, n: int) -> bytes:
    moves = [f"{rng.choice('ssc')} {rng.randrange(n)}" for _ in range(2 * n)]
    return "\n".join(moves + ["w", "m", "t"]).encode()


class FirstRecords(unittest.TestCase):
    def test_the_first_record_of_the_octahedron(self) -> None:
        first = first_records(read_stream(OCTAHEDRON_STREAM).hierarchy, 1)
        self.assertEqual(stream_text(first, 0), WITH_A_RECORD)

    def test_each_front_shows_what_the_whole_shows(self) -> None:
        for number, h in enumerate(hierarchies(60)):
            rng = Random(number)
            n = rng.randint(0, len(h.records))
            first = first_records(h, n)
            for split in (set(range(n)), random_front(rng, h, n)):
                self.assertEqual(frame_text(first, split), frame_text(h, split))

    def test_moves_have_the_replies_of_the_whole(self) -> None:
        for number, h in enumerate(hierarchies(30)):
            rng = Random(number)
            n = rng.randint(1, len(h.records))
            script = random_moves(rng, n)
            replies = [serve(Session(it, 0), script) for it in (first_records(h, n), h)]
            self.assertEqual(*replies)

    def test_they_are_valid_where_the_whole_is(self) -> None:
        for number, h in enumerate(hierarchies(60)):
            n = Random(number).randint(0, len(h.records))
            first = read_stream(stream_text(first_records(h, n), 0)).hierarchy
            judge_hierarchy(first)
            self.assertEqual(len(first.leaf_nodes()), len(h.roots) + n)

    def test_the_first_of_the_first_are_the_first(self) -> None:
        for number, h in enumerate(hierarchies(30)):
            rng = Random(number)
            n = rng.randint(0, len(h.records))
            m = rng.randint(0, n)
            again = first_records(first_records(h, n), m)
            self.assertEqual(stream_text(again, 0), stream_text(first_records(h, m), 0))


class Beginnings(unittest.TestCase):
    def test_a_longer_beginning_tells_no_less(self) -> None:
        """What is told of all records is what the whole has of as many."""
        for h in hierarchies(8):
            packed = packed_words(stream_text(h, 0))
            told = 0
            for length in range(5, len(packed), 7):
                try:
                    text = first_unpacked(packed[:length], len(h.records))
                except Fault as fault:
                    self.assertEqual((fault.number, told), (35, 0))
                    continue
                count = len(read_stream(text).hierarchy.records)
                self.assertEqual(text, stream_text(first_records(h, count), 0))
                self.assertGreaterEqual(count, told)
                told = count

    def test_numbers_of_records_are_understood_exactly(self) -> None:
        packed = packed_words(OCTAHEDRON_STREAM)
        for number in ("", "x", "-1", "01", "+1", "4294967296"):
            words = ["--unpack", "--records", number]
            self.assertEqual(answer("pack", words, packed).status, 2)
        whole = answer("pack", ["--unpack", "--records", "4294967295"], packed)
        self.assertEqual(whole.output, OCTAHEDRON_STREAM)


if __name__ == "__main__":
    unittest.main()
