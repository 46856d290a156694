"""Building a world, going on where it was stopped, and how far work is told to be."""
import io
import os
import random
import threading
import time
from concurrent.futures import Future
from dataclasses import replace
from typing import List, Tuple
from unittest import mock

from .. import building, making, progress
from ..building import Build, build_world
from ..checking import check_world
from ..form import Tile, World, WorldFault, read_world, write_world
from ..parents import within_reach
from ..mending import Mesh
from ..progress import Work, left_of
from .common import (
    SIMPLIFY, VDPM, WithWorld, grid_text, needs_simplify, random_field, read_obj, tile_faces,
)
from .cutting import ball, obj_text


class Stopped(Exception):
    pass


class GoingOn(WithWorld):
    def setUp(self) -> None:
        super().setUp()
        field = random_field(random.Random(3), 17, 17, 0.05)
        self.source = self.file("field.asc", grid_text(field, 10))

    def stopped_after(self, tiles: int) -> int:
        """Cuts until so many tiles are written; how many were written."""
        write, count = making.write_mesh, 0

        def counted(*words: object) -> None:
            nonlocal count
            if count == tiles:
                raise Stopped
            count += 1
            write(*words)  # type: ignore[arg-type]

        with mock.patch.object(making, "write_mesh", counted):
            try:
                self.cut(self.source, 60)
            except Stopped:
                pass
        return count

    def test_a_cut_goes_on_where_it_was_stopped(self) -> None:
        whole = self.cut(self.source, 60)
        wanted = [tile_faces(whole, tile) for tile in whole.level(0)]
        told = (whole.folder / "world.json").read_text()
        for path in (whole.folder / "world.json", *whole.folder.glob("tiles/*")):
            path.unlink()
        self.assertEqual(self.stopped_after(3), 3)
        self.assertFalse((whole.folder / "world.json").exists())
        with (whole.folder / "cut.journal").open("a") as journal:
            journal.write("001 {half a line")
        self.assertEqual(self.stopped_after(100), len(whole.level(0)) - 3)
        self.assertEqual((whole.folder / "world.json").read_text(), told)
        self.assertEqual([tile_faces(whole, tile) for tile in whole.level(0)], wanted)
        self.assertFalse((whole.folder / "cut.journal").exists())

    def test_another_cut_begins_anew(self) -> None:
        self.stopped_after(3)
        self.source.write_text(self.source.read_text().replace("cellsize 10", "cellsize 20"))
        world = self.cut(self.source, 60)
        self.check_tiles(world, 60)
        self.assertEqual(max(tile.high[0] for tile in world.level(0)), 320)

    def test_what_is_of_two_cuts_is_no_world(self) -> None:
        self.stopped_after(1)
        with self.assertRaisesRegex(WorldFault, "world isn't cut whole: go on by the same `cut`"):
            read_world(self.room / "world")
        write_world(replace(self.cut(self.source, 60), packed=True))
        self.source.write_text(self.source.read_text().replace("cellsize 10", "cellsize 20"))
        self.stopped_after(1)
        with self.assertRaisesRegex(WorldFault, "isn't cut whole"):
            read_world(self.room / "world" / "world.json")
        self.assertTrue(self.cut(self.source, 60).packed)
        self.assertEqual(list((self.room / "world").glob("*.before")), [])

    def test_a_tile_that_says_the_same_stays(self) -> None:
        world = self.cut(self.source, 60)
        before = {t.name: world.mesh(t).stat().st_mtime_ns for t in world.level(0)}
        lines = self.source.read_text().splitlines()
        lines[6] = lines[6].replace("-9999", "7").replace(lines[6].split()[0], "33", 1)
        self.source.write_text("\n".join(lines) + "\n")
        again = self.cut(self.source, 60)
        changed = [
            t.name for t in again.level(0) if world.mesh(t).stat().st_mtime_ns != before[t.name]
        ]
        self.assertTrue(0 < len(changed) < len(before))


@needs_simplify
class Building(WithWorld):
    def setUp(self) -> None:
        super().setUp()
        field = random_field(random.Random(12), 9, 9)
        self.world = self.cut(self.file("field.asc", grid_text(field, 10)), 32)

    def build(self, world: World, jobs: int = 2) -> int:
        work = Work(self.said.append)
        return build_world(Build(world, SIMPLIFY, VDPM, 40, jobs, work))

    def test_what_is_fresh_stays(self) -> None:
        self.assertEqual([self.build(self.world), self.build(self.world)], [5, 0])
        check_world(VDPM, self.world, 1)
        later = time.time() + 5
        os.utime(self.world.mesh(self.world.tiles["t10"]), (later, later))
        os.utime(self.world.mesh(self.world.tiles["t"]), (1, 1))
        self.world.stream(self.world.tiles["t10"]).unlink()
        self.assertEqual(self.build(self.world), 2)  # the tile and its parent

    def test_the_time_left_weighs_parents_and_leaves_out_what_is_there(self) -> None:
        self.build(self.world)
        self.world.stream(self.world.tiles["t10"]).unlink()
        work = Work(self.said.append)
        found: List[Tuple[str, str, float, float]] = []

        def begin(_: Build, tile: Tile) -> None:
            found.append((tile.name, work.doing, work.there, work.done))

        with mock.patch.object(building, "build_tile", begin):
            build_world(Build(self.world, SIMPLIFY, VDPM, 40, 1, work))
        began, built = "builds 5 tiles and parents", "built {} of 5 tiles and parents"
        self.assertEqual(found, [("t10", began, 3, 3), ("t", built.format(4), 3, 4)])
        self.assertEqual((work.doing, work.done, work.whole), (built.format(5), 25, 25))

    def test_a_build_that_is_stopped_begins_no_more_tiles(self) -> None:
        begun: List[str] = []
        over = threading.Event()

        def stopped(tasks: "List[Future[None]]", **_: object) -> None:
            if tasks:
                tasks[-1].add_done_callback(lambda _: over.set())
                tasks[0].result()
                raise KeyboardInterrupt

        def begin(_: Build, tile: Tile) -> None:
            begun.append(tile.name)
            if len(begun) > 1:
                self.assertTrue(over.wait(60))  # until the last one was cancelled

        with mock.patch.object(building, "build_tile", begin):
            with mock.patch.object(building, "wait", stopped):
                with self.assertRaises(KeyboardInterrupt):
                    self.build(self.world, 1)
        self.assertLessEqual(len(begun), 2)

    def test_a_fault_is_told_with_its_cure(self) -> None:
        path = self.world.mesh(self.world.tiles["t01"])
        path.write_bytes(b"v 40000 0 0\n" + path.read_bytes())
        with self.assertRaisesRegex(WorldFault, "t01: .*simplify: fault 6 line 1.*32,767.*prepare"):
            self.build(self.world)
        self.assertFalse(path.with_suffix(".vdpm.part").exists())

    def test_a_ball_that_takes_the_full_range(self) -> None:
        points, faces = ball(14, 28)
        wide = [tuple(32.767 * c for c in point) for point in points]
        world = self.cut(self.file("ball.obj", obj_text(wide, faces)), 200, unit=0.0)
        self.assertEqual(world.unit, 1.0)
        work = Work(self.said.append)
        build_world(Build(world, SIMPLIFY, VDPM, 150, 1, work))
        self.assertEqual(len(check_world(VDPM, world, 1)), len(world.tiles))

    def test_what_bulges_out_of_reach_is_moved_in(self) -> None:
        mesh = Mesh([(32_770, 0, 0), (0, -40_000, 9), (7, 7, 7)], [(0, 1, 2)])
        found, beyond = within_reach(mesh, (1, 0, 0))
        self.assertEqual(found.places, [(32_768, 0, 0), (0, -32_767, 9), (7, 7, 7)])
        self.assertEqual(beyond, 7_233)


class Scales(WithWorld):
    def test_a_prepared_mesh_keeps_its_own_coordinates(self) -> None:
        head = "# coordinate = 2.5 / 50 * place + (100.0 -1 7)\n"
        text = head + "v -25 0 0\nv 25 0 0\nv 0 10 1\nf 1 2 3\n"
        world = self.cut(self.file("one.obj", text), 2, unit=0.0)
        places, _ = read_obj(world.mesh(world.tiles["t"]))
        offset = world.tiles["t"].offset
        found = [
            [world.unit * (a + b) + o for a, b, o in zip(p, offset, world.origin)] for p in places
        ]
        wanted = [[98.75, -1, 7], [101.25, -1, 7], [100, -0.5, 7.05]]
        for place, other in zip(found, wanted):
            for a, b in zip(place, other):
                self.assertAlmostEqual(a, b, delta=world.unit)


class Screen(io.StringIO):
    """Where lines are shown; `seen` once something is."""

    def __init__(self, is_terminal: bool) -> None:
        super().__init__()
        self.is_terminal, self.seen = is_terminal, threading.Event()

    def isatty(self) -> bool:
        return self.is_terminal

    def write(self, text: str) -> int:
        self.seen.set()
        return super().write(text)


@mock.patch.object(progress, "_BETWEEN_LOOKS", 0.001)
@mock.patch.object(progress, "_BETWEEN_LINES", 0.0)
class Shown(WithWorld):
    def test_a_terminal_has_one_line_which_goes(self) -> None:
        screen = Screen(True)
        with Work(self.said.append, screen) as work:
            work.begin("cuts tile 3 of about 12", 0)
            self.assertTrue(screen.seen.wait(60))
        lines = screen.getvalue().split("\r\x1b[K")
        self.assertEqual({lines[0], lines[-1]}, {""})
        self.assertEqual(set(lines[1:-1]), {"cuts tile 3 of about 12"})
        self.assertEqual(self.said, [])

    def test_a_pipe_has_lines(self) -> None:
        screen, told = Screen(False), threading.Event()

        def say(line: str) -> None:
            self.said.append(line)
            told.set()

        with Work(say, screen) as work:
            work.begin("cuts tile 3 of about 12", 0)
            self.assertTrue(told.wait(60))
        self.assertEqual((set(self.said), screen.getvalue()), ({"cuts tile 3 of about 12"}, ""))


class Told(WithWorld):
    @mock.patch.object(progress.time, "monotonic", lambda: 1000.0)
    def test_a_line_tells_how_far_work_is(self) -> None:
        work = Work(self.said.append, io.StringIO())
        work.begin("cuts tile 3 of about 12", 200)
        self.assertEqual(work.line(), "cuts tile 3 of about 12")
        work.done, work.begun = 50, 1000.0 - 10
        self.assertEqual(work.line(), "cuts tile 3 of about 12: 25 %, 30 s left")
        work.skip(100)  # the ten seconds were for 50 of those 100 that weren't there
        self.assertEqual(work.line(), "cuts tile 3 of about 12: 75 %, 10 s left")
        work.skip(50)
        self.assertEqual(work.line(), "cuts tile 3 of about 12: 100 %, 0 s left")
        path = self.file("some.bin", "x" * 100)
        with path.open("rb") as file:
            work.read("some.bin", 100)(file)
            file.read(50)
            self.assertEqual(work.line(), "reads some.bin: 50 %, 0 s left")
        self.assertEqual([left_of(s) for s in (89, 600, 7200)],
                         ["89 s left", "10 min left", "2.0 h left"])
