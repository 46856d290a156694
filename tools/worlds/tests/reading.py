"""Reading height fields and world.json."""
import os
import struct
import unittest.mock
from math import isnan
from pathlib import Path

from ..form import WorldFault, read_world
from ..heights import read_heights, size_of
from ..rasters import Extent, is_in_degrees, zone_of
from .common import WithWorld

HEAD = "NCOLS 3\nNROWS 2\nXLLCENTER 5\nYLLCENTER -5\nDX 2\nDY 3\nNODATA_VALUE -1\n"


class Reading(WithWorld):
    def test_grids_begin_in_the_north(self) -> None:
        field = read_heights(self.file("a.asc", HEAD + "1 2 3\n4 5 -1\n"), 1, 1)
        self.assertEqual([field.at(1, column) for column in range(3)], [1, 2, 3])
        self.assertEqual((field.at(0, 0), isnan(field.at(0, 2))), (4, True))
        self.assertEqual((field.west, field.south, field.across, field.along), (5, -5, 2, 3))

    def test_a_byte_order_mark_is_no_part_of_a_grid(self) -> None:
        path = self.file("a.asc", "\ufeff" + HEAD + "1 2 3\n4 x 6\n")
        self.assertEqual(size_of(path), (3, 2))
        with self.assertRaisesRegex(WorldFault, "a.asc: line 9: 'x' is no height"):
            read_heights(path, 1, 1)
        path.write_text(path.read_text().replace("x", "5"))
        self.assertEqual(read_heights(path, 1, 1).at(0, 1), 5)
        path.write_text("\ufeff\ufeff" + HEAD)
        with self.assertRaisesRegex(WorldFault, "doesn't tell `ncols`"):
            read_heights(path, 1, 1)

    def test_the_corner_of_a_cell_is_half_a_cell_off_its_point(self) -> None:
        head = "ncols 2\nnrows 1\nxllcorner 10\nyllcorner 20\ncellsize 4\n"
        field = read_heights(self.file("a.asc", head + "7.5\n-2e1\n"), 1, 1)
        self.assertEqual((field.west, field.south), (12, 22))
        self.assertEqual((field.at(0, 0), field.at(0, 1)), (7.5, -20))

    def test_faults_of_a_grid_are_named(self) -> None:
        for text, said in (
            (HEAD + "1 2 3\n", "2 rows of 3 heights are 6, and the grid has 3"),
            (HEAD + "1 2 3\n4 5 6\n7\n", "and the grid has more"),
            (HEAD + "1 2 3\n4 x 6\n", "a.asc: line 9: 'x' is no height"),
            (HEAD + "1 2 nan\n4 5 6\n", "line 8: 'nan' is no height"),
            (HEAD + "1 2 3\n4 5 -inf\n", "line 9: '-inf' is no height"),
            (HEAD + "1 2 3\n4 5 1_0\n", "line 9: '1_0' is no height"),
            (HEAD + "-1 -1 -1\n-1 -1 -1\n", "no point of the height field has a height"),
            ("ncols 2\n1 2\n", "doesn't tell `nrows`"), ("ncols 2 3\n", "line 1: `ncols` tells"),
            ("ncols x\n", "line 1: `ncols` tells one number"), ("ncols 2\nncols 3\n", "twice"),
            ("ncols 2\nnrows 1.5\ncellsize 1\n1 2\n", "whole numbers above 0"),
            ("ncols 2\nnrows 1\ncellsize -1\n1 2\n", "numbers above 0"),
        ):
            with self.assertRaisesRegex(WorldFault, said):
                read_heights(self.file("a.asc", text), 1, 1)

    def test_pictures_have_one_byte_or_two(self) -> None:
        path = self.room / "a.pgm"
        path.write_bytes(b"P5 # a comment\n2 2\n65535\n" + struct.pack(">4H", 1, 2, 3, 40_000))
        field = read_heights(path, 10, 0.5)
        self.assertEqual([field.at(1, 0), field.at(1, 1)], [0.5, 1])
        self.assertEqual([field.at(0, 0), field.at(0, 1), field.across], [1.5, 20_000, 10])
        path.write_bytes(b"P5\n1 2\n255\n\x07\xff")
        self.assertEqual([read_heights(path, 1, 1).at(row, 0) for row in range(2)], [255, 7])
        path.write_bytes(b"P5\n2 2\n255\n\x07\xff\x01")
        with self.assertRaisesRegex(WorldFault, "cut off after 1 of 2 rows"):
            read_heights(path, 1, 1)

    def test_faults_of_a_picture_are_named(self) -> None:
        path = self.room / "a.pgm"
        for text, said in (
            (b"P2\n2 2\n255\n1 2 3 4\n", "a.pgm: the file is no binary PGM"),
            (b"P5\n2 -2\n255\n1234", "line 2: the head of a picture has three numbers"),
            (b"P5 # x\n2 2\nmost\n1234", "line 3: the head of a picture has three numbers"),
            (b"P5\n2 2", "line 2: the head"), (b"P5\n2 0\n255\n", "the head tells 2 by 0 points"),
            (b"P5\n2 2\n65536\n12345678", "2 by 2 points of at most 65536"),
            (b"P5\n999999999 2\n255\n1234", "cut off after 0 of 2 rows"),
            (b"P5\n9999999999 2\n255\n1234", "line 2: the head"),
        ):
            path.write_bytes(text)
            with self.assertRaisesRegex(WorldFault, said):
                read_heights(path, 1, 1)

    def test_no_data_may_be_no_number_and_rows_may_be_broken(self) -> None:
        text = HEAD.replace("-1", "nan") + "1 2\n3 4\nnan 6"
        field = read_heights(self.file("a.asc", text), 1, 1)
        self.assertEqual((field.at(0, 0), field.at(0, 2), field.high), (4, 6, 6))
        self.assertTrue(isnan(field.at(0, 1)))

    def test_a_wrong_world_is_told(self) -> None:
        with self.assertRaisesRegex(WorldFault, "can't be read"):
            read_world(self.room)
        for text, said in (("{}", "no world.json"), ('{"form": "x"}', "another form")):
            with self.assertRaisesRegex(WorldFault, said):
                read_world(self.file("world.json", text))


DEM = "ncols 3\nnrows 3\nxllcorner -43.1\nyllcorner -8.2\ncellsize 0.00083\n"


class Rasters(WithWorld):
    """What GDAL reads, and fields in degrees."""

    def refused(self, path: Path, said: str) -> None:
        with self.assertRaisesRegex(WorldFault, said):
            self.cut(path, 8, unit=0.0)

    def test_degrees_are_told_with_the_command_that_mends_them(self) -> None:
        path = self.file("dem.asc", DEM + "1 2 3\n4 5 6\n7 8 90\n")
        line = "gdalwarp -s_srs EPSG:4326 -t_srs EPSG:32723 -r bilinear .*dem.asc dem_metres.tif"
        self.refused(path, f"is in degrees: (.|\n)*{line}")

    def test_the_file_beside_a_grid_decides(self) -> None:
        extent = Extent(-43.0, 10.0, -42.0, 11.0, 0.01, 900.0)
        path = self.room / "dem.asc"
        for told, degrees in (
            ("", True), ('PROJCS["x",GEOGCS["y"]]', False), ('GEOGCS["WGS 84"]', True),
            ("Projection    GEOGRAPHIC", True), ("Projection UTM", False),
        ):
            self.file("dem.prj", told) if told else None
            self.assertEqual(is_in_degrees(path, extent), degrees, told)
        (self.room / "dem.prj").unlink()
        self.assertFalse(is_in_degrees(path, extent._replace(step=30.0)))
        self.assertFalse(is_in_degrees(path, extent._replace(rise=0.5)))
        self.assertEqual(zone_of(extent), 32623)

    def test_a_raster_is_read_by_gdal(self) -> None:
        path = self.file("field.tif", "II*\0")
        fake = self.room / "bin" / "gdal_translate"
        fake.parent.mkdir()
        with unittest.mock.patch.dict(os.environ, PATH=str(fake.parent)):
            self.refused(path, "apt install gdal-bin.*gdal_translate -of AAIGrid .* field.asc")
            grid = "ncols 2\nnrows 2\ncellsize 30\n1 2 3 4\n"
            fake.write_text(f"#!/bin/sh\n[ $1 = -of ] && printf '{grid}' > $4\n")
            fake.chmod(0o755)
            world = self.cut(path, 8)
            self.assertEqual([tile.faces for tile in world.level(0)], [2])
            self.assertIn("gdal_translate -of AAIGrid", " ".join(self.said))
            self.assertFalse((world.folder / "raster").exists())
            fake.write_text("#!/bin/sh\necho no such driver >&2\nexit 3\n")
            self.refused(path, "gdal_translate ended with status 3: no such driver")
