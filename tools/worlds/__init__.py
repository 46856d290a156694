"""Worlds: large meshes cut into tiles that are simplified each by itself and meet without a crack.

tools/world.py is the command; docs/WORLDS.md tells what a world is and how one is made.

    form        what world.json says, and where a world's files lie
    heights     reads height fields
    rasters     fields that GDAL reads, and fields in degrees
    inputs      what is cut, in the world's unit
    cutting     which tile each face of a height field belongs to
    soups       which tile each face of a mesh belongs to
    parting     moves faces so that no tile touches itself
    mending     makes an oriented manifold of a tile's faces
    making      writes a world
    journal     what is known of tiles that were cut, so that a cut goes on
    progress    how far long work is
    building    makes the streams of a world
    streams     reads of a stream what a world asks of it
    fronts      reads streams, plays scripts on them, and tells the border sides of what is shown
    checking    whether the tiles of a world meet
    union       whether tiles are pieces of one manifold
    tiles3d     writes a world as OGC 3D Tiles
    parents     makes one coarse mesh of several tiles' fronts
"""
