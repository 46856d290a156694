"""Reads the mesh files that tools are given: OBJ, PLY and STL, told apart by their first bytes.

    soup        points and triangles of a file, and what was passed over
    obj         the lines of an OBJ text, and its soup
    ply         PLY 1.0: ascii, and binary of both orders
    stl         STL: ascii and binary
    ears        polygons as triangles
    reading     which kind a file is, and its soup; its exact text for `prepare`
"""
