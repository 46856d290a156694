"""What the faces of a textured mesh file have beside places, carried to the nodes and faces of the
stream that is built of it. No part of this is proved but the programs that it runs.

The mesh is cut open along the seams of its texture, so that a texture coordinate belongs to a
vertex; `simplify --keep-border` keeps the two sides of a seam together; and `paint` tells what each
node has of the vertices under it."""
