"""VTK's vtkQuadricDecimation: /usr/bin/python3 vtk_peer.py IN.obj FACES > OUT.obj"""
import sys

from vtkmodules.vtkFiltersCore import vtkQuadricDecimation
from vtkmodules.vtkIOGeometry import vtkOBJReader


def main() -> None:
    path, target = sys.argv[1], int(sys.argv[2])
    reader = vtkOBJReader()
    reader.SetFileName(path)
    reader.Update()
    whole = reader.GetOutput()
    decimation = vtkQuadricDecimation()
    decimation.SetInputData(whole)
    decimation.SetTargetReduction(1 - target / whole.GetNumberOfPolys())
    decimation.Update()
    made = decimation.GetOutput()
    for i in range(made.GetNumberOfPoints()):
        x, y, z = made.GetPoint(i)
        print(f"v {x:.4f} {y:.4f} {z:.4f}")
    for i in range(made.GetNumberOfCells()):
        face = made.GetCell(i)
        print("f", *(face.GetPointId(corner) + 1 for corner in range(3)))


if __name__ == "__main__":
    main()
