"""View-dependent progressive meshes in a program's own memory: libvdpm, from Python.

    import vdpm

    fit = vdpm.prepare(open("model.obj", "rb").read())
    stream = vdpm.simplify(fit.text)
    look = vdpm.camera(1280, 720, 45, eye=(0, -60000, 40000), target=(0, 0, 0))
    with vdpm.Session(stream) as session:
        session.view(**look._asdict(), tolerance=1)
        frame = session.frame()
        print(len(frame.nodes), "vertices,", len(frame.faces), "faces")

Making: `prepare` makes any OBJ, PLY or STL file fit, `simplify` and `build` make the stream of one,
`Simplifying` does what `simplify` does in steps and tells how far it is, `pack` makes a stream a
sixth as long, and `unpack` gives it back.
Showing: a `Session` shows a stream, packed or not, `Session.view` adapts it to a view, and
`Session.frame` and `Session.change` answer arrays: numpy's where numpy is there, else flat
`array.array`s. `Session.slots` keeps a renderer's buffers, and tells what of them to copy.

Units: coordinates are whole numbers of units of 10 to the power of minus `Session.sizes().digits`;
`Prepared.scale` gives coordinates back for what `prepare` made. Pixels are those of the picture
that the focal length is told in. Nodes, faces, leaves and records are counted from 0.

Faults: each is a `Fault`: `StreamFault`, `LineFault`, `TextFault` or `NotMesh`. Other refusals are
`ValueError`, `TypeError`, `IndexError`, `NotOpen` and `MemoryError`.

The library is found by the variable VDPM_LIBRARY, which is a path, or else as libvdpm.so in this
package, as wheels have it, or in proved/ or unproved/ beside its folder; `version` tells which one
that is, and whether it was proved.
"""
from .camera import Camera, camera
from .faults import Fault, LineFault, NotMesh, NotOpen, StreamFault, TextFault
from .library import NONE as NO_VERTEX
from .library import Version, version
from .making import Prepared, build, pack, prepare, simplify, unpack
from .session import Session
from .shapes import Bounds, Change, Frame, Hit, Inputs, Level, Moved, Shape, Sizes, Strips
from .slots import Slots, Written, ranges
from .stepwise import Done, Simplifying

__all__ = ["Bounds", "Camera", "Change", "Done", "Fault", "Frame", "Hit", "Inputs", "Level",
           "LineFault", "Moved", "NO_VERTEX", "NotMesh", "NotOpen", "Prepared", "Session", "Shape",
           "Simplifying", "Sizes", "Slots", "StreamFault", "Strips", "TextFault", "Version",
           "Written", "build", "camera", "pack", "prepare", "ranges", "simplify", "unpack",
           "version"]
