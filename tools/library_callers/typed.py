"""A caller of python/vdpm that tells its types: mypy --strict finds nothing in it."""
from fractions import Fraction
from typing import List, Optional, Tuple

import vdpm


def scale_of(text: bytes) -> Tuple[Fraction, Tuple[Fraction, Fraction, Fraction]]:
    fit = vdpm.prepare(text, size=1000)
    return fit.scale, fit.middle


def told(fault: vdpm.Fault) -> Tuple[int, Optional[int], str]:
    return fault.number, fault.place, fault.cure


def shown(stream: bytes) -> Tuple[int, int, float]:
    look = vdpm.camera(640, 480, 45.0, (0, -60000, 40000), (0, 0, 0))
    with vdpm.Session(stream, budget=9) as session:
        moved: vdpm.Moved = session.view(look.eye, look.focal, 0.5, look.planes)
        frame, change = session.frame(), session.change()
        first = frame.places[frame.corners[0]].mean()
        hit: Optional[vdpm.Hit] = session.pick(look.eye, (0, 3, -2))
        height: int = session.bounds().greatest[2]
        assert session.level().nodes == session.measure().vertices == session.sizes().shown_nodes
        return moved.moves + height + (hit.face if hit else 0), len(change.put_faces), float(first)


def copied(stream: bytes) -> List[Tuple[int, int]]:
    with vdpm.Session(stream) as session, session.slots() as slots:
        written: vdpm.Written = slots.update()
        assert len(slots.vertices) == len(slots.nodes) == len(written.vertex_slots)
        return list(vdpm.ranges(written.triangle_slots))


try:
    vdpm.simplify("model.obj")
except vdpm.NotMesh as fault:
    print(told(fault))
