"""A camera of a renderer as a view has it."""
from math import radians, sqrt, tan
from typing import Iterator, NamedTuple, Sequence, Tuple

from .fields import MOST_OF_EYE, MOST_PIXELS, MOST_WAY, Number, whole

Vector = Tuple[float, float, float]


class Camera(NamedTuple):
    """What `Session.view` takes of a camera: session.view(**it._asdict(), tolerance=1).

    eye: in units. focal: the focal length, in pixels. planes: the sides of the picture, each a, b,
    c, o; a place is inside where a x + b y + c z + o is 0 or more.
    """

    eye: Tuple[int, int, int]
    focal: int
    planes: Tuple[Tuple[int, int, int, int], ...]


def _cross(p: Vector, q: Vector) -> Vector:
    return p[1] * q[2] - p[2] * q[1], p[2] * q[0] - p[0] * q[2], p[0] * q[1] - p[1] * q[0]


def _unit(p: Sequence[float], name: str) -> Vector:
    size = sqrt(sum(it * it for it in p))
    if size < 1e-9:
        raise ValueError(f"{name}, so that it tells no direction")
    return p[0] / size, p[1] / size, p[2] / size


def _sides(right: Vector, up: Vector, way: Vector, half: Vector) -> Iterator[Vector]:
    """The normals of the left, right, lower and upper side of the picture, looking inward. `half`
    has half its width and height, and the focal length, in pixels."""
    for axis, reach in ((right, half[0]), (up, half[1])):
        for sign in (1, -1):
            side = [sign * half[2] * a + reach * w for a, w in zip(axis, way)]
            yield _unit(side, "the picture has no size")


def camera(width: int, height: int, fov: float, eye: Sequence[Number], target: Sequence[float],
           up: Sequence[float] = (0, 0, 1)) -> Camera:
    """The camera of a picture of `width` times `height` pixels.

    fov: the angle of view from the lower to the upper side, in degrees, between 0 and 180.
    eye: the place that is looked from, in whole units, as a view takes it.
    target: a place in the middle of the picture, in units. up: a direction that is up in it.

    `focal` of the answer is the focal length in pixels, rounded to a whole one. `planes` are the
    four sides of the picture, through the eye: what lies outside isn't refined. Raises ValueError
    where they tell no picture.

        session.view(**camera(1280, 720, 45, (0, -60000, 40000), (0, 0, 0))._asdict(), tolerance=1)
    """
    x, y, z = whole(eye, 3, MOST_OF_EYE, "eye")
    if not 0 < fov < 180:
        raise ValueError(f"fov is {fov}, and not between 0 and 180 degrees")
    if width < 1 or height < 1:
        raise ValueError(f"the picture has {width} times {height} pixels")
    focal = round(height / 2 / tan(radians(fov) / 2))
    if not 1 <= focal <= MOST_PIXELS:
        raise ValueError(f"the focal length is {focal} pixels, and not from 1 to {MOST_PIXELS:,}")
    way = _unit([t - e for t, e in zip(target, (x, y, z))], "target is the eye")
    right = _unit(_cross(way, _unit(up, "up is 0")), "up is the direction of the target")
    above = _cross(right, way)
    planes = []
    for side in _sides(right, above, way, (width / 2, height / 2, focal)):
        a, b, c = (round(MOST_WAY * it) for it in side)
        planes.append((a, b, c, -(a * x + b * y + c * z)))
    return Camera((x, y, z), focal, tuple(planes))
