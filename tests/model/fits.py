"""What each node has of a number of the vertices that goes with positions, as u of a texture: that
of the linear map which fits the numbers of its leaves best (least squares with a ridge), at its own
position, and between the least and the greatest of them."""
from typing import List, Sequence, Tuple

from .fine import drop_digits, nearest
from .hierarchy import Hierarchy
from .mesh import Point, cross, dot

Spotted = Tuple[Point, int]  # a position and its number
Rows = Tuple[Point, Point, Point]
MATRIX_MOST, SLOPE_MOST, STEEPEST, DIVISOR_DIGITS = 1 << 33, (1 << 52) - 1, 1024, 36


def spread(spots: Sequence[Point], numbers: Sequence[int]) -> Point:
    """The count times the sum of products of coordinates and numbers, less the product of sums."""
    n, total = len(spots), sum(numbers)
    by_axis = [n * sum(p[i] * w for p, w in zip(spots, numbers)) - total * sum(p[i] for p in spots)
               for i in range(3)]
    return by_axis[0], by_axis[1], by_axis[2]


def ridged(spots: Sequence[Point]) -> Rows:
    """How positions spread, with a ridge on the diagonal."""
    rows = [list(spread(spots, [p[i] for p in spots])) for i in range(3)]
    ridge = (sum(rows[i][i] for i in range(3)) >> 12) + 1
    for i in range(3):
        rows[i][i] += ridge
    x, y, z = [(row[0], row[1], row[2]) for row in rows]
    return x, y, z


def rise(spots: Sequence[Point], at: Point, slope: Point, divisor: int) -> int:
    """What the slope over the divisor adds from the middle of the positions to one."""
    n, k = len(spots), max(divisor.bit_length() - DIVISOR_DIGITS, 0)
    middle = [sum(p[i] for p in spots) for i in range(3)]
    away = [nearest(16 * n * at[i] - 16 * middle[i], n) for i in range(3)]
    return nearest(sum(s * e for s, e in zip(drop_digits(slope, k), away)), 16 * (divisor >> k))


def fit(leaves: Sequence[Spotted], at: Point) -> int:
    """The number at a position by the map that fits these best; the mean where that is steep."""
    spots, numbers = [p for p, _ in leaves], [w for _, w in leaves]
    mean = nearest(sum(numbers), len(numbers))
    rows = ridged(spots)
    k = max(max(rows[i][i] for i in range(3)).bit_length() - 33, 0)
    x, y, z = [drop_digits(row, k) for row in rows]
    slope = drop_digits(spread(spots, numbers), k)
    if max(abs(n) for row in (x, y, z) for n in row) > MATRIX_MOST:
        return mean
    if max(abs(n) for n in slope) > SLOPE_MOST:
        return mean
    cofactors = cross(y, z), cross(z, x), cross(x, y)
    divisor = dot(x, cofactors[0])
    solved = dot(cofactors[0], slope), dot(cofactors[1], slope), dot(cofactors[2], slope)
    if divisor <= 0 or max(abs(n) for n in solved) > STEEPEST * divisor:
        return mean
    return mean + rise(spots, at, solved, divisor)


def fits_of(h: Hierarchy, by_vertex: Sequence[int]) -> List[int]:
    """What each node has, where each vertex of the input has a number."""
    leaves = [h.nodes[node] for node in h.leaf_nodes()]
    spotted = [(leaf.place, by_vertex[leaf.input - 1]) for leaf in leaves]
    fits = []
    for node in h.nodes:
        under = spotted[node.first : node.after]
        numbers = [w for _, w in under]
        fits.append(max(min(numbers), min(max(numbers), fit(under, node.place))))
    return fits
