"""The numbers of a script line, told exactly or refused."""
from fractions import Fraction
from functools import reduce
from math import gcd, isfinite
from numbers import Integral
from typing import Any, List, Optional, Sequence, SupportsFloat, Union

# A number that is taken as it is written: a float is the decimal that it prints as.
Number = Union[int, float, Fraction]
MOST_OF_EYE, MOST_PIXELS, MOST_WAY, MOST_OFFSET = 16777215, 65535, 32767, 4398046511104
MOST_PLANES = 6


def exact(number: Any, name: str) -> Fraction:
    """The number as a fraction."""
    if isinstance(number, Integral):
        return Fraction(int(number))
    if isinstance(number, Fraction):
        return number
    if not isinstance(number, SupportsFloat) or isinstance(number, str):
        raise TypeError(f"{name} is {number!r}, and not a number")
    if not isfinite(float(number)):
        raise ValueError(f"{name} is {number}, which is no finite number")
    return Fraction(float.__repr__(float(number)))


def whole(numbers: Sequence[Any], count: int, most: int, name: str) -> List[int]:
    """So many whole numbers, at most so far from 0."""
    told = [exact(number, name) for number in numbers]
    if len(told) != count:
        raise ValueError(f"{name} has {len(told)} numbers, and not {count}")
    for number in told:
        if number.denominator != 1:
            raise ValueError(f"{name} has {float(number)}, and stands on whole units: round it, or "
                             "make the stream with more digits")
        if abs(number) > most:
            raise ValueError(f"{name} has {number}, and may be at most {most:,} away from 0")
    return [int(number) for number in told]


def multiples(numbers: Sequence[Fraction]) -> List[int]:
    """The least whole numbers in the proportion of these."""
    shared = reduce(lambda a, b: a * b // gcd(a, b), (it.denominator for it in numbers), 1)
    found = [int(it * shared) for it in numbers]
    divisor = reduce(gcd, found, 0) or 1
    return [it // divisor for it in found]


def pixels(focal: Number, tolerance: Number, outline: Optional[Number]) -> List[int]:
    """Focal length, tolerance and tolerance of silhouettes, as the whole numbers that mean the
    same: a view asks for their proportion alone."""
    names = ("focal", "tolerance", "outline")
    told = [exact(it, name) for it, name in zip((focal, tolerance, outline), names)
            if it is not None]
    for number, name in zip(told, names):
        if number < 0:
            raise ValueError(f"{name} is {float(number)}, below 0")
    if outline is not None and told[2] > told[1]:
        raise ValueError(f"`outline` is {float(told[2])}, above the tolerance {float(told[1])}")
    if all(it.denominator == 1 and it <= MOST_PIXELS for it in told):
        return [int(it) for it in told]
    found = multiples(told)
    if max(found) > MOST_PIXELS:
        said = ", ".join(f"{name} {float(it)}" for it, name in zip(told, names))
        raise ValueError(f"{said}: told exactly, in whole numbers of one proportion, they pass "
                         f"{MOST_PIXELS:,}; round the focal length or the tolerance")
    return found


def plane(numbers: Sequence[Any], name: str) -> List[int]:
    """The four numbers of a plane, as whole ones with the same side."""
    told = [exact(number, name) for number in numbers]
    if len(told) != 4:
        raise ValueError(f"{name} has {len(told)} numbers, and not 4")
    found = [int(it) for it in told]
    if any(it.denominator != 1 for it in told):
        found = multiples(told)
    if max(abs(it) for it in found[:3]) > MOST_WAY or abs(found[3]) > MOST_OFFSET:
        raise ValueError(f"{name}: told in whole numbers, a, b and c may be at most {MOST_WAY:,} "
                         f"away from 0, and o {MOST_OFFSET:,}: they are {found}")
    return found


def planes_of(planes: Sequence[Sequence[Any]]) -> List[int]:
    """The numbers of all planes in a row."""
    if len(planes) > MOST_PLANES:
        raise ValueError(f"{len(planes)} planes, and at most {MOST_PLANES} are looked at")
    return [it for i, one in enumerate(planes) for it in plane(one, f"planes[{i}]")]
