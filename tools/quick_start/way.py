"""The ways in which a program is built without a proof: by the kit, or else by cargo."""
from pathlib import Path
from typing import Callable, NamedTuple

from .sources import Program


class Way(NamedTuple):
    """By what a program is built, a sum of all that it is made from, what puts its files into a
    folder, and how that is told."""

    by: str
    sum_of: Callable[[Program], str]
    make: Callable[[Program, Path], None]
    told: str
