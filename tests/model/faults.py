"""How a command ends, and the faults of its input."""
from typing import NamedTuple


class Fault(Exception):
    """The input has a fault of this number; `place` is its place word and value, if it has them,
    and `reason` what is said of it, where the number alone doesn't tell that."""

    def __init__(self, number: int, place: str = "", reason: str = "") -> None:
        super().__init__(f"{number} {place}".rstrip())
        self.number = number
        self.place = place
        self.reason = reason


class Answer(NamedTuple):
    """Exit status, standard output, and standard error."""

    status: int
    output: bytes
    error: str


def failed(program: str, fault: Fault, output: bytes = b"") -> Answer:
    return Answer(1, output, f"{program}: fault {fault}\n")


def not_understood(program: str) -> Answer:
    return Answer(2, b"", f"{program}: words not understood\n")
