"""Frames and changes as arrays, made here of the program's texts."""
import struct
from typing import Dict, List, Optional

from viewer.arrays import Arrays
from viewer.program import Answer, Program

# Which array has the first number of a line, by its first word, and which the three behind it.
_OF = {"-f": "gone_faces", "-v": "gone_nodes", "v": "new_nodes", "f": "put_faces"}
_CORNERS = "put_corners"


def bytes_of(numbers: List[int]) -> bytes:
    return struct.pack(f"<{len(numbers)}I", *numbers)


def told(answer: Answer) -> Answer:
    """The same answer, with the numbers of its frame or change in arrays."""
    lists: Dict[str, List[int]] = {name: [] for name in Arrays._fields}
    kept: List[str] = []
    for line in answer.text.decode("ascii").splitlines():
        word, *rest = line.split(" ")
        if word in _OF:
            lists[_OF[word]].append(int(rest[0]))
            lists[_CORNERS] += [int(n) for n in rest[1:]] if word == "f" else []
        elif word != "end":
            kept.append(line)
    if not any(line.split(" ")[0] in ("frame", "change") for line in kept):
        return answer
    arrays = Arrays(**{name: bytes_of(numbers) for name, numbers in lists.items()})
    return answer._replace(text="".join(f"{line}\n" for line in kept).encode(), arrays=arrays)


def without_first(arrays: Arrays, word: str) -> Optional[Arrays]:
    """The arrays without what the first line with this word would tell; None where there is
    none."""
    name = _OF[word.strip()]
    numbers: bytes = getattr(arrays, name)
    if not numbers:
        return None
    less = arrays._replace(**{name: numbers[4:]})
    return less._replace(put_corners=arrays.put_corners[12:]) if name == "put_faces" else less


class TellingProgram(Program):
    """A program that answers in arrays where they are asked for."""

    def ask(self, text: str, arrays: bool = False) -> Answer:
        answer = super().ask(text)
        return told(answer) if arrays else answer
