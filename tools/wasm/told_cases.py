"""The cases of tests/cases that the functions of libvdpm.h can do, for cases.mjs.

Those are all that need no device, limit or other program: scripts of `view` and `live`, what
`build`, `simplify` and `prepare` make of a text, and what `pack` makes of a stream and undoes.
"""
import base64
import sys
from pathlib import Path
from typing import Any, Dict, Iterator, List, Optional

TOP = Path(__file__).resolve().parent.parent.parent
sys.path.insert(0, str(TOP / "tools"))

from tried_library import Asked, cases_of, stream_length  # noqa: E402

# Faults that aren't of a stream's own text or rules: lines, and the length of a script.
OF_SCRIPT = (30, 31, 32)
MOST_DIGITS = 4


def length_of_stream(asked: Asked) -> int:
    """How many bytes of the input are the stream: all where it is refused."""
    if asked.fault and asked.fault[0] not in OF_SCRIPT:
        return len(asked.given)
    return stream_length(asked.given)


def is_of_live(asked: Asked) -> bool:
    """Whether a script does the same in `live`, of which the library does the lines."""
    if len(asked.words) != 2 or not asked.words[1].isdigit():
        return False
    # (a script of `view` may not have the lines of `live`, and is cut off at its own limit)
    fault = asked.fault[0] if asked.fault else 0
    return fault != 32 and not (asked.words[0] == "view" and fault == 30)


def base64_of(some: Optional[bytes]) -> Optional[str]:
    return None if some is None else base64.b64encode(some).decode()


def told(asked: Asked, how: Dict[str, Any]) -> Dict[str, Any]:
    """A case as JSON has it: what to do is in `how`."""
    return {"name": asked.name, "given": base64_of(asked.given), "fault": asked.fault,
            "output": base64_of(asked.output), "digest": asked.digest, **how}


def making(words: Iterator[str], function: str) -> Dict[str, Any]:
    """A function and what it is asked, by the words of a program."""
    asked: Dict[str, Any] = {}
    for word in words:
        if word == "--digits":
            asked["digits"] = int(next(words))
        elif word == "--keep-border":
            asked["keepBorder"] = True
        else:
            asked["size" if function == "prepare" else "faces"] = int(word)
    return {"function": function, "asked": asked}


def packing(words: List[str]) -> Dict[str, Any]:
    """The same by the words of `pack`."""
    if len(words) == 3:
        return {"function": "unpackFirst", "asked": {"records": int(words[2])}}
    return {"function": "unpack" if words else "pack", "asked": {}}


def all_cases() -> Iterator[Dict[str, Any]]:
    """All such cases, in their order."""
    for asked in cases_of("vdpm", "view", "live"):
        if is_of_live(asked):
            how = {"function": "open", "length": length_of_stream(asked)}
            yield told(asked, {**how, "asked": {"budget": int(asked.words[1])}})
    for asked in cases_of("vdpm", "build"):
        yield told(asked, making(iter(asked.words[1:]), "build"))
    for asked in cases_of("simplify"):
        yield told(asked, making(iter(asked.words), "simplify"))
    for asked in cases_of("prepare"):
        notes = None if asked.fault else base64_of(asked.errors)
        yield told(asked, {**making(iter(asked.words), "prepare"), "notes": notes})
    for asked in cases_of("pack"):
        yield told(asked, packing(asked.words))
