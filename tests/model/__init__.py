"""A model of the programs: what they answer, by the definitions in their plainest form.

It is over lists and numbers, and looks at everything anew each time. So it is slow, and for meshes
of a few hundred faces. It shares no code with the programs; tests/random_cases.py compares them
with it. `python3 tests/model vdpm WORDS.. < input` answers as `./vdpm WORDS..` should, and so it is
with `prepare`, `simplify`, `pack` and `paint`.

    mesh       points, faces, sides, twins, fans, the canonical text
    obj        what an OBJ text means
    run        the run of the builder
    fine       what the run of `simplify` goes by
    hierarchy  roots, records, nodes; the hierarchy of a run
    stream     the stream text and its faults
    front      split records, kept faces, what stands beyond a side, legal moves
    bounds     errors, radii and boxes of normals of nodes
    deviation  how far nodes may be from the faces under them
    views      wanted nodes, targets, plans
    shown      frames, geomorphs, changes, levels of detail, measures, strips
    pick       rays
    script     the lines of a script
    commands   words and answers of `vdpm` and `simplify`
    prefix     the first records of a hierarchy
    packed     packed texts, and words and answers of `pack`
    fits       fits of numbers to the leaves of nodes
    paint      coats, and words and answers of `paint`
    scan       what any OBJ text spells
    stl, ply   what files of these formats give; files, which format a file has
    prepare    the oriented manifold that is made of it, and what is said of the work
"""
from pathlib import Path
from typing import List, Optional

from . import commands, packed, paint, prepare
from .faults import Answer


USAGES = Path(__file__).resolve().parents[2] / "tools/quick_start/usage"
VERSION = "1.3.0, of the proved sources; the script beside it tells whether it is proved"


def told(program: str, words: List[str]) -> Optional[Answer]:
    """What a program tells of itself, where that is all that is asked for."""
    if program not in ("prepare", "simplify", "pack", "paint"):
        return None
    if words == ["--help"]:
        return Answer(0, (USAGES / program).read_bytes(), "")
    return Answer(0, f"{program} {VERSION}\n".encode(), "") if words == ["--version"] else None


def answer(program: str, words: List[str], data: bytes) -> Answer:
    """What a program answers to words and input."""
    programs = {
        "vdpm": commands.answer,
        "prepare": prepare.answer,
        "simplify": commands.simplify_answer,
        "pack": packed.answer,
        "paint": paint.answer,
    }
    return told(program, words) or programs[program](words, data)


__all__ = ["Answer", "answer"]
