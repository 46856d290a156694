"""From a file to a stream that is ready to be looked at.

A file that begins with the bytes `VDPM` is a stream, and `vdpm check` judges it; one with `VDPK`
is a packed stream, which `pack` unpacks before. Of a PLY or STL file and of a height field an OBJ
text is made; any other is taken for one: `vdpm canon` judges it with the least number of decimals
that it allows; where that refuses it, `prepare` makes it fit; then `simplify` makes the stream.
Each step is told on standard error.
"""
import re
import subprocess
import sys
import threading
import time
from pathlib import Path
from subprocess import PIPE
from typing import IO, List, NamedTuple, Optional, Sequence, Set, Tuple

from dressing.coat import Painted, painted
from dressing.dressed import Dressed, dressed, has_dress
from mesh_files import obj
from mesh_files.reading import as_obj, without_faces
from mesh_files.soup import MeshFault

from . import colours, manual, progress
from .fields import ONE, Steps, field_text, is_field
from .program import UNPROVED, ProgramEnded, end_of, feed, is_notice

MAGIC, PACKED = b"VDPM", b"VDPK"
SECONDS_BETWEEN_NEWS = 5
MOST_DIGITS = 4
# What of a text isn't shown, by how its lines begin, in words as those of `prepare`.
PASSED_OVER = {"texture coordinates": rb"^vt\s", "materials": rb"^usemtl\s"}
# A fault that another number of decimals may cure: a nonzero digit past the first D.
TOO_MANY_DECIMALS = "fault 5 "
_passed_on: Set[str] = set()  # notices, which each run of a program gives again
Place = Tuple[float, float, float]


class Programs(NamedTuple):
    """The programs of this project."""

    vdpm: Path
    prepare: Path
    simplify: Path
    pack: Path
    paint: Path


class Scale(NamedTuple):
    """How the places of a prepared mesh lead back to the coordinates of its file."""

    unit: float
    middle: Place


class Dress(NamedTuple):
    """What nodes and faces have of a texture, and by what its pictures are found."""

    painted: Painted
    pages: Tuple[str, ...]
    libraries: Tuple[str, ...]


class Model(NamedTuple):
    """A stream, and what is known of where it came from."""

    name: str
    stream: bytes
    counts: str  # the line of `vdpm check`
    proved: bool
    prepared: bool = False
    scale: Optional[Scale] = None
    colours: Optional[bytes] = None  # of the built mesh's vertices, three bytes each
    notes: Tuple[str, ...] = ()  # what `prepare` said of it
    dress: Optional[Dress] = None

    @property
    def records(self) -> int:
        return int(self.counts.split()[7])

    @property
    def faces(self) -> int:
        return int(self.counts.split()[9])


class Fitting(NamedTuple):
    """A text that `simplify` takes, with how many decimals; whether it had to be prepared, and what
    was said of that."""

    text: bytes
    digits: int
    prepared: bool = False
    notes: Tuple[str, ...] = ()


class Done(NamedTuple):
    """What a program that has ended put, and its lines on standard error but for notices."""

    status: int
    out: bytes
    said: List[str]
    proved: bool


speaker = "viewer"  # the tool whose name stands before what is told


def tell(text: str) -> None:
    print(f"{speaker}: {text}", file=sys.stderr, flush=True)


def run(path: Path, words: Sequence[str], text: bytes, doing: str) -> Done:
    """Runs a program to its end, and tells meanwhile how long it has been doing what it does. Its
    notices are passed on as they come: a program that isn't built yet may take long."""
    progress.current.begins(doing)
    try:
        child = subprocess.Popen([str(path), *words], stdin=PIPE, stdout=PIPE, stderr=PIPE)
    except OSError as fault:
        raise ProgramEnded(f"{path} can't be started: {fault.strerror}") from fault
    said: List[str] = []
    out: List[bytes] = []
    assert child.stdin is not None and child.stdout is not None and child.stderr is not None
    threads = [
        threading.Thread(target=_listen, args=(child.stderr, said), daemon=True),
        threading.Thread(target=_collect, args=(child.stdout, out), daemon=True),
        threading.Thread(target=feed, args=(child.stdin, text), daemon=True),
    ]
    for thread in threads:
        thread.start()
    status = _wait(child, doing)
    for thread in threads:
        thread.join()
    proved = not any(UNPROVED in line for line in said)
    return Done(status, b"".join(out), [line for line in said if not is_notice(line)], proved)


def _collect(end: IO[bytes], out: List[bytes]) -> None:
    with end:
        out.append(end.read())


def _listen(end: IO[bytes], said: List[str]) -> None:
    with end:
        for line in end:
            text = line.decode("utf-8", "replace").rstrip("\n")
            said.append(text)
            if is_notice(text) and UNPROVED not in text:
                progress.current.waits()
            if is_notice(text) and text not in _passed_on:
                _passed_on.add(text)
                print(text, file=sys.stderr, flush=True)


def _wait(child: "subprocess.Popen[bytes]", doing: str) -> int:
    begun = time.monotonic()
    try:
        while True:
            try:
                return child.wait(timeout=SECONDS_BETWEEN_NEWS)
            except subprocess.TimeoutExpired:
                tell(f"{doing}: {time.monotonic() - begun:.0f} s")
    except BaseException:  # an interrupt ends the child too
        child.kill()
        child.wait()
        raise


def is_refusal(done: Done) -> bool:
    """Whether a program refused a text for a fault, and didn't end for another reason."""
    return done.status == 1 and bool(done.said) and " fault " in done.said[-1]


def needed(done: Done, heading: str) -> Done:
    """The same, where it ended well; else why it didn't."""
    if done.status != 0:
        raise end_of(done.said[-1] if done.said else "", done.status, heading)
    return done


def is_built(text: bytes) -> bool:
    """Whether a file is a stream, packed or not, so that nothing has to be built of it."""
    return text.startswith((MAGIC, PACKED))


def unpacked(text: bytes, pack: Path) -> Done:
    """The stream text of a stream, packed or not."""
    if not text.startswith(PACKED):
        return Done(0, text, [], True)
    return needed(run(pack, ["--unpack"], text, "unpacking"), manual.PACK)


def model_of(path: Path, programs: Programs, dresses: bool = False, steps: Steps = ONE) -> Model:
    """The model of a file; ProgramEnded where it can't be had, and OSError where it can't be
    read. Where `dresses` says so it has the dress of a textured file, and is cut open for that.
    `steps` are those of a height field that doesn't tell its own."""
    text = path.read_bytes()
    if not is_built(text):
        dresses = dresses and has_dress(path, text)
        return _built(path.name, text_at(path, steps), text, programs, dresses)
    stream = unpacked(text, programs.pack)
    checked = needed(run(programs.vdpm, ["check"], stream.out, "checking"), manual.STREAM)
    counts = checked.out.decode("ascii").strip()
    return Model(path.name, stream.out, counts, stream.proved and checked.proved)


def with_packed_stream(model: Model, programs: Programs) -> Model:
    """A model as a page has it in it."""
    done = needed(run(programs.pack, [], model.stream, "packing"), manual.STREAM)
    return model._replace(stream=done.out)


def text_at(path: Path, steps: Steps = ONE) -> bytes:
    """The OBJ text of a file; what is passed over of another kind of file is told."""
    try:
        text, notes = (field_text(path, steps, tell), []) if is_field(path) else as_obj(path)
    except MeshFault as fault:
        raise ProgramEnded(str(fault)) from None
    for note in notes:
        tell(note)
    return text


def _built(name: str, text: bytes, given: bytes, programs: Programs, dresses: bool) -> Model:
    """The model of a text that was made of what a file has."""
    progress.current.faces = obj.face_count(text)
    mesh, digits, prepared, notes = _fitting(text, given, programs)
    faces = obj.face_count(mesh)
    if faces == 0:
        raise ProgramEnded(str(without_faces(text)))
    scale = scale_of(mesh)
    found = _colours(text, mesh, prepared, scale)
    stands = (scale or Scale(1.0, (0.0, 0.0, 0.0))) if prepared else None
    cut = dressed(text, mesh, stands) if dresses else None
    tell(f"building a hierarchy of {faces:,} faces")
    begun = time.monotonic()
    words = ["0", "--digits", str(digits), *(["--keep-border"] if cut and cut.is_cut else [])]
    source = cut.text if cut else mesh
    stream = needed(run(programs.simplify, words, source, "building"), manual.OBJ).out
    checked = needed(run(programs.vdpm, ["check"], stream, "checking"), manual.STREAM)
    tell(f"built in {time.monotonic() - begun:.1f} s")
    counts = checked.out.decode("ascii").strip()
    model = Model(name, stream, counts, checked.proved, prepared, scale, found, notes)
    return _with_dress(model, cut, programs) if cut else model


def _with_dress(model: Model, cut: Dressed, programs: Programs) -> Model:
    """The same with what its nodes and faces have of a texture."""
    lines = needed(run(programs.paint, [], model.stream + cut.coat, "painting"), manual.PAINT).out
    found, colours_of = painted(lines), model.colours
    if colours_of is not None:
        parts = [colours_of[3 * vertex : 3 * vertex + 3] for vertex in cut.before]
        model = model._replace(colours=b"".join(parts))
    return model._replace(dress=Dress(found, tuple(cut.pages), tuple(cut.libraries)))


def _fitting(text: bytes, given: bytes, programs: Programs) -> Fitting:
    for digits in range(MOST_DIGITS + 1):
        words = ["canon"] + (["--digits", str(digits)] if digits else [])
        done = run(programs.vdpm, words, text, "reading")
        if done.status == 0:
            return Fitting(text, digits, notes=passed_over(text))
        if not is_refusal(done) or TOO_MANY_DECIMALS not in done.said[-1]:
            break
    if not is_refusal(done):
        raise end_of(done.said[-1] if done.said else "", done.status, manual.OBJ)
    is_own = given.endswith(text)  # (else nobody has the text whose lines are named)
    why = f" ({done.said[-1]})" if is_own else ""
    tell(f"it isn't fit as it stands{why}, so prepare makes it fit")
    ready = run(programs.prepare, [], text, "preparing")
    if is_refusal(ready) and not is_own:
        ready = run(programs.prepare, [], given, "preparing")
    needed(ready, manual.PREPARE)
    for line in ready.said:
        print(line, file=sys.stderr)
    return Fitting(ready.out, 0, True, tuple(ready.said))


def passed_over(text: bytes) -> Tuple[str, ...]:
    return tuple(
        f"{what} ignored" for what, looks in PASSED_OVER.items()
        if re.search(looks, text, re.MULTILINE)
    )


def scale_of(mesh: bytes) -> Optional[Scale]:
    """How a mesh leads back to a file's coordinates, as its first line tells where it was scaled;
    None where they are its own."""
    found = obj.scale_of(mesh)
    return Scale(*found) if found else None


def _colours(text: bytes, mesh: bytes, prepared: bool, scale: Optional[Scale]) -> Optional[bytes]:
    vertices = colours.coloured_vertices(text)
    if vertices is None:
        return None
    if not prepared:
        return colours.packed(vertices)
    unit, middle = (scale.unit, scale.middle) if scale else (1.0, (0.0, 0.0, 0.0))
    return colours.packed_by_place(vertices, mesh, unit, middle)
