"""Compares `vdpm`, `prepare`, `simplify`, `pack` and `paint` with the model on random cases.

    python3 tests/random_cases.py SEED COUNT [--vdpm PATH] [--prepare PATH] [--simplify PATH]
                                  [--pack PATH] [--paint PATH] [--processes N]
    python3 tests/random_cases.py --again FILE [--write INPUT]

A case is a program, its words and its input; number I of a seed is always the same one. What the
program answers (status, output and error) has to be what the model does. The first case that
differs is printed, as a text that `--again` takes; `--write` unpacks its input. The last line is
`N passed, M failed`, and the status is 0 exactly where none failed and N isn't 0.
"""
import argparse
import base64
import json
import multiprocessing
import subprocess
import sys
from functools import partial
from pathlib import Path
from random import Random
from typing import Callable, Dict, List, NamedTuple, Optional, Tuple

from model import Answer, answer
from model.hierarchy import Hierarchy
from model.packed import packed_words
from model.paint import GREATEST, Coat, coat_text
from random_files import random_file
from random_inputs import bad_stream, damaged_text, random_digits, random_script
from random_inputs import random_stream, random_text
from random_meshes import random_mesh
from random_soups import random_soup, soup_text

TOP = Path(__file__).resolve().parent.parent
NOTICE = "not proved on this machine yet, run-time checks are on; "
SECONDS = 300


class Case(NamedTuple):
    program: str
    words: List[str]
    data: bytes

    def text(self) -> str:
        data = base64.b64encode(self.data).decode()
        return json.dumps({"program": self.program, "words": self.words, "input": data})

    def command(self) -> str:
        return " ".join(["./" + self.program, *self.words])


class Outcome(NamedTuple):
    case: Case
    wanted: Answer
    got: Answer


def canon_case(rng: Random) -> Case:
    digits = random_digits(rng)
    words = ["canon"] if digits == 0 and rng.random() < 0.8 else ["canon", "--digits", str(digits)]
    return Case("vdpm", words, random_text(rng, random_mesh(rng), digits))


def build_case(rng: Random) -> Case:
    digits, mesh = random_digits(rng), random_mesh(rng)
    target = rng.choice([0, 0, 1, rng.randint(0, 60), 4_294_967_295])
    words = ["build", str(target), "--digits", str(digits)]
    if digits == 0:
        words = rng.choice([words, words[:2]] + ([["build"]] if target == 0 else []))
    return Case("vdpm", words, random_text(rng, mesh, digits))


def simplify_case(rng: Random) -> Case:
    """With the border kept or free."""
    digits, mesh = random_digits(rng), random_mesh(rng)
    target = rng.choice([0, 0, 1, rng.randint(0, 60), 4_294_967_295])
    words = [] if target == 0 and rng.random() < 0.5 else [str(target)]
    words += [] if digits == 0 and rng.random() < 0.5 else ["--digits", str(digits)]
    words += ["--keep-border"] if rng.random() < 0.5 else []
    return Case("simplify", words, random_text(rng, mesh, digits))


def stream_case(rng: Random) -> Case:
    h, stream = random_stream(rng, random_mesh(rng))
    if rng.random() < 0.85:
        stream = bad_stream(rng, h, stream)
    return Case("vdpm", [rng.choice(["expand", "check", "check"])], stream)


def view_case(rng: Random) -> Case:
    """Few scripts follow a damaged stream; the damage may leave it valid."""
    h, stream = random_stream(rng, random_mesh(rng))
    if rng.random() < 0.15:
        stream = bad_stream(rng, h, stream)
    budget = rng.choice([0, 1, 2, 5, len(h.records), len(h.records), 4_294_967_295])
    return Case("vdpm", ["view", str(budget)], stream + random_script(rng, h))


def live_case(rng: Random) -> Case:
    """A script of `live`, or one of `view`, which does the same in `live`."""
    h, stream = random_stream(rng, random_mesh(rng))
    budget = rng.choice([0, 1, 2, len(h.records), len(h.records), 4_294_967_295])
    script = random_script(rng, h, is_live=rng.random() < 0.85)
    return Case("vdpm", ["live", str(budget)], stream + script)


def demo_case(rng: Random) -> Case:
    return Case("vdpm", ["demo", str(rng.choice([1, 2, 2, 3, 3, 4, 5, 6]))], b"")


def words_case(rng: Random) -> Case:
    """Words of the forms in any order, most of which aren't understood. No large demo is asked."""
    known = ["canon", "build", "expand", "check", "view", "live", "--digits", "0", "4", "5", "01"]
    known += ["-1", "", "4294967296", "prepare", "demo 3", "--help", "32768", "--keep-border"]
    known += ["--unpack", "--version", "--records"]
    words = [rng.choice(known) for _ in range(rng.randint(0, 4))]
    demo = ["demo", rng.choice(["0", "257", "01", "x"])]
    records = ["--unpack", "--records", rng.choice(["0", "01", "x", "4294967295", "4294967296"])]
    words = rng.choice([words, words, demo, ["view", "01"], records])
    program = rng.choice(["vdpm", "vdpm", "prepare", "simplify", "pack", "paint"])
    return Case(program, words, b"v 0 0 0\n")


def size_words(rng: Random) -> List[str]:
    sizes = ["1", "2", "100", "32767", str(rng.randint(1, 32_767))]
    return [rng.choice(sizes)] if rng.random() < 0.5 else []


def prepare_case(rng: Random) -> Case:
    text = soup_text(rng, random_soup(rng))
    if rng.random() < 0.1:
        text = damaged_text(rng, text)
    return Case("prepare", size_words(rng), text)


def file_case(rng: Random) -> Case:
    """A PLY or STL file, often with a fault."""
    return Case("prepare", size_words(rng), random_file(rng, random_soup(rng)))


def prepared_case(rng: Random) -> Case:
    """What `prepare` wrote goes through `prepare` again, or through `canon` or `build`."""
    text = answer("prepare", size_words(rng), soup_text(rng, random_soup(rng))).output
    program, *words = rng.choice([["prepare"], ["prepare"], ["vdpm", "canon"], ["vdpm", "build"]])
    return Case(program, words, text)


def pack_case(rng: Random) -> Case:
    h, stream = random_stream(rng, random_mesh(rng))
    if rng.random() < 0.3:
        stream = bad_stream(rng, h, stream)
    return Case("pack", [], stream)


def random_packed(rng: Random, stream: bytes, kinds: List[str]) -> bytes:
    """A packed text that is damaged in one of the ways. Some say words that are no stream text."""
    packed = bytearray(packed_words(stream[: len(stream) // 4 * 4]))
    at = rng.randrange(len(packed))
    kind = rng.choice(kinds)
    if kind == "bit":
        packed[at] ^= 1 << rng.randrange(8)
    elif kind == "byte":
        packed[at] = rng.randrange(256)
    elif kind == "cut":
        del packed[at:]
    elif kind == "more":
        packed += rng.choice([b"\0", b"\n", b"q\nx"])
    return bytes(packed)


def unpack_case(rng: Random) -> Case:
    h, stream = random_stream(rng, random_mesh(rng))
    if rng.random() < 0.3:
        stream = bad_stream(rng, h, stream)
    kinds = ["whole", "bit", "bit", "byte", "cut", "more"]
    return Case("pack", ["--unpack"], random_packed(rng, stream, kinds))


def records_case(rng: Random) -> Case:
    """The first records of a packed text, of which most are cut off."""
    h, stream = random_stream(rng, random_mesh(rng))
    count = len(h.records)
    if rng.random() < 0.2:
        stream = bad_stream(rng, h, stream)
    packed = random_packed(rng, stream, ["whole", "bit", "cut", "cut", "cut", "more"])
    n = rng.choice([0, 1, rng.randint(0, count), count, count + 1, 4_294_967_295])
    return Case("pack", ["--unpack", "--records", str(n)], packed)


def random_coat(rng: Random, h: Hierarchy) -> bytes:
    """A coat for a hierarchy, with some of the parts."""
    vertices, faces = len(h.leaf_nodes()), len(h.faces)
    most = rng.choice([300, 65_536, GREATEST])
    parts = rng.randint(1, 7)
    coat = Coat(
        [[rng.randrange(256) for _ in range(3)] for _ in range(vertices)] if parts & 1 else None,
        [[rng.randint(-most, most) for _ in range(2)] for _ in range(vertices)]
        if parts & 2 else None,
        [rng.randrange(256) for _ in range(faces)] if parts & 4 else None,
    )  # fmt: skip
    return coat_text(coat, vertices, faces)


def paint_case(rng: Random) -> Case:
    """A stream and a coat, of which about half are damaged."""
    h, stream = random_stream(rng, random_mesh(rng))
    coat = bytearray(random_coat(rng, h))
    if rng.random() < 0.1:
        stream = bad_stream(rng, h, stream)
    at = rng.randrange(rng.choice([20, len(coat)]))
    kind = rng.choice(["whole", "whole", "whole", "bit", "byte", "word", "cut", "more"])
    if kind == "bit":
        coat[at] ^= 1 << rng.randrange(8)
    elif kind == "byte":
        coat[at] = rng.randrange(256)
    elif kind == "word":
        word = rng.choice([GREATEST, GREATEST + 1, -GREATEST, -GREATEST - 1, 2**31 - 1])
        coat[at // 4 * 4 : at // 4 * 4 + 4] = word.to_bytes(4, "little", signed=True)
    elif kind == "cut":
        del coat[at:]
    elif kind == "more":
        coat += rng.choice([b"\0", b"\n", b"COAT"])
    return Case("paint", [], stream + bytes(coat))


KINDS: List[Tuple[Callable[[Random], Case], int]] = [
    (canon_case, 10),
    (build_case, 14),
    (simplify_case, 8),
    (stream_case, 16),
    (view_case, 22),
    (live_case, 14),
    (demo_case, 1),
    (words_case, 3),
    (prepare_case, 14),
    (file_case, 10),
    (prepared_case, 6),
    (pack_case, 4),
    (unpack_case, 8),
    (records_case, 8),
    (paint_case, 8),
]


def random_case(seed: int, number: int) -> Case:
    rng = Random(f"{seed} {number}")
    kinds, weights = [kind for kind, _ in KINDS], [weight for _, weight in KINDS]
    [kind] = rng.choices(kinds, weights)
    return kind(rng)


def without_notice(program: str, error: str) -> str:
    """The error lines but for the one that says that the program isn't proved yet."""
    lines = error.splitlines(keepends=True)
    return "".join(line for line in lines if not line.startswith(f"{program}: {NOTICE}"))


def ran(path: str, case: Case) -> Answer:
    """What the program answers. A program that doesn't end in time has status -1."""
    try:
        done = subprocess.run(
            [path, *case.words], input=case.data, capture_output=True, timeout=SECONDS
        )
    except subprocess.TimeoutExpired:
        return Answer(-1, b"", f"no end within {SECONDS} seconds\n")
    error = done.stderr.decode(errors="replace")
    return Answer(done.returncode, done.stdout, without_notice(case.program, error))


def compared(paths: Dict[str, str], case: Case) -> Outcome:
    got = ran(paths[case.program], case)
    return Outcome(case, answer(case.program, case.words, case.data), got)


def outcome_of(paths: Dict[str, str], seed: int, number: int) -> Optional[Outcome]:
    """The outcome of a case that differs, or None."""
    outcome = compared(paths, random_case(seed, number))
    return None if outcome.wanted == outcome.got else outcome


def first_difference(wanted: bytes, got: bytes) -> str:
    pairs = enumerate(zip(wanted, got))
    at = next((i for i, (a, b) in pairs if a != b), min(len(wanted), len(got)))
    begin = max(0, at - 30)
    return f"byte {at}: wanted {wanted[begin:at + 50]!r}\n    got {got[begin:at + 50]!r}"


def told(outcome: Outcome) -> str:
    """What differs, as comments, and then the case."""
    wanted, got = outcome.wanted, outcome.got
    lines = [f"# {outcome.case.command()}: what differs from the model"]
    if wanted.status != got.status:
        lines.append(f"# status: wanted {wanted.status}, got {got.status}")
    if wanted.error != got.error:
        lines.append(f"# error: wanted {wanted.error!r}, got {got.error!r}")
    if wanted.output != got.output:
        difference = first_difference(wanted.output, got.output)
        lines += ["# output, " + line.strip() for line in difference.split("\n")]
    return "\n".join(lines + [outcome.case.text()])


def read_case(path: str) -> Case:
    """The case of a file as this script prints it, with or without the lines round it."""
    lines = Path(path).read_text().splitlines()
    fields = json.loads(next(line for line in lines if line.startswith("{")))
    return Case(fields["program"], fields["words"], base64.b64decode(fields["input"]))


def again(paths: Dict[str, str], path: str, input_path: Optional[str]) -> int:
    case = read_case(path)
    if input_path is not None:
        Path(input_path).write_bytes(case.data)
    outcome = compared(paths, case)
    differs = outcome.wanted != outcome.got
    if differs:
        print(told(outcome))
    print(f"{int(not differs)} passed, {int(differs)} failed")
    return int(differs)


def all_cases(paths: Dict[str, str], seed: int, count: int, processes: int) -> int:
    failed: List[Outcome] = []
    with multiprocessing.Pool(processes) as pool:
        for outcome in pool.imap(partial(outcome_of, paths, seed), range(count), chunksize=8):
            if outcome is not None:
                failed.append(outcome)
                if len(failed) == 1:
                    print(told(outcome), flush=True)
    print(f"{count - len(failed)} passed, {len(failed)} failed")
    return int(bool(failed) or count == 0)


def main() -> int:
    parser = argparse.ArgumentParser(description="compares the programs with the model")
    parser.add_argument("seed", type=int, nargs="?")
    parser.add_argument("count", type=int, nargs="?")
    parser.add_argument("--vdpm", default=str(TOP / "vdpm"), help="the program, ./vdpm by default")
    parser.add_argument("--prepare", default=str(TOP / "prepare"), help="./prepare by default")
    parser.add_argument("--simplify", default=str(TOP / "simplify"), help="./simplify by default")
    parser.add_argument("--pack", default=str(TOP / "pack"), help="./pack by default")
    parser.add_argument("--paint", default=str(TOP / "paint"), help="./paint by default")
    parser.add_argument("--processes", type=int, help="as many as there are processors by default")
    parser.add_argument("--again", metavar="FILE", help="runs the case of this file alone")
    parser.add_argument("--write", metavar="FILE", help="with --again: puts the case's input there")
    asked = parser.parse_args()
    names = ("vdpm", "prepare", "simplify", "pack", "paint")
    paths = {name: getattr(asked, name) for name in names}
    for path in paths.values():
        if not Path(path).is_file():
            parser.error(f"no program stands at {path}")
    if asked.again:
        return again(paths, asked.again, asked.write)
    if asked.seed is None or asked.count is None or asked.count < 0:
        parser.error("SEED and COUNT are wanted, or --again FILE")
    return all_cases(paths, asked.seed, asked.count, asked.processes)


if __name__ == "__main__":
    sys.exit(main())
