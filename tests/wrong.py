"""Tries wrong bodies, crate by crate: ./test wrong [CRATE..]

Each stands in tests/wrong_bodies/list.txt: a change of lines in one function, and the clause or
goal that has to refuse it. It is tried on a copy of the repository, over what was proved here: the
libraries below the crate have to stand. Bodies of different functions are tried in one check.

For each body one line says what came of it; it fails where the function is still proved, where
other goals alone refuse it, or where it doesn't apply. The last line is `N passed, M failed`, and
docs/wrong-bodies.txt keeps what came of the last run of each crate.
"""
import os
import re
import shutil
import subprocess
import sys
import tempfile
import time
from pathlib import Path
from typing import Dict, Iterator, List, NamedTuple, Optional, Sequence, Tuple

TOP = Path(__file__).resolve().parent.parent
LIST = TOP / "tests/wrong_bodies/list.txt"
RECORD = TOP / "docs/wrong-bodies.txt"
ONCE = ("body", "crate", "function", "by", "file")
JOBS = "2"
HEAD = "The wrong bodies of tests/wrong_bodies/list.txt at the last `./test wrong` of each crate."
# What a check says of a function, of a goal, and of an answer that isn't taken.
FUNCTION_LINE = re.compile(r"^fn (\S+): (.*)")
GOAL_LINE = re.compile(r"^note: \S+: .*\(`([^`]+)`\)")
NAMED_GOALS = re.compile(r"did not prove ((?:`[^`]+`(?:, )?)+)")
ERROR_LINE = re.compile(r"^(?:\./)?((?:proofs|src)/\S+): error: (?:`([^`]+)`: )?(.*)")
# An answer stands in a folder that is named after its function.
ANSWER = re.compile(r"proofs/(.+)/\w+\.antt:")


class ListFault(Exception):
    """What is wrong with the list, and in which line."""


class Body(NamedTuple):
    """A wrong body: what it does, where it stands, its lines, and what has to refuse it."""

    name: str
    crate: str
    function: str
    by: List[str]
    changes: List[Tuple[str, str, str]]  # (the file, the old lines and the new one)


class Outcome(NamedTuple):
    body: Body
    passed: bool
    told: str


def bodies_in(text: str) -> List[Body]:
    """The bodies of a list. Raises ListFault where a line isn't as it has to be."""
    found: List[Body] = []
    once: Dict[str, str] = {}
    changes: List[Tuple[str, str, str]] = []
    old: List[str] = []
    for number, line in enumerate([*text.splitlines(), ""], 1):
        key, _, value = line.partition(": ") if ": " in line else line.partition(":")
        if line.startswith("#"):
            continue
        if not line.strip():
            if once:
                found.append(body_of(once, changes, number))
            once, changes, old = {}, [], []
        elif key in ONCE and (key == "file" or key not in once):
            once[key] = value.strip()
        elif key == "old" and "file" in once:
            old.append(value)
        elif key == "new" and old:
            changes.append((once["file"], "\n".join(old), value))
            old = []
        else:
            raise ListFault(f"line {number}: `{line}` isn't expected here")
    names = [body.name for body in found]
    twice = next((name for name in names if names.count(name) > 1), None)
    if twice is not None:
        raise ListFault(f"`{twice}` stands twice")
    return found


def body_of(once: Dict[str, str], changes: List[Tuple[str, str, str]], number: int) -> Body:
    missing = [key for key in ONCE if key not in once]
    if missing or not changes:
        raise ListFault(f"before line {number}: no `{(missing or ['old'])[0]}`")
    return Body(once["body"], once["crate"], once["function"], once["by"].split(), list(changes))


def changed(folder: Path, body: Body) -> Optional[Dict[Path, str]]:
    """The texts of the files with a body; none where a line isn't there exactly once."""
    texts: Dict[Path, str] = {}
    for file, old, new in body.changes:
        path = folder / file
        if path not in texts and not path.is_file():
            return None
        text = "\n" + texts.get(path, path.read_text(encoding="utf-8"))
        if text.count(f"\n{old}\n") != 1:
            return None
        texts[path] = text.replace(f"\n{old}\n", f"\n{new}\n")[1:]
    return texts


def batches(bodies: Sequence[Body]) -> List[List[Body]]:
    """The bodies in groups, each of which has one body of a function at most."""
    groups: List[List[Body]] = []
    for body in bodies:
        fits = (g for g in groups if all(other.function != body.function for other in g))
        group = next(fits, None)
        if group is None:
            group = []
            groups.append(group)
        group.append(body)
    return groups


def answered(place: str) -> str:
    """The function that an answer at this place of a crate is of; empty where it is none."""
    found = ANSWER.match(place)
    return found[1].replace("/", "::") if found else ""


def said_of(function: str, text: str) -> Tuple[Optional[str], List[str]]:
    """What a check says of a function, and the goals at which it fails: those told before its line
    and after that of another function, and its answers that aren't taken, wherever they stand."""
    goals: List[str] = []
    refused: List[str] = []
    for line in text.splitlines():
        goal, error, fn = (form.match(line) for form in (GOAL_LINE, ERROR_LINE, FUNCTION_LINE))
        if goal:
            goals.append(goal[1])
        elif error:
            of = answered(error[1])
            own = function.endswith(f"::{of}") if of else False
            (refused if own else goals).append(error[2] or error[3][:60])
        elif fn:
            named = NAMED_GOALS.search(fn[2])
            if named:
                goals += [g for g in re.findall(r"`([^`]+)`", named[1]) if g not in goals]
            if fn[1] == function:
                return fn[2], goals + refused
            goals = []
    return None, goals


def outcome(body: Body, text: str) -> Outcome:
    """What came of a body, by what a check of its function says."""
    told, goals = said_of(f"{body.crate}::{body.function}", text)
    if told is None:
        last = [line for line in text.splitlines() if line.strip()][-1:]
        return Outcome(body, False, f"not judged: {(last or ['nothing was said'])[0][:60]}")
    if told.startswith("proved"):
        return Outcome(body, False, "PROVED")
    met = [goal for goal in goals if any(part in goal for part in body.by)]
    if met:
        return Outcome(body, True, f"refused by {met[0]}")
    return Outcome(body, False, f"refused, but by {', '.join(goals[:2]) or told[:60]}")


def tried(folder: Path, bodies: Sequence[Body]) -> Iterator[Outcome]:
    """Tries bodies of one crate in its folder, in as few checks as can be."""
    for group in batches(bodies):
        before: Dict[Path, str] = {}
        applied: List[Body] = []
        for body in group:
            texts = changed(folder, body)
            if texts is None:
                yield Outcome(body, False, "doesn't apply")
                continue
            applied.append(body)
            for path, text in texts.items():
                before.setdefault(path, path.read_text(encoding="utf-8"))
                path.write_text(text, encoding="utf-8")
        if applied:
            said = check(folder, applied)
            yield from (outcome(body, said) for body in applied)
        for path, text in before.items():
            path.write_text(text, encoding="utf-8")


def check(folder: Path, bodies: Sequence[Body]) -> str:
    only = [word for body in bodies for word in ("--only", f"{body.crate}::{body.function}")]
    words = ["rt", "check", *only, "--jobs", JOBS]
    pipe, both = subprocess.PIPE, subprocess.STDOUT
    run = subprocess.run(words, cwd=folder, stdout=pipe, stderr=both, check=False)
    return run.stdout.decode(errors="replace")


def below(crate: str, top: Path) -> List[str]:
    """The crates of the repository that a crate stands on, itself among them."""
    uses: Dict[str, List[str]] = {}
    for line in (top / "crates.txt").read_text(encoding="utf-8").splitlines():
        name, _, rest = line.partition(":")
        if not line.startswith("#"):
            uses[name.split()[0] if name.split() else ""] = rest.split()
    found, left = [], [crate]
    while left:
        name = left.pop()
        if name in uses and name not in found:
            found.append(name)
            left += uses[name]
    return sorted(found)


def copy_of(top: Path, room: Path, crates: Sequence[str]) -> Optional[str]:
    """Copies the repository, with the libraries that are proved and the crates' kept work.

    Answers a crate whose library isn't there though one of these stands on it.
    """
    shutil.copytree(top, room, ignore=shutil.ignore_patterns("out", ".git", "unproved", "proved"))
    # (what is proved is linked, since it is large and only read; a check writes to the kept work)
    for crate in crates:
        for name in below(crate, top):
            made, to = top / "crates" / name / "out/rlib", room / "crates" / name / "out/rlib"
            if made.is_dir() and not to.exists():
                shutil.copytree(made, to, copy_function=os.link)
            elif name != crate and not to.exists():
                return name
        kept = top / "crates" / crate / "out/incremental"
        if kept.is_dir():
            shutil.copytree(kept, room / "crates" / crate / "out/incremental")
    return None


def commit_of(top: Path) -> str:
    words = ["git", "-C", str(top), "rev-parse", "--short", "HEAD"]
    pipe, quiet = subprocess.PIPE, subprocess.DEVNULL
    run = subprocess.run(words, stdout=pipe, stderr=quiet, check=False)
    return run.stdout.decode().strip() or "none"


def kept_lines(record: str) -> Dict[str, List[str]]:
    """What a record keeps of each crate: its line, and those of its bodies under it."""
    blocks: Dict[str, List[str]] = {}
    for block in record.split("\n\n")[1:]:
        lines = block.strip("\n").split("\n")
        blocks[lines[0].split(":")[0]] = lines
    return blocks


def with_run(record: str, crate: str, commit: str, minutes: float, done: List[Outcome]) -> str:
    """The record with what came of a crate's bodies in place of what it had of them."""
    blocks = kept_lines(record)
    refused = sum(one.passed for one in done)
    head = f"{crate}: {refused} of {len(done)} refused, at {commit}, {minutes:.1f} minutes"
    blocks[crate] = [head, *(f"    {one.body.name}: {one.told}" for one in done)]
    parts = [HEAD, *("\n".join(blocks[name]) for name in sorted(blocks))]
    return "\n\n".join(parts) + "\n"


def main(names: List[str]) -> int:
    if "--help" in names:
        print(__doc__, end="")
        return 0
    try:
        bodies = bodies_in(LIST.read_text(encoding="utf-8"))
    except ListFault as fault:
        print(f"{LIST.name}: {fault}")
        return 1
    known = sorted({body.crate for body in bodies})
    unknown = [name for name in names if name not in known]
    if unknown:
        print(f"{LIST.name} has no body of a crate `{unknown[0]}`")
        return 2
    crates = names or known
    passed = failed = 0
    with tempfile.TemporaryDirectory(prefix="wrong-") as room:
        top = Path(room) / "top"
        missing = copy_of(TOP, top, crates)
        if missing is not None:
            print(f"{missing} isn't proved here: run `rt lib` in crates/{missing}")
            return 1
        for crate in crates:
            began = time.monotonic()
            own = [body for body in bodies if body.crate == crate]
            done = []
            for one in tried(top / "crates" / crate, own):
                print(f"{crate}: {one.body.name}: {one.told}", flush=True)
                done.append(one)
            passed += sum(one.passed for one in done)
            failed += sum(not one.passed for one in done)
            minutes = (time.monotonic() - began) / 60
            old = RECORD.read_text(encoding="utf-8") if RECORD.is_file() else ""
            RECORD.write_text(with_run(old, crate, commit_of(TOP), minutes, done))
    print(f"{passed} passed, {failed} failed")
    return 0 if passed and not failed else 1


if __name__ == "__main__":
    sys.exit(main(sys.argv[1:]))
