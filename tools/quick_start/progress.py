"""What a person can follow of a proof: the crates that are done and at work, and what is open."""
import re
import time
from pathlib import Path
from typing import Callable, Iterable, List, Sequence, Set

# The seconds without news after which some is given.
QUIET = 60
HEADING = re.compile(r"== (\w+)")
# A line that names a place of a crate, with or without `note: ` before it.
PLACE = re.compile(r"(?:note: )?(?:\./)?((?:\S*/)?(?:src|specs|proofs)/\S+?:\d+:\d+: .*)")
OPEN = re.compile(r"not proved|error")
UNPROVED = re.compile(r"fn \S+: (?:not proved|no proof)")
FAILING = re.compile(r"fn \S+: (?:not proved|no proof)|logic=not-proved|\S+:\d+:\d+: error")
SUMMARY = re.compile(r"(\w+): failed.*")
SHOWN, WIDTH = 6, 240


def open_goals(lines: Iterable[str]) -> List[str]:
    """The first lines of a failed check that tell what is open, and where."""
    found = []
    for line in lines:
        place = PLACE.match(line)
        if place and OPEN.search(line):
            found.append(place[1][:WIDTH])
        elif UNPROVED.match(line):
            found.append(line[:WIDTH])
    return found[:SHOWN]


def crates_at_work(top: Path) -> List[str]:
    """The crates that a process `rattle` has for its working folder now."""
    found: Set[str] = set()
    for process in Path("/proc").glob("[0-9]*"):
        try:
            folder = (process / "cwd").resolve(strict=True)
            is_rattle = (process / "comm").read_text() == "rattle\n"
            if is_rattle and folder.parent == top / "crates":
                found.add(folder.name)
        except OSError:
            # (another's process, or one that has ended)
            continue
    return sorted(found)


def open_crate(crate: str, lines: Sequence[str]) -> List[str]:
    """What is said of a crate that isn't proved: where it is open, or how its output ends."""
    found = open_goals(lines) or [line[:WIDTH] for line in lines[-3:]]
    return [f"crate {crate} is not proved:", *(f"    crates/{crate}: {line}" for line in found)]


class Watch:
    """Follows what `rt all check` prints, in which each crate's part comes whole, at its end."""

    def __init__(self, crates: Sequence[str], say: Callable[[str], None]) -> None:
        self.crates, self.say = crates, say
        self.begun = self.news = time.monotonic()
        self.name, self.done = "", 0
        self.lines: List[str] = []
        self.failed: List[str] = []
        self.is_failing = False

    def take(self, line: str) -> None:
        heading, summary = HEADING.fullmatch(line), SUMMARY.fullmatch(line)
        if heading:
            self.end_part()
            self.begin_part(heading[1])
        elif summary and self.name == "summary" and summary[1] not in self.failed:
            self.failed.append(summary[1])
            self.say(f"crate {summary[1]} is not proved: see build.log")
        else:
            self.lines.append(line)
            self.is_failing = self.is_failing or bool(FAILING.match(line))

    def begin_part(self, name: str) -> None:
        self.name, self.lines, self.is_failing = name, [], False
        if name in self.crates:
            self.done, self.news = self.done + 1, time.monotonic()
            self.say(f"{self.so_far()}: {name}")

    def end_part(self) -> None:
        """Tells the goals that are open where the crate of the last part failed."""
        if self.is_failing and self.name in self.crates:
            self.failed.append(self.name)
            self.say("\n".join(open_crate(self.name, self.lines)))
        self.is_failing = False

    def so_far(self) -> str:
        minutes, seconds = divmod(int(time.monotonic() - self.begun), 60)
        done = f"{self.done} of {len(self.crates)} crates done"
        return f"{done}, {minutes}:{seconds:02} minutes so far"

    def wait(self, top: Path) -> None:
        """Nothing came for a moment, so the last part is whole. Now and then tells what goes on."""
        self.end_part()
        if time.monotonic() - self.news > QUIET:
            self.news = time.monotonic()
            at_work = ", ".join(crates_at_work(top)) or "a first look at the sources"
            self.say(f"{self.so_far()}; at work: {at_work}")
