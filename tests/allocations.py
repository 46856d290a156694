"""Has each allocation of a program fail in turn, and looks what comes of it:

    python3 tests/allocations.py FOLDER

FOLDER has vdpm, prepare, simplify and pack, which take memory from the shared C library. A run in
which an allocation failed ends with status 5, and has written no byte that the whole answer hasn't
there; or it did without that memory, and has the whole answer. The line `out of memory` is said
where there was memory to say it. Needs `cc`. The last line is `N passed, M failed`.
"""
import os
import subprocess
import sys
import tempfile
from pathlib import Path
from typing import List, NamedTuple

from model.packed import packed_words

TOP = Path(__file__).resolve().parent.parent
EXAMPLES = TOP / "examples"
OUT_OF_MEMORY = 5
MOST_RUNS = 3000
FAILED = b"allocation failed\n"
# calloc is asked for memory before its own place is known: that comes from a pool.
FAILING = r"""
#define _GNU_SOURCE
#include <dlfcn.h>
#include <stdlib.h>
#include <unistd.h>
static int fails(void) {
    static long at = -1, done;
    if (at < 0) at = getenv("FAIL_AT") ? atol(getenv("FAIL_AT")) : 0;
    if (++done != at) return 0;
    return write(2, "allocation failed\n", 18) == 18;
}
void *malloc(size_t size) {
    static void *(*next)(size_t);
    if (!next) next = dlsym(RTLD_NEXT, "malloc");
    return fails() ? NULL : next(size);
}
void *realloc(void *at, size_t size) {
    static void *(*next)(void *, size_t);
    if (!next) next = dlsym(RTLD_NEXT, "realloc");
    return fails() ? NULL : next(at, size);
}
void *calloc(size_t count, size_t size) {
    static void *(*next)(size_t, size_t);
    static char pool[65536];
    static size_t used;
    static int asking;
    if (!next && asking) {
        void *at = pool + used;
        used += (count * size + 15) & ~(size_t)15;
        return at;
    }
    if (!next) asking = 1, next = dlsym(RTLD_NEXT, "calloc"), asking = 0;
    return fails() ? NULL : next(count, size);
}
"""


class Work(NamedTuple):
    """A run of a program."""

    program: str
    words: List[str]
    given: bytes


def works() -> List[Work]:
    obj, scan = (EXAMPLES / "torus.obj").read_bytes(), (EXAMPLES / "ring_scan.obj").read_bytes()
    script = (EXAMPLES / "octahedron_glide.script").read_bytes()
    stream = (EXAMPLES / "octahedron.vdpm").read_bytes()
    live, packed = stream + script, packed_words(stream)
    first = ["--unpack", "--records", "1"]
    return [
        Work("vdpm", ["canon"], obj), Work("vdpm", ["build", "400"], obj),
        Work("vdpm", ["live", "9"], live), Work("simplify", ["--keep-border"], obj),
        Work("prepare", ["100"], scan), Work("pack", [], stream),
        Work("pack", ["--unpack"], packed), Work("pack", first, packed),
    ]  # fmt: skip


def ran(path: Path, work: Work, **settings: str) -> "subprocess.CompletedProcess[bytes]":
    return subprocess.run([str(path), *work.words], input=work.given, capture_output=True,
                          env={**os.environ, **settings}, check=False)


def is_right(work: Work, done: "subprocess.CompletedProcess[bytes]",
             whole: "subprocess.CompletedProcess[bytes]") -> bool:
    """Whether a run with a failed allocation ended as it may."""
    errors = done.stderr.replace(FAILED, b"")
    if done.returncode == OUT_OF_MEMORY:
        told = errors in (b"", f"{work.program}: out of memory\n".encode())
        return told and whole.stdout.startswith(done.stdout)
    return (done.returncode, done.stdout, errors) == (0, whole.stdout, whole.stderr)


def counted(folder: Path, work: Work, failing: Path) -> List[int]:
    """Each allocation fails in turn: how many runs were right and how many weren't."""
    path, counts = folder / work.program, [0, 0]
    whole = ran(path, work)
    if whole.returncode:
        print(f"{work.program} {' '.join(work.words)}: status {whole.returncode}")
        return [0, 1]
    for number in range(1, MOST_RUNS + 1):
        done = ran(path, work, LD_PRELOAD=str(failing), FAIL_AT=str(number))
        if FAILED not in done.stderr:
            break
        wrong = not is_right(work, done, whole)
        counts[wrong] += 1
        if wrong:
            said = done.stderr[-80:]
            print(f"{work.program} {' '.join(work.words)}: allocation {number}: status"
                  f" {done.returncode}, {said!r}")
    print(f"{work.program} {' '.join(work.words)}: {sum(counts)} allocations", flush=True)
    return counts


def main() -> int:
    if len(sys.argv) != 2:
        print(__doc__, file=sys.stderr)
        return 64
    passed = failed = 0
    with tempfile.TemporaryDirectory(prefix="allocations-") as name:
        source, failing = Path(name) / "failing.c", Path(name) / "failing.so"
        source.write_text(FAILING, encoding="ascii")
        words = ["cc", "-shared", "-fPIC", "-O1", str(source), "-o", str(failing), "-ldl"]
        subprocess.run(words, check=True)
        for work in works():
            right, wrong = counted(Path(sys.argv[1]), work, failing)
            # (a program in which nothing fails doesn't take its memory from the C library)
            passed, failed = passed + right, failed + wrong + (right + wrong == 0)
    print(f"{passed} passed, {failed} failed")
    return 0 if passed and not failed else 1


if __name__ == "__main__":
    sys.exit(main())
