"""The text beside a release: of what it was made, and what is known of it."""
import re
import subprocess
import time
from pathlib import Path
from typing import Dict, List, Optional

from .building import WANTED_GLIBC, Built

LOGIC = re.compile(r"`(rattle-kit-\w+)` \(logic `([0-9a-f]+)`")
TEXT = """vdpm {version}

Made of commit {commit}, of {time}.

The sources are written in Rattle and proved: {kit}, logic {logic}.
Nothing here is proved: a script takes the contracts out of the sources, and rustc compiles what it
leaves. Tests compare all of it with what the proved programs answer; no proof does.

The programs and libraries are for Linux on x86-64. Each file is named by this version.
{files}
Compilers:
{compilers}
`sha256sum -c SHA256SUMS` looks whether the files are whole.
"""


def git(top: Path, *words: str) -> str:
    done = subprocess.run(["git", *words], cwd=top, stdout=subprocess.PIPE, check=True)
    return done.stdout.decode().strip()


def time_of(top: Path, commit: str) -> str:
    """The time of a commit, so that a release made twice is the same."""
    seconds = int(git(top, "log", "-1", "--format=%ct", commit))
    return time.strftime("%Y-%m-%d %H:%M:%S UTC", time.gmtime(seconds))


def proof_of(top: Path) -> Dict[str, str]:
    """The kit and the logic that README.md says main is proved with."""
    found = LOGIC.search((top / "README.md").read_text(encoding="utf-8"))
    kit, logic = (found[1], found[2]) if found else ("a kit that isn't told", "unknown")
    return {"kit": kit, "logic": logic}


def lines_of_files(built: Built, module: Optional[str]) -> List[str]:
    """What each file is."""
    lines = [
        f"- ..-x86_64-linux.tar.gz: the programs, linked {built.linked}, so that they ask for no",
        "  library; and libvdpm with its header. libvdpm.so.1 asks for glibc"
        f" 2.{built.glibc} or later.",
    ]
    if built.glibc > WANTED_GLIBC:
        lines.append("  (with `--glibc FOLDER`, an older glibc, it asks for less)")
    lines.append("- ..whl: `import vdpm` for Python, with the same library in it.")
    lines.append("- ..-rust.tar.gz: the Cargo package; `cargo doc --open` shows it.")
    if module is None:
        lines.append("- There is no WebAssembly module: no compiler for it was there.")
    else:
        lines.append("- ..-wasm.tar.gz: the WebAssembly module, and a class in JavaScript over it;")
        lines.append(f"  made by {module}.")
    return lines


def text(version: str, told: Dict[str, str], built: Built, module: Optional[str],
         compilers: List[str]) -> str:
    files = "".join(f"\n{line}" for line in lines_of_files(built, module)) + "\n"
    by = "".join(f"- {line}\n" for line in compilers)
    return TEXT.format(version=version, files=files, compilers=by, **told)
