"""Clauses as text in the docs of a function, so that these show what was proved."""
import re
from typing import Dict, List

HEAD = re.compile(r"(requires|ensures)(\*?)\s*")
TITLES = {"requires": "# Requires", "ensures": "# Ensures"}


def doc_lines(clauses: List[str]) -> List[str]:
    """The lines of docs that tell these clauses, without the marks of a comment."""
    told: Dict[str, List[str]] = {}
    for clause in clauses:
        head = HEAD.match(clause)
        assert head is not None
        first, *rest = clause[head.end() :].split("\n")
        lines = [head[2] + first, *("    " + line.strip() for line in rest)]
        told.setdefault(head[1], []).extend(lines)
    out: List[str] = []
    for word, title in TITLES.items():
        if word in told:
            out += [*([""] if out else []), title, "", "```text", *told[word], "```"]
    return out


def docs_of(clauses: List[str], indent: str, after_docs: bool) -> str:
    """The comment that tells them, each line but the first with its indent."""
    lines = ([""] if after_docs else []) + doc_lines(clauses)
    return "".join(f"///{' ' if line else ''}{line}\n{indent}" for line in lines)
