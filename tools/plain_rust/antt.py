"""Where the ghosts and clauses of a source end: their braces hold antt, which isn't Rust."""
import re

from .stop import Stop

GHOST_USE = re.compile(r"ghost\s+use\b[^;{}]*(?:\{[^{}]*\})?[^;{}]*;")
GHOST = re.compile(r"ghost\s+[\w«»]+\s*[:=]\s*(?=\{)")
GHOST_VALUE = re.compile(r"\s*=\s*(?=\{)")
GHOST_END = re.compile(r"\s*[;,]")
CLAUSE = re.compile(r"(?:requires|ensures)\*?\s*[\w«»]*\s*(?=\{)")
# Braces, strings, and what could hide one of these from a count.
NEXT = re.compile(r"""(?P<hiding>--|\{-|'[{}"]')|"(?:\\.|[^"\\])*"|[{}]""", re.S)


def after_braces(text: str, at: int) -> int:
    """The place after the braces that open at `at`."""
    depth = 0
    for found in NEXT.finditer(text, at):
        if found["hiding"]:
            raise Stop("a comment or a character in antt", text, found.start())
        depth += (found.group() == "{") - (found.group() == "}")
        if depth == 0:
            return found.end()
    raise Stop("braces that don't end", text, at)


def ghost_end(text: str, at: int) -> int:
    """The place after the ghost that begins at `at`, with the mark that parts it from the next."""
    used = GHOST_USE.match(text, at)
    if used:
        return used.end()
    found = GHOST.match(text, at)
    if not found:
        raise Stop("a ghost of a form that isn't known", text, at)
    end = after_braces(text, found.end())
    value = GHOST_VALUE.match(text, end)
    if value:
        end = after_braces(text, value.end())
    mark = GHOST_END.match(text, end)
    return mark.end() if mark else end


def clause_end(text: str, at: int) -> int:
    """The place after the clause that begins at `at`."""
    found = CLAUSE.match(text, at)
    if not found:
        raise Stop("a clause of a form that isn't known", text, at)
    return after_braces(text, found.end())
