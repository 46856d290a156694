"""The spaces of a source once ghosts and clauses are gone from it."""
from typing import List

from .tokens import Token, Tokens, get


def merged(tokens: Tokens) -> List[Token]:
    """The tokens with neighbouring spaces as one."""
    out: List[Token] = []
    for token in tokens:
        if token.kind == "space" and out and out[-1].kind == "space":
            out[-1] = out[-1]._replace(text=out[-1].text + token.text)
        else:
            out.append(token)
    return out


def tidied(text: str, within: bool) -> str:
    """A space with no blanks at ends of lines, and at most one empty line; none within braces."""
    count = text.count("\n")
    if not count:
        return text
    return "\n" * (1 if within else min(count, 2)) + text.rpartition("\n")[2]


def spaced(tokens: Tokens) -> List[Token]:
    """The tokens with tidy spaces: no empty line after `{` or before `}`, none at the beginning."""
    whole = merged(tokens)
    if whole and whole[0].kind == "space":
        whole = whole[1:]
    out: List[Token] = []
    for at, token in enumerate(whole):
        if token.kind == "space":
            within = get(whole, at - 1).is_mark("{") or get(whole, at + 1).is_mark("}")
            token = token._replace(text=tidied(token.text, within))
        out.append(token)
    return out
