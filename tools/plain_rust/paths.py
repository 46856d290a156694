"""Paths of the package in place of those of std, of the kit's crates and of the repository's."""
from typing import AbstractSet, List

from .stop import Refusal
from .tokens import Token, Tokens, code_at, follows, get

SHIM = "crate::rattle_std"
STD = ("std", "core")
KIT_CRATES = ("arrayvec", "byteorder", "itoa", "std_alloc", "thiserror")
# Names that have no meaning in Rust, by the path that leads to them.
NO_NAMES = (("std", "marker", "Model"), ("thiserror", "Error"))


def with_paths(tokens: Tokens, crate: str, below: AbstractSet[str]) -> List[Token]:
    """The tokens with each path that begins at the name of a crate, itself or one below, as one of
    the package."""
    out: List[Token] = []
    before = ["", "", ""]
    for at, token in enumerate(tokens):
        text = token.text
        if token.is_word("mod") and get(tokens, code_at(tokens, at + 1)).text in below:
            raise Refusal(token.line, "a module with the name of a crate")
        if token.kind == "word" and follows(tokens, at + 1, ":", ":"):
            text = place_of(token, crate, below)
            if text != token.text and before[1:] == [":", ":"]:
                if not is_inner(before[0]):
                    raise Refusal(token.line, f"a path from the root: ::{token.text}")
                text = token.text
        out.append(token._replace(text=text))
        if token.is_code:
            before = [*before[1:], token.text]
    return out


def is_inner(before: str) -> bool:
    """Whether `::` after this goes on with a path, and begins none at the root."""
    return before == ">" or before.isidentifier() and before not in ("use", "in", "as", "return")


def place_of(token: Token, crate: str, below: AbstractSet[str]) -> str:
    """Where a path begins in the package that begins with this word."""
    if token.text in STD:
        return SHIM
    if token.text == "crate":
        return f"crate::{crate}"
    if token.text in below:
        return f"crate::{token.text}"
    return f"{SHIM}::{token.text}" if token.text in KIT_CRATES else token.text


def without_no_names(tokens: Tokens) -> List[Token]:
    """The tokens without the imports of names that Rust has no use for."""
    out = list(tokens)
    for *path, name in NO_NAMES:
        marks = [text for word in path for text in (word, ":", ":")]
        at = 0
        while at < len(out):
            if out[at].is_word("use") and follows(out, at + 1, *marks):
                out[at:] = shortened(out[at:], len(marks), name)
            at += 1
    return out


def shortened(tokens: List[Token], count: int, name: str) -> List[Token]:
    """The tokens, which begin with an import, without one of its names."""
    at = 1
    for _ in range(count):
        at = code_at(tokens, at) + 1
    if follows(tokens, at, name, ";"):
        end = code_at(tokens, code_at(tokens, at) + 1) + 1
        # (its line goes with it)
        rest = tokens[end:]
        if rest and rest[0].kind == "space":
            rest[0] = rest[0]._replace(text=rest[0].text.partition("\n")[2])
        return rest
    if not follows(tokens, at, "{"):
        return tokens
    return without_member(tokens, code_at(tokens, at), name)


def without_member(tokens: List[Token], opens: int, name: str) -> List[Token]:
    """The tokens without one of the names between the braces that open there."""
    closes = next(at for at in range(opens, len(tokens)) if tokens[at].is_mark("}"))
    words = [it.text for it in tokens[opens + 1 : closes] if it.is_code and it.text != ","]
    if name not in words:
        return tokens
    kept = [word for word in words if word != name]
    text = kept[0] if len(kept) == 1 else "{" + ", ".join(kept) + "}"
    line = tokens[opens].line
    return [*tokens[:opens], Token("word", text, line), *tokens[closes + 1 :]]
