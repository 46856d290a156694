"""One source: from the text in Rattle to the text in Rust."""
from typing import AbstractSet, List, NamedTuple

from .errors import with_errors
from .exports import with_exports
from .ghosts import without_ghosts
from .items import with_collect, with_tests, without_drop
from .macros import with_macros
from .paths import with_paths, without_no_names
from .refused import refuse
from .spacing import spaced
from .tokens import Token, Tokens, joined, lex, made

PRELUDE = "use crate::rattle_std::prelude::*;\n"


class Source(NamedTuple):
    """A source in Rust, and the functions of C that go with it."""

    text: str
    exports: List[str]


def erased(text: str, module: str, crate: str, below: AbstractSet[str]) -> Source:
    """The source in Rust, of a module of a crate above these others, by these steps alone."""
    tokens = lex(text)
    refuse(tokens)
    left = without_drop(without_ghosts(tokens))
    left = with_paths(without_no_names(left), crate, below)
    # (what these write has its paths already)
    left = with_tests(with_errors(with_collect(with_macros(left))))
    left, exports = with_exports(left, module)
    left = with_prelude(spaced(left))
    return Source(joined(left), exports)


def with_prelude(tokens: Tokens) -> List[Token]:
    """The tokens with the names that Rattle brings in everywhere, after the module's own docs."""
    head = 0
    for at, token in enumerate(tokens):
        if token.kind == "comment" and not token.text.startswith("//!") or token.is_code:
            break
        head = at + 1
    begins_with_use = head < len(tokens) and tokens[head].is_word("use")
    gap = "" if begins_with_use else "\n"
    return [*tokens[:head], *made(PRELUDE + gap), *tokens[head:]]
