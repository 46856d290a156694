"""The macros that Rattle has otherwise."""
from typing import List

from .tokens import Token, Tokens, after_bracket, code_at, follows, get


def with_macros(tokens: Tokens) -> List[Token]:
    """`prove!` as an assertion, `vec![in ..]` as the package's, and `assert!(rt; ..)` as Rust's."""
    out: List[Token] = []
    in_constant, at = False, 0
    while at < len(tokens):
        token = tokens[at]
        in_constant = begins_constant(tokens, at) or in_constant and not token.is_mark(";")
        is_macro = token.kind == "word" and follows(tokens, at + 1, "!")
        if is_macro and token.text.startswith("prove"):
            start = "assert" if in_constant else "debug_assert"
            token = token._replace(text=start + token.text[len("prove") :])
        elif is_macro and token.text == "vec" and has_allocator(tokens, at):
            token = token._replace(text="crate::rattle_std::try_vec")
        elif is_macro and token.text.startswith("assert"):
            out += without_runtime(tokens, at)
            at = after_runtime(tokens, at)
            continue
        out.append(token)
        at += 1
    return out


def begins_constant(tokens: Tokens, at: int) -> bool:
    """Whether `const` stands there, and not that of a pointer or of a function."""
    if not tokens[at].is_word("const"):
        return False
    return not get(tokens, at - 1).is_mark("*") and not follows(tokens, at + 1, "fn")


def bracket_of(tokens: Tokens, at: int) -> int:
    """Where the bracket opens of the macro that is called at `at`."""
    return code_at(tokens, code_at(tokens, at + 1) + 1)


def has_allocator(tokens: Tokens, at: int) -> bool:
    return follows(tokens, bracket_of(tokens, at) + 1, "in")


def after_runtime(tokens: Tokens, at: int) -> int:
    """The place after `rt;` in the brackets of the assertion at `at`; or where these open."""
    opens = bracket_of(tokens, at)
    for end in range(opens + 1, after_bracket(tokens, opens) - 1):
        if tokens[end].is_mark(";"):
            return code_at(tokens, end + 1)
        if tokens[end].is_code and tokens[end].kind != "word":
            break
    return opens + 1




def without_runtime(tokens: Tokens, at: int) -> List[Token]:
    """The beginning of the assertion at `at`, up to its arguments."""
    opens = bracket_of(tokens, at)
    return [get(tokens, place) for place in range(at, opens + 1)]
