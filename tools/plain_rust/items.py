"""Bounds, calls and tests that Rust says otherwise."""
from typing import List

from .stop import Refusal
from .tokens import (Token, Tokens, after, after_bracket, code_at, follows, get, made, name_of,
                     start_of_indent, word_at)


def without_drop(tokens: Tokens) -> List[Token]:
    """The tokens without the bound `Drop`. A trait that has it is sized, as all are in Rattle."""
    out: List[Token] = []
    at = 0
    while at < len(tokens):
        token = tokens[at]
        if token.is_word("Drop"):
            at = drop_bound(out, tokens, at)
            continue
        out.append(token)
        at += 1
    return out


def drop_bound(out: List[Token], tokens: Tokens, at: int) -> int:
    """Leaves out the bound at `at` with the mark that joins it, and returns where to go on."""
    while out and not out[-1].is_code:
        out.pop()
    before, rest = get(out, len(out) - 1), code_at(tokens, at + 1)
    if before.is_mark("+"):
        out.pop()
        while out and not out[-1].is_code:
            out.pop()
        return at + 1
    if not before.is_mark(":"):
        raise Refusal(tokens[at].line, "`Drop` where no bound stands")
    if follows(tokens, rest, "+"):
        out.append(Token("space", " ", tokens[at].line))
        return code_at(tokens, rest + 1)
    if is_of_trait(out):
        out += made(" Sized", tokens[at].line)
    else:
        out.pop()
    return at + 1


def is_of_trait(out: Tokens) -> bool:
    """Whether what is put out so far ends in `trait NAME:`."""
    code = [token for token in out[-12:] if token.is_code]
    return len(code) > 2 and code[-3].is_word("trait")


def with_collect(tokens: Tokens) -> List[Token]:
    """`collect(alloc)` as a method of another name, since Rust's takes nothing."""
    out = list(tokens)
    for at, token in enumerate(tokens):
        if token.is_word("collect") and follows(tokens, at + 1, "("):
            if not get(tokens, at - 1).is_mark("."):
                raise Refusal(token.line, "`collect` that is no method's call")
            if not follows(tokens, at + 1, "(", ")"):
                out[at] = token._replace(text="collect_in")
    return out


def with_tests(tokens: Tokens) -> List[Token]:
    """A test that takes the runtime gets one beside it that takes nothing and calls it."""
    out: List[Token] = []
    at = 0
    while at < len(tokens):
        token = tokens[at]
        if token.kind == "attribute" and name_of(token) == "test":
            if not follows(tokens, at + 1, "fn"):
                raise Refusal(token.line, "a test of a form that isn't known")
            if takes_runtime(tokens, at + 1):
                end = end_of_function(tokens, at + 1)
                out += function_and_test(tokens[at:end], start_of_indent(tokens, at))
                at = end
                continue
        out.append(token)
        at += 1
    return out


def takes_runtime(tokens: Tokens, at: int) -> bool:
    """Whether the function whose `fn` is the next code has the runtime for its one parameter."""
    opens = code_at(tokens, after(tokens, at, 2))
    if follows(tokens, opens, "(", ")"):
        return False
    named = follows(tokens, after(tokens, opens, 2), ":", "HostRuntime", ")")
    if not tokens[opens].is_mark("(") or not named:
        raise Refusal(tokens[at].line, "a test whose parameters aren't known")
    return True


def end_of_function(tokens: Tokens, at: int) -> int:
    while not tokens[at].is_mark("{"):
        at += 1
    return after_bracket(tokens, at)


def function_and_test(test: Tokens, indent: str) -> List[Token]:
    """The test as a plain function, and a test that calls it."""
    name = word_at(test, after(test, 1, 1))
    call = f"crate::rattle_std::test::pass({name}(HostRuntime::of_tests()));"
    lines = ["", "", "#[test]", f"fn {name}_runs() {{", f"    {call}", "}"]
    beside = "\n".join((indent if line else "") + line for line in lines)
    return [*test[code_at(test, 1) :], *made(beside, test[0].line)]
