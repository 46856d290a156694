"""An `impl Display` for each enum that derives `Error` of the kit's crate thiserror."""
import re
from typing import Iterator, List, NamedTuple, Tuple

from .stop import Refusal
from .tokens import (Token, Tokens, after, after_bracket, code_at, follows, get, inside, made,
                     name_of, only_code, split, word_at)

DISPLAY = """

impl std::fmt::Display for {name} {{
    fn fmt(&self, f: &mut std::fmt::Formatter<'_>) -> std::fmt::Result {{
        match self {{
{arms}        }}
    }}
}}

impl std::error::Error for {name} {{}}"""
PLACE = re.compile(r"\{(\d+)\}")


class Variant(NamedTuple):
    """A variant of an error: its message, with the quotes, and the pattern of its parts."""

    name: str
    message: str
    pattern: str


def with_errors(tokens: Tokens) -> List[Token]:
    out: List[Token] = []
    at = 0
    while at < len(tokens):
        token = tokens[at]
        if token.kind == "attribute" and derives_error(token):
            end, put = error_at(tokens, at)
            out += put
            at = end
            continue
        if token.kind == "attribute" and name_of(token) == "error":
            raise Refusal(token.line, "a message beside no variant of an error")
        out.append(token)
        at += 1
    return out


def derives_error(attribute: Token) -> bool:
    words = inside(attribute)
    return words[0].text == "derive" and any(word.is_word("Error") for word in words)


def error_at(tokens: Tokens, at: int) -> Tuple[int, List[Token]]:
    """The end of the enum whose derive stands at `at`, and what stands in its place."""
    derive, start = tokens[at], code_at(tokens, at + 1)
    head = start + 1 if follows(tokens, start, "pub", "enum") else start
    name = word_at(tokens, after(tokens, head, 1))
    opens = code_at(tokens, after(tokens, head, 2))
    if not follows(tokens, head, "enum") or not get(tokens, opens).is_mark("{"):
        raise Refusal(derive.line, "an error of a form that isn't known")
    end = after_bracket(tokens, opens)
    body = tokens[opens + 1 : end - 1]
    arms = "".join(
        f"            {name}::{it.name}{it.pattern} => write!(f, {it.message}),\n"
        for it in variants(body)
    )
    names = [it.text for it in inside(derive)[1:] if it.kind == "word" and it.text != "Error"]
    plain = derive._replace(text=f"#[derive({', '.join(names)})]")
    whole = [plain, *tokens[at + 1 : opens + 1], *without_messages(body), tokens[end - 1]]
    return end, [*whole, *made(DISPLAY.format(name=name, arms=arms), derive.line)]


def variants(body: Tokens) -> Iterator[Variant]:
    for part in split(body, ","):
        code = only_code(part)
        if len(code) < 2 or code[0].kind != "attribute" or name_of(code[0]) != "error":
            raise Refusal(part[0].line, "a variant of an error without a message")
        message = inside(code[0])
        if len(message) != 4 or message[2].kind != "string" or code[1].kind != "word":
            raise Refusal(code[0].line, "a message of a form that isn't known")
        yield variant(code[1].text, message[2].text, code[2:])


def variant(name: str, message: str, parts: List[Token]) -> Variant:
    if not parts:
        return Variant(name, message, "")
    fields = list(split(parts[1:-1], ","))
    if parts[0].is_mark("("):
        pattern = ", ".join(f"x{number}" for number in range(len(fields)))
        return Variant(name, PLACE.sub(r"{x\1}", message), f"({pattern})")
    return Variant(name, message, " { " + ", ".join(field[0].text for field in fields) + " }")


def without_messages(body: Tokens) -> List[Token]:
    out: List[Token] = []
    at = 0
    while at < len(body):
        if body[at].kind == "attribute":
            # (what stood before it is the indent of what comes next)
            at += 1 + (get(body, at + 1).kind == "space")
            continue
        out.append(body[at])
        at += 1
    return out
