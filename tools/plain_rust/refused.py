"""Forms that both languages accept and run differently, by the kit's page FROM_RUST; and those of
which nothing is known. Tokens don't show all: which method a call picks isn't among them."""
from typing import FrozenSet, List

from .stop import Refusal
from .tokens import END, OPENING, Token, Tokens, get, only_code

# Words, and what of them Rust would run differently.
WORDS = {
    "dyn": "a trait object",
    "anyhow": "an error that is printed otherwise",
    "thread": "a thread",
    "Send": "a thread",
    "Sync": "a thread",
    "try_send": "a channel between threads",
    "try_recv": "a channel between threads",
    "crossbeam_channel": "a channel between threads",
    "macro_rules": "a macro of its own",
    "static": "a static",
    "async": "a state machine",
    "await": "a state machine",
}
# (an assertion ends both programs; `write!` and `format!` have another error)
MACROS: FrozenSet[str] = frozenset(
    ["assert", "assert_eq", "assert_ne", "matches", "prove", "prove_eq", "prove_ne", "unreachable",
     "vec"]
)  # fmt: skip
RANGE_ENDS = frozenset(")]{;,.")


def refuse(tokens: Tokens) -> None:
    """Stops where a form stands that Rust would run differently."""
    code = [it for it in only_code(tokens) if it.kind not in ("ghost", "clause", "attribute")]
    for at, token in enumerate(code):
        if token.kind == "word":
            refuse_word(code, at)
        elif token.is_mark(".") and get(code, at + 1).is_mark("."):
            if not get(code, at - 1).is_mark("."):
                refuse_range(code, at)


def refuse_word(code: List[Token], at: int) -> None:
    token, after, before = code[at], get(code, at + 1), get(code, at - 1)
    why = WORDS.get(token.text)
    if why:
        raise Refusal(token.line, f"{why}, which Rust runs differently: {token.text}")
    if token.text == "clone" and after.is_mark("(") and before.text in (".", ":"):
        raise Refusal(token.line, "a clone, which is a Result here and a value in Rust")
    if token.text in ("once", "empty") and get(code, at - 3).is_word("iter"):
        raise Refusal(token.line, f"an iterator of another type in Rust: iter::{token.text}")
    is_macro = after.is_mark("!") and not get(code, at + 2).is_mark("=")
    if is_macro and get(code, at + 2).text in OPENING and token.text not in MACROS:
        raise Refusal(token.line, f"a macro that isn't known: {token.text}!")
    if token.text == "Drop" and after.is_word("for"):
        raise Refusal(token.line, "a drop of its own, which takes the value here")


def refuse_range(code: List[Token], at: int) -> None:
    """Stops at a range without an end, unless it is an index, and at `..base`, unless the base is
    made there by a call without arguments: no other name has it, and a drop does nothing else."""
    before, after = get(code, at - 1), get(code, at + 2)
    begins = before.kind in ("word", "number") or before.text in (")", "]", "?")
    is_base = after.kind in ("word", "string") or after.text in ("*", "&", "(")
    if before.is_mark(",") and is_base and not is_bare_call(code, at + 2):
        raise Refusal(code[at].line, "a value that takes its fields from another")
    if begins and (after is END or after.text in RANGE_ENDS):
        if not (after.is_mark("]") and is_index(code, at)):
            raise Refusal(code[at].line, "a range without an end, which ends otherwise in Rust")


def is_bare_call(code: List[Token], at: int) -> bool:
    """Whether a path stands here, and after it a call without arguments."""
    begin = at
    while get(code, at).kind == "word" or get(code, at).text in (":", "::"):
        at += 1
    return at > begin and get(code, at).is_mark("(") and get(code, at + 1).is_mark(")")


def is_index(code: List[Token], at: int) -> bool:
    """Whether the bracket round this place is that of an index."""
    depth = 0
    while at >= 0:
        if code[at].kind == "mark":
            depth += (code[at].text in ")]}") - (code[at].text in OPENING)
        if depth < 0:
            before = get(code, at - 1)
            of_value = before.kind == "word" or before.text in (")", "]", "?")
            return code[at].text == "[" and of_value
        at -= 1
    return False
