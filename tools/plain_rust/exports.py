"""Functions for C: those of the sources take slices, and one with pointers is written over each.

rustc says of slices in `extern "C"` that it promises no way in which they are passed, so the
sources' functions become plain ones.
"""
from typing import List, NamedTuple, Tuple

from .stop import Refusal
from .tokens import (Token, Tokens, after, after_bracket, code_at, follows, get, inside, joined,
                     name_of, only_code, split)

FUNCTION = """
/// `libvdpm.h` tells of it, and what its caller owes.
///
/// # Safety
///
/// The pointers are what the header says.
#[no_mangle]
pub unsafe extern "C" fn {name}(
    {takes},
){answer} {{
{body}
}}
"""
OF_NOTHING = """
/// `libvdpm.h` tells of it.
#[no_mangle]
pub extern "C" fn {name}(){answer} {{
    super::{module}::{name}()
}}
"""
COLUMNS = 100


class Parameter(NamedTuple):
    """What C gives for a parameter, and what the plain function is passed."""

    takes: List[str]
    passes: str


def with_exports(tokens: Tokens, module: str) -> Tuple[List[Token], List[str]]:
    """The tokens with plain functions, and the text of each function of C."""
    out: List[Token] = []
    found: List[str] = []
    at = 0
    while at < len(tokens):
        token = tokens[at]
        if token.kind == "attribute" and name_of(token) == "unsafe":
            if [it.text for it in inside(token)] != ["unsafe", "(", "no_mangle", ")"]:
                raise Refusal(token.line, "an unsafe attribute that isn't known")
            start = code_at(tokens, at + 1)
            if not follows(tokens, start, "pub", "extern"):
                raise Refusal(token.line, "an exported item that is no function of C")
            found.append(function_of_c(tokens, start, module))
            out.append(tokens[start])
            # (after `pub extern "C"`)
            at = after(tokens, start, 3)
            continue
        if token.is_word("extern"):
            raise Refusal(token.line, "a function of C that isn't exported")
        out.append(token)
        at += 1
    return out, found


def function_of_c(tokens: Tokens, start: int, module: str) -> str:
    """The function with pointers over the one whose `pub` stands at `start`."""
    name_at = code_at(tokens, after(tokens, start, 4))
    name, opens = tokens[name_at].text, code_at(tokens, name_at + 1)
    if not get(tokens, opens).is_mark("("):
        raise Refusal(tokens[start].line, "a function of C with generics")
    end = after_bracket(tokens, opens)
    given = [parameter(part) for part in split(tokens[opens + 1 : end - 1], ",")]
    body = next(at for at in range(end, len(tokens)) if tokens[at].is_mark("{"))
    answer = joined(only_code(tokens[end:body])).replace("->", " -> ")
    takes = [text for each in given for text in each.takes]
    if not given:
        return OF_NOTHING.format(name=name, answer=answer, module=module)
    return FUNCTION.format(
        name=name, takes=",\n    ".join(takes), answer=answer,
        body=call_of(f"super::{module}::{name}", [each.passes for each in given]),
    )  # fmt: skip


def call_of(function: str, passes: List[str]) -> str:
    """The call of a plain function, over as many lines as it needs."""
    line = f"    unsafe {{ {function}({', '.join(passes)}) }}"
    if len(line) <= COLUMNS:
        return line
    rows = "".join(f"            {each},\n" for each in passes)
    return f"    unsafe {{\n        {function}(\n{rows}        )\n    }}"


def parameter(part: Tokens) -> Parameter:
    """A parameter of a plain function as C gives it: an array as its pointer and its length."""
    code = only_code(part)
    name, kind = code[0].text, [token.text for token in code[2:]]
    is_mut = kind[:2] == ["&", "mut"]
    if kind == ["Global"]:
        return Parameter([], "Global")
    if kind[:1] == ["&"] and kind[1 + is_mut : 2 + is_mut] == ["["] and len(kind) == 4 + is_mut:
        pointer = f"{name}: *{'mut' if is_mut else 'const'} {kind[-2]}"
        array = "array_mut" if is_mut else "array"
        return Parameter([pointer, f"{name}_len: usize"], f"{array}({name}, {name}_len)")
    if is_mut and len(kind) == 3:
        return Parameter([f"{name}: *mut {kind[2]}"], f"&mut *{name}")
    if kind[:1] == ["&"] and len(kind) == 2:
        return Parameter([f"{name}: *const {kind[1]}"], f"&*{name}")
    if len(kind) == 1:
        return Parameter([f"{name}: {kind[0]}"], name)
    raise Refusal(code[0].line, f"a parameter that C can't give: {name}: {''.join(kind)}")
