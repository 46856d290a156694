"""A Rattle source as tokens, and walks over them."""
import re
from typing import Iterator, List, NamedTuple, Optional, Sequence, Tuple

from .antt import clause_end, ghost_end
from .stop import Refusal, Stop

# The forms of tokens, in the order in which they are tried.
FORMS = {
    "space": r"\s+",
    "comment": r"//[^\n]*",
    "unknown": r'/\*|b?r#*"|c"',
    "string": r'b?"(?:\\.|[^"\\])*"',
    "char": r"b?'(?:\\x[0-9a-fA-F]{2}|\\u\{[^}]*\}|\\.|[^'\\])'",
    "life": r"'[^\W\d]\w*",
    "number": r"\d\w*(?:\.\d\w*)?",
    "word": r"[^\W\d]\w*",
    "mark": r"[][(){}<>.,:;=+*/%&|^!?@#$~-]",
}
FORM = re.compile("|".join(f"(?P<{kind}>{form})" for kind, form in FORMS.items()), re.S)
OPENING, CLOSING = frozenset("([{"), frozenset(")]}")


class Token(NamedTuple):
    """A piece of a source: a space, a comment, an attribute, a word, number, string, char, life or
    mark, or a ghost or a clause; and the line on which it begins."""

    kind: str
    text: str
    line: int

    @property
    def is_code(self) -> bool:
        return self.kind not in ("space", "comment")

    def is_mark(self, text: str) -> bool:
        return self.kind == "mark" and self.text == text

    def is_word(self, text: str) -> bool:
        return self.kind == "word" and self.text == text


Tokens = Sequence[Token]
END = Token("end", "", 0)


def piece_at(text: str, at: int) -> Tuple[str, int]:
    """The kind of what begins at a place, and where it ends."""
    found = FORM.match(text, at)
    if found is None or found.lastgroup is None:
        raise Stop("a mark that isn't known", text, at)
    if found.lastgroup == "unknown":
        raise Stop("a comment or a string of a form that isn't known", text, at)
    if found.group() == "ghost":
        return "ghost", ghost_end(text, at)
    if found.group() in ("requires", "ensures"):
        return "clause", clause_end(text, at)
    return found.lastgroup, found.end()


def pieces(text: str) -> Iterator[Token]:
    at, line = 0, 1
    while at < len(text):
        kind, end = piece_at(text, at)
        yield Token(kind, text[at:end], line)
        line += text.count("\n", at, end)
        at = end


def lex(text: str) -> List[Token]:
    """The tokens of a source. Each attribute is one."""
    found, out, at = list(pieces(text)), [], 0
    while at < len(found):
        end = at + 1
        if found[at].is_mark("#"):
            end = after_attribute(found, at)
        whole = "".join(token.text for token in found[at:end])
        kind = "attribute" if found[at].is_mark("#") else found[at].kind
        out.append(Token(kind, whole, found[at].line))
        at = end
    return out


def after_attribute(tokens: Tokens, at: int) -> int:
    start = code_at(tokens, at + 1)
    if follows(tokens, start, "!"):
        start = code_at(tokens, start + 1)
    if not follows(tokens, start, "["):
        raise Refusal(tokens[at].line, "a mark # that begins no attribute")
    return after_bracket(tokens, start)


def code_at(tokens: Tokens, at: int) -> int:
    """The place of the first token from `at` on that is code, or the end."""
    while at < len(tokens) and not tokens[at].is_code:
        at += 1
    return at


def get(tokens: Tokens, at: int) -> Token:
    return tokens[at] if 0 <= at < len(tokens) else END


def follows(tokens: Tokens, at: int, *texts: str) -> bool:
    """Whether the next tokens that are code, from `at` on, are these words and marks."""
    for text in texts:
        at = code_at(tokens, at)
        if get(tokens, at).text != text or tokens[at].kind not in ("word", "mark"):
            return False
        at += 1
    return True


def after(tokens: Tokens, at: int, count: int) -> int:
    """The place after so many tokens of code."""
    for _ in range(count):
        at = code_at(tokens, at) + 1
    return at


def after_bracket(tokens: Tokens, at: int) -> int:
    """The place after the bracket that opens at `at`."""
    depth, line = 0, get(tokens, at).line
    while at < len(tokens):
        if tokens[at].kind == "mark":
            depth += (tokens[at].text in OPENING) - (tokens[at].text in CLOSING)
        at += 1
        if depth == 0:
            return at
    raise Refusal(line, "a bracket that doesn't end")


def after_angles(tokens: Tokens, at: int) -> int:
    """The place after the generics that open at `at`; the place itself where none do."""
    if not follows(tokens, at, "<"):
        return at
    depth, end = 0, code_at(tokens, at)
    while end < len(tokens):
        arrow = tokens[end].is_mark(">") and get(tokens, end - 1).is_mark("-")
        depth += tokens[end].is_mark("<") - (tokens[end].is_mark(">") and not arrow)
        end += 1
        if depth == 0:
            return end
    raise Refusal(tokens[at].line, "generics that don't end")


def split(tokens: Tokens, mark: str) -> Iterator[List[Token]]:
    """The parts between these marks that stand in no bracket; none that is empty."""
    depth = 0
    part: List[Token] = []
    for token in tokens:
        if token.kind == "mark":
            depth += (token.text in OPENING or token.text == "<")
            depth -= (token.text in CLOSING or token.text == ">")
        if token.is_mark(mark) and depth == 0:
            yield part
            part = []
        else:
            part.append(token)
    if any(token.is_code for token in part):
        yield part


def ends_line(tokens: Tokens, at: int) -> bool:
    """Whether the token at `at` is the first of its line."""
    before = get(tokens, at - 1)
    return at == 0 or before.kind == "space" and "\n" in before.text


def joined(tokens: Tokens) -> str:
    return "".join(token.text for token in tokens)


def only_code(tokens: Tokens) -> List[Token]:
    return [token for token in tokens if token.is_code]


def inside(attribute: Token) -> List[Token]:
    """The tokens of code between an attribute's brackets."""
    code = only_code(list(pieces(attribute.text)))
    first = next(at for at, token in enumerate(code) if token.is_mark("["))
    return code[first + 1 : -1]


def name_of(attribute: Token) -> str:
    return inside(attribute)[0].text


def made(text: str, line: int = 0) -> List[Token]:
    """Tokens of a text that the maker writes."""
    return [token._replace(line=line) for token in lex(text)]


def word_at(tokens: Tokens, at: int) -> Optional[str]:
    """The word at the first code from `at` on, if that is one."""
    token = get(tokens, code_at(tokens, at))
    return token.text if token.kind == "word" else None


def start_of_indent(tokens: Tokens, at: int) -> str:
    """The indent of the line that begins with the token at `at`."""
    before = get(tokens, at - 1)
    return before.text.rpartition("\n")[2] if before.kind == "space" else ""
