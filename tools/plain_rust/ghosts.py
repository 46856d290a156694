"""Takes ghosts, clauses, models and the attributes of proofs out of a source."""
from typing import Dict, List, Optional

from .docs import docs_of
from .stop import Refusal
from .tokens import (Token, Tokens, after_angles, after_bracket, code_at, ends_line, follows, get,
                     inside, name_of)

GONE = ("tactic", "cycle")
KEPT = ("derive", "cfg", "repr", "test", "unsafe", "error", "inline", "cold", "must_use")


class Erasing:
    """What is left of a source so far, and the clauses of its functions."""

    def __init__(self, tokens: Tokens) -> None:
        self.tokens, self.at = tokens, 0
        self.out: List[Token] = []
        # The clauses of each function, by the place of its `fn` in what is left.
        self.clauses: Dict[int, List[str]] = {}
        self.head: Optional[int] = None

    def run(self) -> List[Token]:
        while self.at < len(self.tokens):
            self.step()
        self.tell_clauses()
        return self.out

    def step(self) -> None:
        token = self.tokens[self.at]
        model = end_of_model(self.tokens, self.at)
        if model is not None:
            self.drop_back()
            self.at = model
        elif token.kind == "ghost":
            self.drop_back()
            self.pass_by()
        elif token.kind == "clause":
            self.take_clause(token)
            self.pass_by()
        elif token.kind == "attribute":
            self.take_attribute(token)
        else:
            self.keep(token)

    def keep(self, token: Token) -> None:
        if token.is_word("fn"):
            self.head = len(self.out)
        elif token.is_mark("{"):
            self.head = None
        self.out.append(token)
        self.at += 1

    def pass_by(self) -> None:
        """Goes on after a ghost or clause. Where a function's body comes next, it comes at once."""
        self.at += 1
        if follows(self.tokens, self.at, "{") and self.head is not None:
            self.at = code_at(self.tokens, self.at)
            self.drop_spaces()
            self.out.append(Token("space", " ", self.tokens[self.at].line))

    def take_clause(self, token: Token) -> None:
        self.drop_back_to_code()
        if self.head is not None:
            self.clauses.setdefault(self.head, []).append(token.text)
        after = get(self.tokens, code_at(self.tokens, self.at + 1))
        if after.kind not in ("clause", "ghost") and after.text not in ("{", ";", ","):
            raise Refusal(token.line, f"`{after.text}` right after a clause")

    def take_attribute(self, token: Token) -> None:
        name = name_of(token)
        if name == "derive":
            names = [it.text for it in inside(token)[1:] if it.kind == "word" and it.text != "Drop"]
            token = token._replace(text=f"#[derive({', '.join(names)})]" if names else "")
        elif name in GONE:
            token = token._replace(text="")
        elif name not in KEPT:
            raise Refusal(token.line, f"an attribute that isn't known: {name}")
        self.at += 1
        if token.text:
            self.out.append(token)
        elif get(self.tokens, self.at).kind == "space":
            # (what stood before it is the indent of what comes next)
            self.at += 1

    def drop_spaces(self) -> None:
        while self.out and self.out[-1].kind == "space":
            self.out.pop()

    def drop_back_to_code(self) -> None:
        """Drops the spaces before a clause, and the comments of their own lines that tell of it."""
        out = self.out
        while out and not out[-1].is_code:
            if out[-1].kind == "comment" and not ends_line(out, len(out) - 1):
                break
            out.pop()

    def drop_back(self) -> None:
        """Drops what stands right before a ghost: `pub`, and the comments that tell of it."""
        out = self.out
        self.drop_indent()
        if get(out, len(out) - 1).is_mark(")"):
            start = max(at for at, token in enumerate(out) if token.is_mark("("))
            if get(out, start - 1).is_word("pub"):
                del out[start - 1 :]
        elif get(out, len(out) - 1).is_word("pub"):
            out.pop()
        while out and self.tells_of_next():
            out.pop()

    def drop_indent(self) -> None:
        while self.out and self.out[-1].kind == "space" and "\n" not in self.out[-1].text:
            self.out.pop()

    def tells_of_next(self) -> bool:
        last = self.out[-1]
        if last.kind == "space":
            return last.text.count("\n") < 2
        is_whole_line = last.kind == "comment" and ends_line(self.out, len(self.out) - 1)
        return is_whole_line and not last.text.startswith("//!")

    def tell_clauses(self) -> None:
        """Puts the clauses of public functions into their docs."""
        for head in sorted(self.clauses, reverse=True):
            start = start_of_line(self.out, head)
            ending = next((it.text for it in self.out[head:] if it.text in ("{", ";")), "")
            is_public = any(token.is_word("pub") for token in self.out[start:head])
            if is_public or ending == ";":
                self.put_docs(start, self.clauses[head])

    def put_docs(self, start: int, clauses: List[str]) -> None:
        """Puts docs before the attributes of the function whose line begins at `start`."""
        while start > 1 and self.out[start - 2].kind == "attribute":
            start = start_of_line(self.out, start - 2)
        indent = self.out[start - 1].text.rpartition("\n")[2] if start else ""
        before = get(self.out, start - 2)
        has_docs = before.kind == "comment" and before.text.startswith("///")
        text = docs_of(clauses, indent, has_docs)
        self.out.insert(start, Token("comment", text, get(self.out, start).line))


def start_of_line(tokens: Tokens, at: int) -> int:
    while at and not ends_line(tokens, at):
        at -= 1
    return at


def end_of_model(tokens: Tokens, at: int) -> Optional[int]:
    """The end of `impl<..> Model for .. {..}`, if that stands at `at`."""
    if not tokens[at].is_word("impl"):
        return None
    end = after_angles(tokens, at + 1)
    if not follows(tokens, end, "Model", "for"):
        return None
    while not tokens[end].is_mark("{"):
        end += 1
    return after_bracket(tokens, end)


def without_ghosts(tokens: Tokens) -> List[Token]:
    """The tokens that have a meaning when the program runs; clauses of public functions as docs."""
    return Erasing(tokens).run()
