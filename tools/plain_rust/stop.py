"""The one way in which the making of the package ends early."""

SHOWN = 60


class Stop(Exception):
    """Says which form stands at a place of a source that can't be made Rust."""

    def __init__(self, why: str, text: str, at: int) -> None:
        self.line = text.count("\n", 0, at) + 1
        near = " ".join(text[at : at + SHOWN].split())
        super().__init__(f"{self.line}: {why}: {near}" if near else f"{self.line}: {why}")


class Refusal(Exception):
    """The same of a token, whose line is known."""

    def __init__(self, line: int, why: str) -> None:
        self.line = line
        super().__init__(f"{line}: {why}")
