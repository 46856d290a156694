"""Simplifying in steps, so that who waits can be told how far it is."""
from typing import Any, Iterator, NamedTuple, Optional

from .faults import OF_TEXT
from .library import MOST_NUMBER, Handle, Progress, Text, Told, check, check_made, load, number_to
from .making import MOST_DIGITS, of_text, taken_out, text_of


class Done(NamedTuple):
    """How far a mesh is simplified.

    faces, faces_left: how many faces it has, and how many are left of them.
    collapses: how many collapses were done.
    ended: whether this is the end.
    """

    faces: int
    faces_left: int
    collapses: int
    ended: bool


class Simplifying:
    """What `simplify` does, in steps: the stream is the same.

        with vdpm.Simplifying(text) as run:
            for done in run.steps(10_000):
                print(f"{done.faces_left} of {done.faces} faces are left")
            stream = run.stream()

    It takes what `simplify` takes, and raises what that raises. Leaving the block gives it up.
    """

    def __init__(self, text: Text, faces: int = 0, digits: int = 0, keep_border: bool = False,
                 library: Optional[str] = None, *, allow_empty: bool = False) -> None:
        data, self._library, self._run = text_of(text), load(library), Handle(None, 0)
        faces = number_to(MOST_NUMBER, faces, "faces")
        digits = number_to(MOST_DIGITS, digits, "digits")
        fault = Told()

        def begin() -> None:
            check_made(self._library.vdpm_simplify_begin(data, len(data), faces, digits,
                                                         bool(keep_border), self._run, fault),
                       fault, OF_TEXT)

        try:
            of_text(OF_TEXT, allow_empty, data, begin)
        except BaseException:
            self.close()
            raise

    def more(self, most: int) -> Done:
        """Does at most so many collapses, and tells how far it is; 0 just tells."""
        told = Progress()
        check(self._library.vdpm_simplify_more(self._run, number_to(MOST_NUMBER, most, "most"),
                                               told))
        return Done(told.faces, told.faces_left, told.collapses, told.ended != 0)

    def steps(self, most: int) -> Iterator[Done]:
        """Goes on to the end by steps of so many collapses, at least 1, and tells of each."""
        if number_to(MOST_NUMBER, most, "most") == 0:
            raise ValueError("most is 0, and a step does at least 1")
        done = self.more(most)
        yield done
        while not done.ended:
            done = self.more(most)
            yield done

    def stream(self) -> bytes:
        """The stream, once the end was told; else NotOpen is raised. This closes it."""
        made = Handle(None, 0)
        check(self._library.vdpm_simplify_end(self._run, made))
        return taken_out(self._library, made)[0]

    def close(self) -> None:
        """Gives it up, and its memory back. It may be closed already."""
        self._library.vdpm_simplify_close(self._run)

    def __enter__(self) -> "Simplifying":
        return self

    def __exit__(self, *_: Any) -> None:
        self.close()

    def __del__(self) -> None:
        if hasattr(self, "_run"):
            self.close()
