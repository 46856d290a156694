"""Draws each frame of a reply text as an SVG picture, which any browser shows.

    ./vdpm view B < INPUT | python3 tools/frames_to_svg.py NAME [--from X Y Z] [..]
    ./vdpm view B < INPUT | python3 tools/frames_to_svg.py NAME --eyes SCRIPT [--at X Y Z] [..]

Picture 1 goes to NAME-1.svg, and so on. Either all pictures are drawn from far away in the
direction --from, at one scale; or each from the eye of the view that stands last before it in
SCRIPT, the script that the frames answer, with that view's focal length in pixels, looking at the
place --at (else at the middle of the first frame). Then the tolerance of a view is in pixels too.

Ends with status 1 where the text or the script has a fault or a file can't be written, and says
which on standard error.
"""
import argparse
from itertools import chain
from typing import Any, Iterable, Iterator, List, Optional, Sequence, Tuple

from drawing import Camera, FarCamera, NearCamera, box, svg
from frames import Frame, FrameFault, Point, write_files

Eye = Tuple[Point, int]  # a place and a focal length


def eyes_of(script: Iterable[str]) -> List[Eye]:
    """For each frame that a script asks for, the eye and the focal length of the view before it."""
    last: Optional[Eye] = None
    eyes: List[Eye] = []
    for number, line in enumerate(script, 1):
        fields = line.rstrip("\n").split(" ")
        if fields[0] in ("v", "vs"):
            try:
                x, y, z, focal = (int(field) for field in fields[1:5])
            except ValueError:
                raise FrameFault(number, "this is no view of a script") from None
            last = (x, y, z), focal
        elif fields[0] in ("w", "g"):
            if last is None:
                raise FrameFault(number, "the script asks for a frame before any view")
            eyes.append(last)
        elif fields[0] == "q":
            break
    return eyes


def near_cameras(frames: List[Frame], asked: argparse.Namespace) -> List[NearCamera]:
    with open(asked.eyes, encoding="ascii") as script:
        eyes = eyes_of(script)
    if len(eyes) != len(frames):
        came = f"{len(frames)} frames came"
        raise FrameFault(1, f"{came}, and the script {asked.eyes} asks for {len(eyes)}")
    low, high = box(frames[0].points)
    at = asked.at or [(a + b) / 2 for a, b in zip(low, high)]
    height = asked.height or asked.width * 3 // 4
    return [NearCamera(eye, at, asked.up, focal, asked.width, height) for eye, focal in eyes]


def cameras(frames: List[Frame], asked: argparse.Namespace) -> Sequence[Camera]:
    """One for each frame."""
    if asked.eyes:
        return near_cameras(frames, asked)
    every_point = chain.from_iterable(frame.points for frame in frames)
    return [FarCamera(asked.towards, asked.up, every_point, asked.width)] * len(frames)


def arguments() -> argparse.Namespace:
    told = "Draws each frame of standard input as an SVG picture."
    parser = argparse.ArgumentParser(description=told)

    def place(name: str, told: str, **settings: Any) -> None:
        of_each = ("X", "Y", "Z")
        parser.add_argument(name, help=told, type=float, nargs=3, metavar=of_each, **settings)

    parser.add_argument("name", help="where to write: NAME-1.svg and so on")
    place("--from", "the direction of the eye", dest="towards", default=(1, -2, 1))
    told = "draw each frame from the eye of its view in this script"
    parser.add_argument("--eyes", metavar="SCRIPT", help=told)
    place("--at", "the place that --eyes look at")
    place("--up", "the direction that is up in the picture", default=(0, 0, 1))
    place("--light", "the direction of the light", default=(-2, -1, 2))
    parser.add_argument("--width", type=int, default=800, help="pixels")
    parser.add_argument("--height", type=int, help="pixels, for --eyes")
    parser.add_argument("--no-edges", action="store_true", help="draw no edges")
    parser.add_argument("--back", action="store_true", help="draw faces that are turned away too")
    parser.add_argument("--background", metavar="COLOR", help="as #202830; else none")
    return parser.parse_args()


def main() -> None:
    asked = arguments()

    def texts_of(frames: List[Frame]) -> Iterator[str]:
        for frame, camera in zip(frames, cameras(frames, asked)):
            yield svg(frame, camera, asked.light, not asked.no_edges, asked.back, asked.background)

    write_files("frames_to_svg", asked.name, "svg", texts_of)


if __name__ == "__main__":
    main()
