"""Tries what ./vdpm, ./prepare, ./simplify, ./pack and ./paint say to who runs them by hand."""
import subprocess
import tempfile
import unittest
from pathlib import Path

TOP = Path(__file__).resolve().parent.parent
# The hints alone, and then a program that copies a byte.
SCRIPT = (
    '. "$top/tools/quick_start/hints.sh"; answer_help "$@"; refuse_files "$@"; tell_kind "${1-}"; '
    "head -c 1"
)


def said(
    name: str, given: bytes, *words: str, pipe: bool = False
) -> "subprocess.CompletedProcess[bytes]":
    command = ["bash", "-c", f"name={name}; top={TOP}; {SCRIPT}", name, *words]
    if pipe:
        return subprocess.run(command, input=given, capture_output=True, check=False)
    with tempfile.TemporaryFile() as file:
        file.write(given)
        file.seek(0)
        return subprocess.run(command, stdin=file, capture_output=True, check=False)


class Hints(unittest.TestCase):
    def test_usage(self) -> None:
        for name in ("vdpm", "prepare", "simplify", "pack", "paint"):
            for word in ("--help", "-h"):
                run = said(name, b"v", word)
                self.assertEqual((run.returncode, run.stderr), (0, b""))
                self.assertTrue(run.stdout.startswith(name.encode()))
                self.assertIn(f"./{name} ".encode(), run.stdout)

    def test_a_file_is_named(self) -> None:
        with tempfile.NamedTemporaryFile() as file:
            run = said("simplify", b"", file.name)
            self.assertEqual(run.returncode, 2)
            line = f"simplify: reads standard input: use < {file.name}\n"
            self.assertEqual((run.stdout, run.stderr), (b"", line.encode()))

    def test_kinds(self) -> None:
        kinds = {
            b"ply\nformat ascii 1.0\n": b"a PLY file",
            b"solid cube\nfacet": b"an STL file",
            b"VDPM\1\0\0\0": b"a stream of vdpm",
            b"glTF\2\0\0\0": b"a glTF file",
            b"OFF\n3 1 0\n": b"an OFF file",
            b"PK\3\4": b"a ZIP archive",
            b"\x89PNG\r\n": b"an image",
            b"\xff\xd8\xff\xe0\0\x10JFIF\0": b"an image",
            b"%PDF-1.5": b"a PDF document",
        }
        for given, kind in kinds.items():
            run = said("simplify", given)
            line = b"simplify: standard input looks like " + kind + b"; what is read here is "
            self.assertEqual(run.stderr, line + b"an OBJ text\n")
            self.assertEqual((run.returncode, run.stdout), (0, given[:1]))

    def test_prepare_reads_ply_and_stl(self) -> None:
        binary = b"v".ljust(80) + (1).to_bytes(4, "little") + bytes(50)
        for given in (b"ply\nformat ascii 1.0\n", b"solid cube\nfacet", b"v 0 0 0\n", binary):
            self.assertEqual(said("prepare", given).stderr, b"")
        self.assertIn(b"an STL file", said("simplify", binary).stderr)
        self.assertIn(b"read here is an OBJ, PLY or STL file", said("prepare", b"glTF").stderr)
        self.assertIn(b"no line", said("prepare", b"hello\n").stderr)

    def test_what_is_read(self) -> None:
        stream, mesh = b"VDPM\1\0\0\0", b"# a mesh\nv 0 0 0\n"
        self.assertEqual(said("vdpm", stream, "check").stderr, b"")
        self.assertEqual(said("vdpm", mesh, "build").stderr, b"")
        self.assertIn(b"a stream of vdpm", said("vdpm", stream, "build").stderr)
        self.assertIn(b"no line", said("vdpm", b"hello\n", "canon").stderr)
        self.assertEqual(said("vdpm", b"", "demo", "3").stderr, b"")
        packed = b"VDPK\1\x80\0\0\0"
        self.assertEqual(said("pack", stream).stderr, b"")
        self.assertEqual(said("pack", packed, "--unpack").stderr, b"")
        self.assertIn(b"a packed stream", said("pack", packed).stderr)
        self.assertIn(b"a stream of vdpm", said("pack", stream, "--unpack").stderr)
        self.assertIn(b"a packed stream", said("vdpm", packed, "check").stderr)

    def test_a_pipe_is_left_alone(self) -> None:
        run = said("simplify", b"ply\n", pipe=True)
        self.assertEqual((run.stdout, run.stderr), (b"p", b""))


if __name__ == "__main__":
    unittest.main()
