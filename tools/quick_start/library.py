"""Builds the library for C, libvdpm.a and libvdpm.so.1: from what `rt lib` proved and built, or
without a proof, with the checks of the run time left in, as an unproved program is built.
"""
import contextlib
import os
import re
import shutil
import tempfile
import time
from pathlib import Path

from .joining import join, put_link, stop_without_tools
from .kit import Kit, find_kit, stop_where_it_lacks
from .module import NotCaught, REFUSAL, first_lines, output_of, try_words
from .record import path_of, write_record
from .running import run_tool, say, telling_time
from .sources import CODE, Program, sum_of_sources
from .stopped import Stopped
from .unproved import FLAGS, way_at_hand
from .way import Way

# The kit lowers programs alone, and of a program what its main leads to.
MAIN = """
use crate::buffer_slot::BufferSlot;
use crate::made_slot::MadeSlot;
use crate::run_slot::RunSlot;
use crate::slot::Slot;
use crate::tables::{
    BufferHandle, ChangeCounts, Counts, DecimalTold, ExtentTold, Handle, LevelTold, Look,
    MadeHandle, Moved, NO_FAULT, ProgressTold, RunHandle, ScaleTold, SlotSizes,
};
use std::rt::HostRuntime;

fn main(rt: HostRuntime) {
    let alloc = rt.alloc();
    let mut handle = Handle { slot: Slot::empty(alloc), open: 0 };
    let mut counts = Counts {
        shown_nodes: 0, shown_faces: 0, nodes: 0, leaves: 0, records: 0, digits: 0,
    };
    let (mut place, mut length, mut number) = (0u64, 0usize, 0u32);
    let (mut bytes, mut signed) = ([0u8; 1], [0i32; 1]);
    let (mut a, mut b, mut c, mut d) = ([0u32; 1], [0u32; 1], [0u32; 1], [0u32; 1]);
    exports::vdpm_open(alloc, b"", 0, &mut handle, &mut place);
    exports::vdpm_line(alloc, &mut handle, b"");
    exports::vdpm_reply_length(alloc, &mut handle, &mut length);
    exports::vdpm_reply(alloc, &mut handle, &mut bytes);
    exports::vdpm_counts(alloc, &mut handle, &mut counts);
    exports::vdpm_frame(alloc, &mut handle, &mut a, &mut signed, &mut b, &mut c, &mut d);
    let mut gone = ChangeCounts { gone_faces: 0, gone_nodes: 0, new_nodes: 0, put_faces: 0 };
    let mut e = [0u32; 1];
    changes::vdpm_change(
        alloc, &mut handle, &mut a, &mut b, &mut c, &mut signed, &mut d, &mut e, &mut gone,
    );
    nodes::vdpm_splitter(alloc, &mut handle, 0, &mut number);
    nodes::vdpm_maker(alloc, &mut handle, 0, &mut number);
    nodes::vdpm_ancestor(alloc, &mut handle, 0, &mut number);
    nodes::vdpm_place(alloc, &mut handle, 0, &mut signed);
    means::vdpm_means(alloc, &mut handle, 0, &[0u16; 1], &mut [0u16; 1]);
    fits::vdpm_fits(alloc, &mut handle, 0, &[0i32; 1], &mut [0i32; 1]);
    inputs::vdpm_inputs(alloc, &mut handle, &mut a, &mut b, &mut number);
    let mut extent = ExtentTold {
        low_x: 0, low_y: 0, low_z: 0, high_x: 0, high_y: 0, high_z: 0,
    };
    measuring::vdpm_extent(alloc, &mut handle, &mut extent);
    let mut level = LevelTold { error: 0, deviation: 0, split: 0 };
    measuring::vdpm_level(alloc, &mut handle, &mut level);
    let look = Look {
        eye_x: 0, eye_y: 0, eye_z: 0, focal: 0, tolerance: 0, silhouette: 0, measure: 0,
    };
    let mut moved = Moved { moves: 0, left: 0 };
    looking::vdpm_view(alloc, &mut handle, &look, &[0i64; 1], &mut moved);
    version::vdpm_version();
    exports::vdpm_close(alloc, &mut handle);
    let Handle { slot: _slot, open: _open } = handle;
    let mut made = MadeHandle { slot: MadeSlot::empty(alloc), open: 0 };
    let (mut fault, mut notes) = (NO_FAULT, 0usize);
    making::vdpm_build(alloc, b"", 0, 0, &mut made, &mut fault);
    making::vdpm_simplify(alloc, b"", 0, 0, 0, &mut made, &mut fault);
    making::vdpm_prepare(alloc, b"", 0, &mut made, &mut fault);
    let mut run = RunHandle { slot: RunSlot::empty(alloc), open: 0 };
    let mut progress = ProgressTold { faces: 0, faces_left: 0, collapses: 0, ended: 0 };
    stepwise::vdpm_simplify_begin(alloc, b"", 0, 0, 0, &mut run, &mut fault);
    stepwise::vdpm_simplify_more(alloc, &mut run, 0, &mut progress);
    stepwise::vdpm_simplify_end(alloc, &mut run, &mut made);
    stepwise::vdpm_simplify_close(alloc, &mut run);
    let RunHandle { slot: _run_slot, open: _run_open } = run;
    packing::vdpm_pack(alloc, b"", &mut made, &mut fault);
    packing::vdpm_unpack(alloc, b"", &mut made, &mut fault);
    packing::vdpm_unpack_first(alloc, b"", 0, &mut made, &mut fault);
    making::vdpm_made_length(alloc, &mut made, &mut length, &mut notes);
    making::vdpm_made_bytes(alloc, &mut made, &mut bytes);
    making::vdpm_made_notes(alloc, &mut made, &mut bytes);
    let zero = DecimalTold { whole: 0, part: 0, negative: 0 };
    let mut scale = ScaleTold { extent: zero, x: zero, y: zero, z: zero, steps: 0 };
    scale::vdpm_made_scale(alloc, &mut made, &mut scale);
    making::vdpm_made_close(alloc, &mut made);
    let MadeHandle { slot: _made_slot, open: _made_open } = made;
    let mut buffer = BufferHandle { slot: BufferSlot::empty(alloc), open: 0 };
    let mut told = SlotSizes { written: 0, length: 0 };
    buffers::vdpm_slots_open(alloc, 0, &mut buffer);
    buffers::vdpm_slots_change(alloc, &mut buffer, &a, &b, &mut c, &mut told);
    buffers::vdpm_slots_of(alloc, &mut buffer, &a, &mut b);
    buffers::vdpm_slots_close(alloc, &mut buffer);
    let BufferHandle { slot: _buffer_slot, open: _buffer_open } = buffer;
}
"""
EXPORT = re.compile(r'define internal (?:noundef )?(i32|void) @"vdpm_c::\w+::(vdpm_\w+)"')
USE = re.compile(r'@"vdpm_c::\w+::(vdpm_\w+)"')


def module_of_library(program: Program, kit: Kit, room: Path) -> Path:
    """The library's module, as that of a program that calls each of its functions."""
    sources = room / "src"
    shutil.copytree(program.folder / "src", sources)
    root = sources / "main.rt"
    (sources / "lib.rt").rename(root)
    root.write_text(root.read_text(encoding="utf-8") + MAIN, encoding="utf-8")
    words = try_words(program, kit, room)
    words[words.index(str(program.folder / "src/main.rt"))] = str(root)
    said = output_of(words, room)
    module = room / "module.bc"
    if module.exists():
        return module
    if REFUSAL.search(said):
        raise Stopped(f"the sources don't compile:\n{first_lines(said)}")
    raise NotCaught(said)


def exported(text: str) -> str:
    """The module with the exported functions under their own names, and no main beside them."""
    text = EXPORT.sub(lambda it: f"define {it[1]} @{it[2]}", text)
    text = USE.sub(lambda it: f"@{it[1]}", text)
    return text.replace("define i32 @main()", "define internal i32 @main()", 1)


def compile_unproved(program: Program, kit: Kit, room: Path) -> Path:
    """The library's code in the room, compiled without a proof."""
    module, text = module_of_library(program, kit, room), room / "module.ll"
    run_tool([str(kit.clang), "-S", "-emit-llvm", "-O0", "-x", "ir", str(module), "-o", str(text)])
    text.write_text(exported(text.read_text(encoding="utf-8")), encoding="utf-8")
    flags = [flag for flag in FLAGS if flag != "-fPIE"]
    code = room / "library.o"
    run_tool([str(kit.clang), *flags, "-fPIC", "-c", "-x", "ir", str(text), "-o", str(code)])
    return code


def made_by_rt(program: Program) -> Path:
    """Where `rt lib` leaves the library's code."""
    return program.folder / f"out/lib{program.crate}.a"


def put_in_place(program: Program, room: Path, folder: Path) -> None:
    """Moves the files from the room to the folder. No moment has a record of another file."""
    for name in program.files:
        with contextlib.suppress(FileNotFoundError):
            path_of(folder / name).unlink()
        os.replace(room / name, folder / name)
    put_link(folder)


def put_proved(program: Program, kit: Kit) -> None:
    """Makes the files in `proved/` of what `rt lib` built."""
    folder = program.top / "proved"
    folder.mkdir(exist_ok=True)
    with tempfile.TemporaryDirectory(prefix=f".{program.name}-", dir=folder) as it:
        join([*kit.archives, made_by_rt(program)], Path(it))
        put_in_place(program, Path(it), folder)


def way_of_kit() -> Way:
    """Building by the kit on the path."""
    kit = find_kit()
    stop_where_it_lacks(kit)
    stop_without_tools()

    def make(program: Program, room: Path) -> None:
        join([*kit.archives, compile_unproved(program, kit, room)], room)

    return Way(kit.version, lambda it: sum_of_sources(it, CODE), make, "without a proof")


def build_unproved(program: Program, folder: Path) -> None:
    """Makes the files in the folder without a proof, each with its record."""
    way = way_at_hand(way_of_kit)
    folder.mkdir(exist_ok=True)
    program.unproved.parent.mkdir(exist_ok=True)
    sources = way.sum_of(program)
    say(program, f"building from the sources, {way.told}: a minute or two")
    room = tempfile.TemporaryDirectory(prefix=f".{program.name}-", dir=folder)
    with room as it, telling_time(program):
        way.make(program, Path(it))
        seen = time.time_ns()
        if way.sum_of(program) != sources:
            raise Stopped("the sources changed while it was built: start it again")
        put_in_place(program, Path(it), folder)
    for name in program.files:
        write_record(program, folder / name, False, way.by, sources, seen)
