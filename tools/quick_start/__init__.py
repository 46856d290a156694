"""Builds the programs of this repository, and says what is known of those that stand.

`tools/programs.py` is the way in; `start.sh` is what ./vdpm, ./prepare, ./simplify and ./pack do
before it. A program is built in one of two ways: proved, by `rt`, and kept at proved/NAME, or
unproved, with the checks of the run time left in, and kept at unproved/NAME: by the kit, or by
cargo where there is none. Beside each stands a record, NAME.record, without which it is never run.
The library's files, libvdpm.a and libvdpm.so.1, are built and recorded likewise.
"""
