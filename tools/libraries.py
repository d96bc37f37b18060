#!/usr/bin/env python3
"""Says which libraries in crates/NAME/out are those of the sources as they stand.

    tools/libraries.py COPY     takes those that `rt ci` has proved in a copy of the repository

`rt ci` proves each crate from nothing, and leaves its library unmarked, so that other commands would prove it again. Here it gets the
mark by which `rt` knows it: a sum of all that it is made from. `rt check`, `rt lib` and `tests/edits` then prove nothing below the
crate that they are called for. `rt ci` itself takes no library that it finds.
"""
import contextlib
import functools
import os
import pathlib
import shutil
import subprocess
import sys

TOP = pathlib.Path(__file__).resolve().parent.parent


def kit():
    """The toolchain's own module, which says what a crate is made from and how it is checked."""
    if "rtlib" not in sys.modules:
        sys.dont_write_bytecode = True
        sys.path.insert(0, str(pathlib.Path(subprocess.check_output(["rt", "doc"], text=True).strip()).parent / "bin"))
    return __import__("rtlib")


@contextlib.contextmanager
def each_sum_once():
    """Within this the sum of a crate is worked out once, and not again for each way down to it."""
    whole = kit().Crate.stamp
    kit().Crate.stamp = functools.cache(whole)
    try:
        yield
    finally:
        kit().Crate.stamp = whole


def crates(top):
    """The crates of a repository, by name."""
    return {crate.name: crate for crate in kit().crates_below(str(top))}


def mark_of(crate):
    return pathlib.Path(crate.folder, "out/rlib/stamp")


@each_sum_once()
def begin(top):
    """Removes all libraries, which `rt ci` makes anew, and gives each crate's sum. What is made over one library fits no other, even
    of the same sources."""
    found = {}
    for name, crate in crates(top).items():
        shutil.rmtree(mark_of(crate).parent, ignore_errors=True)
        found[name] = crate.stamp()
    return found


@each_sum_once()
def mark(top, before, proved):
    """Marks the libraries of the crates that `rt ci` has proved since `begin` gave these sums, if they have not changed since."""
    for name, crate in crates(top).items():
        if name in proved and os.path.isdir(crate.rlib) and crate.stamp() == before[name]:
            mark_of(crate).write_text(before[name])


@each_sum_once()
def take(copy):
    """Takes the libraries of a copy in which all crates were proved, if it has the same sources."""
    own, others = crates(TOP), crates(copy)
    if any(name not in own or own[name].stamp() != crate.stamp() for name, crate in others.items()):
        sys.exit("libraries.py: the sources have changed since they were copied")
    # Until this ends.
    kit().lock([own[name] for name in others])
    for name, crate in others.items():
        if os.path.isdir(crate.rlib):
            shutil.rmtree(mark_of(own[name]).parent, ignore_errors=True)
            shutil.copytree(crate.rlib, own[name].rlib)
            mark_of(own[name]).write_text(crate.stamp())


if __name__ == "__main__":
    if len(sys.argv) != 2 or sys.argv[1].startswith("-"):
        sys.exit(__doc__)
    take(pathlib.Path(sys.argv[1]))
