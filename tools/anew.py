"""Builds a library for the first time: anew.py NAME JOBS, over the built libraries below it.

rt lib checks a new crate in batches, which it keeps in out/incremental for the next check. A check that keeps nothing shares its
work better among processors: lrlex_boundaries takes 58 seconds on four in place of 87. So a first build has the kit make the
library as rt lib does, but keeps nothing. And one over others of this repository holds what crates above it can cite and no
proofs, as rt ci makes all, so that these begin sooner: lrlex_definition takes 268 seconds in place of 348. One over none, such as
lrlex_base, would be no smaller, and takes longer to write.

The notes that rt leaves are left too: one beside the library, so that rt takes it for its own, and, with a kit whose rt has that,
one by which rt gives it to other copies on this machine, so that none builds it again. A library that was built before, or whose
checks have kept something, here or in such a copy, is built by rt lib; so is each with a kit that can't do this.

A library without proofs fits only the very libraries that it was built over. So a note tells which those were, and one that was
built over others is built again: rt lib makes a library below it anew, with proofs, where its text changes, and changes back.
"""

import contextlib
import fcntl
import importlib.machinery
import importlib.util
import json
import os
import shutil
import sys

import crates
import processes
import prover
import rooms

# Beside a library without proofs: the sum of each that it was built over.
OVER = "over"


def kit_command():
    """The kit's command rt, with its library of commands as `rtlib`."""
    loader = importlib.machinery.SourceFileLoader("rt", f"{prover.kit()}/bin/rt")
    made = importlib.util.module_from_spec(importlib.util.spec_from_loader("rt", loader))
    loader.exec_module(made)
    return made


def is_elsewhere(crate, rt):
    """Whether another copy of the crate on this machine has proved the same, and has kept that: rt lib begins with it."""
    if not hasattr(rt, "places_of"):
        return False
    places = [folder for folder, stamp in rt.places_of(crate) if folder != crate.folder and stamp == crate.stamp()]
    return any(os.path.isdir(f"{it}/out/{kept}") for it in places for kept in rooms.KEPT)


def sums(libraries, rtlib):
    """The sum of each of these libraries, by its name: their file `format` has the sums of the others."""
    return {it.name: rtlib.sum_of(f"{it.rlib}/format") for it in libraries}


def fits(crate, rtlib):
    """Whether the crate's library was built over those that are below it now. One with proofs fits all that are built of the same text."""
    with contextlib.suppress(FileNotFoundError, ValueError), open(f"{os.path.dirname(crate.rlib)}/{OVER}", encoding="utf-8") as it:
        return json.load(it) == sums(crate.below(), rtlib)
    return True


def build(name, jobs):
    """Builds the library, and gives the status of the check. None where rt lib is to do it."""
    rt = kit_command()
    rtlib = rt.rtlib
    crate = rtlib.Crate(f"{crates.TOP}/crates/{name}", crates.TOP, {})
    rlib, stamp, below = os.path.dirname(crate.rlib), crate.stamp(), crate.below()
    if not all(it.is_built() for it in below):
        return None
    if not fits(crate, rtlib):
        shutil.rmtree(rlib)
    if os.path.exists(f"{rlib}/stamp") or crate.has_kept() or is_elsewhere(crate, rt):
        return None
    rtlib.guarded()
    # in rt's order, and with others that read the libraries below
    for it in sorted([crate.folder, *[one.folder for one in below]]):
        fcntl.flock(os.open(it, os.O_RDONLY), fcntl.LOCK_EX if it == crate.folder else fcntl.LOCK_SH)
    shutil.rmtree(rlib, ignore_errors=True)
    os.makedirs(rlib)
    without_proofs = ["--statements"] if below and "--statements" in rtlib.help_of("build") else []
    over = sums(below, rtlib)
    status = crate.call(rtlib.RATTLE, "build", *crate.words(["--jobs", str(jobs)], keeps=False), *without_proofs, "-o", crate.rlib)
    # what changed meanwhile is built the next time
    if not status and stamp == crate.stamp():
        if without_proofs:
            with open(f"{rlib}/{OVER}", "w", encoding="utf-8") as it:
                json.dump(over, it)
        with open(f"{rlib}/stamp", "w", encoding="utf-8") as it:
            it.write(stamp)
        if hasattr(rt, "offer"):
            rt.offer(crate, stamp)
    return status


def main(name, jobs):
    sys.dont_write_bytecode = True
    processes.end_with_parent()
    try:
        status = build(name, jobs)
    except (AttributeError, OSError, TypeError, ImportError) as fault:
        print(f"anew: {fault!r}: rt lib builds it")
        status = None
    if status is None:
        os.chdir(f"{crates.TOP}/crates/{name}")
        os.execvp("rt", ["rt", "lib", "--jobs", jobs])
    return status


if __name__ == "__main__":
    sys.exit(main(*sys.argv[1:]))
