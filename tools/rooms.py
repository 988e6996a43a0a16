"""Copies of crates in which a tool works, so that the tree stays as it is."""

import contextlib
import os
import shutil

PARTS = ("src", "specs", "proofs")
KEPT = ("rlib", "incremental")


def copy_sources(folder, to):
    """Copies the files of a crate that a check reads."""
    for part in PARTS:
        if os.path.isdir(f"{folder}/{part}"):
            shutil.copytree(f"{folder}/{part}", f"{to}/{part}")


def link_or_copy(one, other):
    """Gives a built file a second name where that can be: rt replaces such a file, and never writes into it."""
    try:
        os.link(one, other)
    except OSError:
        shutil.copy2(one, other)


def copy_built(folder, to, parts=KEPT):
    """Copies what earlier checks of the crate built and kept, as far as it is there."""
    for part in parts:
        # (another command may write what this one copies: a check does then without it)
        with contextlib.suppress(OSError, shutil.Error):
            shutil.copytree(f"{folder}/out/{part}", f"{to}/out/{part}", copy_function=link_or_copy)


def write_list(crates, to):
    """Writes the lines of crates.txt that name these crates."""
    with open(f"{to}/crates.txt", "w", encoding="utf-8") as it:
        it.writelines(one.line for one in crates)
