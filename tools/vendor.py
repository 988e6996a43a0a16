"""Copies libraries, with all that they need, into another Rattle repository: ./dev vendor FOLDER [CRATE..].

A copy has the crate's sources, definitions and proofs, and the licences; pages, edits and what is built stay behind. The crates'
lines go into FOLDER/crates.txt, in the place of older ones of the same names. A second run brings the copies up to date.
A folder of such a name that ./dev vendor hasn't made is left alone, and told.
"""

import os
import shutil
import sys

import crates
import dist
import rooms

USUAL = ("lrlex", "lrlex_report")
LICENCES = ("LICENSE-APACHE", "LICENSE-MIT")
# A file of a copy, by which it is known for one, with the version that it is of.
MARK = "VENDORED"


def copy(crate, to):
    """Copies a crate into a folder, in the place of an older copy. What is built there stays."""
    for part in rooms.PARTS:
        shutil.rmtree(f"{to}/{part}", ignore_errors=True)
    rooms.copy_sources(crate.folder, to)
    for it in LICENCES:
        shutil.copyfile(f"{crates.TOP}/{it}", f"{to}/{it}")
    with open(f"{to}/{MARK}", "w", encoding="utf-8") as it:
        it.write(f"The crate {crate.name} of Rolgumzai {dist.version()}, copied by its ./dev vendor, which overwrites what is changed here.\n")


def list_in(path, copied):
    """Puts the lines of these crates into a crates.txt, in the place of those that it has of them."""
    with open(path, encoding="utf-8") as it:
        text = it.read()
    names = {it.name for it in copied}
    lines = [it for it in text.splitlines(True) if it.partition("#")[0].partition(":")[0].strip() not in names]
    if lines and not lines[-1].endswith("\n"):
        lines[-1] += "\n"
    with open(path, "w", encoding="utf-8") as it:
        it.writelines([*lines, *(one.line for one in copied)])


def main(folder, names=()):
    """Copies these crates, or the usual ones, and what they need. The status is 1 where that can't be done."""
    listed = crates.read()
    unknown = [it for it in names if it not in listed or listed[it].is_program or listed[it].kind]
    if unknown:
        print(f"vendor: crates.txt has no library {unknown[0]}", file=sys.stderr)
        return 1
    if not os.path.isfile(f"{folder}/crates.txt"):
        print(f"vendor: {folder} has no crates.txt: it is for the top of a Rattle repository. Make an empty one first", file=sys.stderr)
        return 1
    copied = [listed[it] for it in crates.with_below(names or USUAL, listed)]
    for crate in copied:
        to = f"{folder}/crates/{crate.name}"
        if os.path.realpath(to) == os.path.realpath(crate.folder) or os.path.isdir(to) and not os.path.isfile(f"{to}/{MARK}"):
            print(f"vendor: {to} is no copy made by ./dev vendor: move it away first", file=sys.stderr)
            return 1
    for crate in copied:
        copy(crate, f"{folder}/crates/{crate.name}")
    list_in(f"{folder}/crates.txt", copied)
    print(f"vendor: {' '.join(it.name for it in copied)} are in {folder}/crates and in its crates.txt")
    pages = [it.folder for it in copied if os.path.isfile(f"{it.folder}/CALLING.md")]
    print("".join(f"vendor: {it}/CALLING.md says how to call it\n" for it in pages), end="")
    return 0
