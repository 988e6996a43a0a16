"""Has the prover check a crate over libraries that are built, and proves none of these again.

rt check would: what rt ci proves it keeps for itself. The libraries are those in crates/*/out, as rt lib leaves them, or in the
folder that the environment names: there the gate keeps what its rt ci has built.
"""

import functools
import os

import crates
import processes

RLIBS = "LRLEX_RLIBS"


def library(name):
    """The folder of a library of this repository as it is built."""
    kept = os.environ.get(RLIBS)
    return f"{kept}/{name}/{name}.rlib" if kept else f"{crates.TOP}/crates/{name}/out/rlib/{name}.rlib"


def sources(name):
    """The files of the crate that its library is built from."""
    for part in ("src", "specs", "proofs"):
        for at, _, files in os.walk(f"{crates.TOP}/crates/{name}/{part}"):
            yield from (f"{at}/{it}" for it in files)


def libraries_below(names, listed):
    """The repository's libraries among these, and those that they need, all the way down."""
    return crates.with_below([it for it in names if it in listed], listed)


def lacking(names):
    """The first of these libraries, and those below them, that isn't built, or not from its sources. None where all are."""
    for name in libraries_below(names, crates.read()):
        try:
            # (what the gate keeps is of its own run)
            built = os.path.getmtime(f"{library(name)}/format")
            if RLIBS not in os.environ and any(os.path.getmtime(it) > built for it in sources(name)):
                return name
        except OSError:
            return name
    return None


@functools.lru_cache(maxsize=None)
def kit():
    """The folder of the kit, where rt's first page is."""
    return os.path.dirname(processes.run(["rt", "doc"])[1].strip())


def words_for(name, needs):
    """What the prover is given of a crate of this name, which needs these libraries."""
    home, listed = kit(), crates.read()
    words = ["--crate-name", name, "src/lib.rt"]
    if name in listed and listed[name].kind:
        words += ["--crate-type", listed[name].kind]
    for it in ["std", *needs]:
        words += ["--extern", f"{it}={library(it) if it in listed else f'{home}/rlibs/{it}.rlib'}"]
    words += ["-L", f"dependency={home}/rlibs"]
    for it in libraries_below(needs, listed):
        words += ["-L", f"dependency={os.path.dirname(library(it))}"]
    return [*words, "--antt-project", f"{home}/rattle/logic/antt-project.json", "--logic-built", f"{home}/logic_built"]


def checked(folder, name, needs, more=(), much=0):
    """What the prover says of the crate in the folder, which needs these libraries. It leaves processor time to others, so much."""
    words = [f"{kit()}/bin/rattle", "check", *words_for(name, needs), "--jobs", "1", *more]
    return processes.run(processes.give_way(words, much), cwd=folder)[1]


def built(crate, archive):
    """Proves a static library from nothing, and writes its archive. What the prover says if it fails."""
    words = [f"{kit()}/bin/rattle", "build", *words_for(crate.name, crate.needs), "--jobs", "1"]
    words += ["--toolchain", f"{kit()}/toolchain", "--backend", "llvm", "-o", archive]
    status, told = processes.run(words, cwd=crate.folder)
    return (told or f"it ended with status {status}") if status else ""
