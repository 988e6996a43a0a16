"""Offers the prover a source that must not compile: refused.py FILE FAULT LIBRARY.., a whole crate on top of these libraries.

The last line is 'refused: FAULT' where it is refused by this fault and by no other. The status is 2 where that can't be tried.
"""

import os
import re
import shutil
import sys

import processes
import prover


def tried(file, fault, *needs):
    """Whether the source is refused by this fault alone, and what to say. None and why, where that can't be tried."""
    if not shutil.which("rt"):
        return None, "rt isn't on PATH"
    if lost := prover.lacking(needs):
        return None, f"the library {lost} isn't built from its sources: rt lib in crates/{lost} builds it"
    with processes.scratch("refused") as folder:
        for part in ("src", "specs"):
            os.mkdir(f"{folder}/{part}")
        shutil.copy(file, f"{folder}/src/lib.rt")
        with open(f"{folder}/specs/Lib.antt", "w", encoding="utf-8"):
            pass
        told = prover.checked(folder, "refused", needs)
    faults = re.findall(r"error\[([^\]]*)\]", told)
    return (True, f"refused: {fault}") if faults == [fault] else (False, told)


def main(file, fault, *needs):
    processes.end_all_at_exit()
    is_refused, said = tried(file, fault, *needs)
    print(said)
    return 2 if is_refused is None else 0 if is_refused else 1


if __name__ == "__main__":
    sys.exit(main(*sys.argv[1:]))
