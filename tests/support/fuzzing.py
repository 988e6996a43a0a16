"""Mutated rule texts, inputs and edits through the C library: python3 -m support.fuzzing [SECONDS [SEED]], in tests/.

tests/c_library/fuzz.c mutates the replayed cases, and checks laws on what comes back. It runs under the address and the
undefined-behaviour sanitizer, on one processor. The status is 0 where every law holds, 1 where one doesn't, 2 where that can't be
tried.
"""

import struct
import subprocess
import sys
import unittest

from support import c_library, programs, replay


def program():
    """The program with the sanitizers, and the cases that it starts from."""
    c_library.need_sanitizers()
    path = f"{programs.scratch().name}/cases"
    with open(path, "wb") as to:
        for case in replay.stored():
            parts = [case[it].encode() for it in ("rules", "input")]
            to.write(struct.pack("@II", *map(len, parts)) + b"".join(parts))
    return [c_library.of_c("tests/c_library/fuzz.c", *c_library.SANITIZED), path]


def main(seconds=60, seed=1):
    """Tries for so many seconds."""
    try:
        words = program()
    except unittest.SkipTest as why:
        print(f"fuzz: skipped, {why}")
        return 2
    status = subprocess.run([*words, str(seconds), str(seed)], check=False).returncode
    print(f"fuzz: {'FAILED' if status else 'passed'}, {seconds} s from seed {seed}", flush=True)
    return 1 if status else 0


if __name__ == "__main__":
    sys.exit(main(*map(int, sys.argv[1:])))
