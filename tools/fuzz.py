"""Tries laws on mutated rule texts, inputs and edits through the C library: tests/support/fuzzing.py, over the archive that is built."""

import os
import sys

import build
import crates
import dist
import processes


def main(seconds=60, seed=1):
    """Tries for so many seconds. The status is 0 where every law holds, 1 where one doesn't, 2 where that can't be tried."""
    if not os.path.isfile(os.environ.get("LRLEX_ARCHIVE") or dist.BUILT) and (status := build.main([dist.LIBRARY])):
        return status
    words = [sys.executable, "-B", "-m", "support.fuzzing", str(seconds), str(seed)]
    return processes.ended(processes.start(processes.give_way(words), cwd=f"{crates.TOP}/tests"))
