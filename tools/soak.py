"""Tries laws on random rule texts, inputs and edits: tests/laws, over the program lrlex_bench that is built."""

import sys

import crates
import processes


def main(cases=10000, seed=1, tell=lambda line: print(line, flush=True)):
    """Tries so many cases, and hands on each line that says what came of it.

    The status is 0 where nothing differs, 1 where something does, 2 where there is no program.
    """
    words = [sys.executable, "-B", "-m", "laws", str(cases), str(seed)]
    child = processes.start(words, cwd=f"{crates.TOP}/tests", stdout=-1, stderr=-2, text=True, errors="replace")
    last = ""
    for last in child.stdout:
        tell(last.rstrip("\n"))
    status = processes.ended(child)
    if status != 2:
        tell(f"soak: {'FAILED' if status else 'passed'}, {cases} cases, {last.strip()}")
    return status
