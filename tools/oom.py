"""Refuses programs their requests for memory in turn: tests/support/refusing.py, over the programs that are built. Needs cc."""

import sys

import crates
import processes


def main():
    """Tries all. The status is 0 where each request was met as it must be, 1 where one wasn't, 2 where that can't be tried."""
    child = processes.start([sys.executable, "-B", "-m", "support.refusing"], cwd=f"{crates.TOP}/tests")
    return processes.ended(child)
