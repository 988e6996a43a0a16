"""Tries laws on random rule texts, texts, edits and maps of ids: python3 -m laws [CASES] [SEED] [FIRST] [EDITS], in tests/.

The cases from number FIRST on, each of which follows from the seed and its number, with so many edits of a document each. They
are tried in as many processes as there are processors. At the end it says how much was tried; what differs is printed with what
it takes to try it again. The status is 0 where nothing differs, 1 where something does, and 2 where there is no program.
"""

import sys

from laws.soak import soak
from laws.tally import summary
from support import programs
from support.replay import PROGRAM

CASES, SEED, FIRST, EDITS = 250, 1, 0, 10


def main(words):
    """Tries what the words ask for."""
    if not programs.is_built(PROGRAM):
        print(f"laws: skipped, {PROGRAM} isn't built: ./dev build {PROGRAM}")
        return 2
    try:
        numbers = [int(word) for word in words]
        cases, seed, first, edits = numbers + [CASES, SEED, FIRST, EDITS][len(numbers):]
    except ValueError:
        print("usage: python3 -m laws [CASES] [SEED] [FIRST] [EDITS]", file=sys.stderr)
        return 1
    counts = soak(cases, seed, first, edits, lambda line: print(line, flush=True))
    print(f"seed: {seed}")
    print(summary(counts))
    return 0 if counts["differ"] == 0 and counts["compared"] > 0 else 1


if __name__ == "__main__":
    sys.exit(main(sys.argv[1:]))
