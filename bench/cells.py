#!/usr/bin/env python3
"""Counts the cells of tables that lexing 1 MB looks at: bench/cells.py [RULES TEXT].. adds rules and texts of your own.

It prints a table: how many cells are looked at for each byte, how many the contract of `run` allows, and how many plain maximal munch
would look at, where a formula tells that. Not part of the gate.
"""

import os
import random
import sys

TOP = os.path.dirname(os.path.dirname(os.path.realpath(__file__)))
sys.dont_write_bytecode = True
sys.path.insert(0, f"{TOP}/tests")

# pylint: disable=wrong-import-position
from support.rule_texts import FAR, FAR_FOUR_TABLES, FAR_PAIRS, FAR_STATES, FAR_TWO_TABLES, FAR_WITHOUT_TABLE, far_by_chance  # noqa: E402
from test_cells import cells_of  # noqa: E402

SIZE = 1_000_000
CHANCES = 100

# A walk from each place to the text's end looks at so many cells for each byte.
TO_THE_END = (SIZE + 3) / 2

# Rules, a word that makes the text, and how many cells plain maximal munch looks at for each byte.
IN_VAIN = {
    "`a`, `a*b`": (FAR, "a", TO_THE_END),
    # from each second place; from the others a walk looks at two
    "`a`, `b`, `(ab)*c`": (FAR_PAIRS, "ab", SIZE / 4 + 2),
    "two start states": (FAR_STATES, "a", TO_THE_END),
    "a rule without a table": (FAR_WITHOUT_TABLE, "a", TO_THE_END),
    "`a`, `(a{13})*b`, `(a{17})*c`": (FAR_TWO_TABLES, "a", 2 * TO_THE_END),
    "the same and `(a{19})*d`, `(a{23})*e`": (FAR_FOUR_TABLES, "a", 4 * TO_THE_END),
}


def tell(name, looked, most, plain=""):
    """Prints a line of the table, each number for each byte of the text."""
    print(f"| {name} | {looked:.2f} | {most:,.0f} | {plain} |")


def tell_text(name, rules, text, plain=""):
    """Measures a text, and prints its line."""
    looked, _, most = cells_of(rules, text)
    size = len(text.encode())
    tell(name, looked / size, most / size, plain)


def main(paths):
    """Measures, and prints the table."""
    print("| Rules and text | Cells a byte | At most | Plain maximal munch |\n|---|---|---|---|")
    for rules, text in zip(paths[::2], paths[1::2]):
        with open(rules, encoding="utf-8") as rule_file, open(text, encoding="utf-8") as text_file:
            tell_text(os.path.basename(rules), rule_file.read(), text_file.read())
    for name, (rules, word, plain) in IN_VAIN.items():
        tell_text(name, rules, word * (SIZE // len(word)), f"{plain:,.0f}")
    counts = [cells_of(*far_by_chance(random.Random(seed), SIZE)) for seed in range(CHANCES)]
    worst = max(counts)
    tell(f"{CHANCES} rule texts by chance, the worst", worst[0] / SIZE, worst[2] / SIZE)


if __name__ == "__main__":
    main(sys.argv[1:])
