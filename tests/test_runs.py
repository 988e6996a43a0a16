"""Runs of a text: which rules have a table, how often rules without one are searched for, and long inputs."""

import unittest

from support import replay
from support.definitions import WORK, from_text, new_with_budget, with_budget
from support.rule_texts import FAR, FAR_FOUR_TABLES, FAR_PAIRS, FAR_STATES, FAR_TWO_TABLES, FAR_WITHOUT_TABLE
from support.run_rows import Row, check_rows

END = "%%\na$ 'X'\n[ab] 'Y'"

PUSHES = "%s p q\n%%\na <+p>;\nb <+q>;\nc <-p>;\n<INITIAL>d 'AT_THE_BOTTOM'\n<p>d 'IN_P'\n<q>d 'IN_Q'\ne ;"

# Searches, one for each rule without a table at each boundary.
SEARCHED = [
    Row(new_with_budget(END, 8_000, WORK), "aba", searches=3),
    Row(new_with_budget(END, 8_000, WORK), "", searches=0),
    # it stops at the second
    Row(new_with_budget(END, 8_000, WORK), "bc", searches=2),
    Row(new_with_budget("%%\na$ 'X'\nb$ 'Z'\n[ab] 'Y'", 8_000, WORK), "ab", searches=4),
    # in the start state each rule has a table
    Row(new_with_budget("%x s\n%%\na <+s>'A'\n<s>b$ 'B'\n<s>b 'C'", 8_000, WORK), "abb", searches=2),
    Row(new_with_budget("%%\n[ab] 'Y'", 8_000, WORK), "aba", searches=0),
    Row(new_with_budget("%%\n[ab] 'Y'", 0, WORK), "aba", searches=3),
]

# Which rules have a table.
TABLES = [
    Row(from_text("%%\na 'A'"), "", tables=1, without_table=0),
    Row(from_text("%%\n[a-z]+ 'ID'\n[0-9]+ 'INT'\n[ ] ;"), "", tables=1, without_table=0),
    Row(from_text("%%\n^a 'A'\nb 'B'"), "", tables=1, without_table=0),
    Row(from_text("%%\na$ 'A'\nb 'B'\nc 'C'"), "", tables=1, without_table=1),
    Row(from_text("%%\nif\\b 'IF'\n[a-z]+ 'ID'"), "", tables=1, without_table=1),
    Row(from_text("%%\na\\nb 'A'\na\\n^b 'B'"), "", tables=1, without_table=1),
    Row(from_text("%%\n[a-z] 'A'\n(a|b)*a(a|b){12} 'B'\n[0-9] 'C'"), "", tables=1, without_table=1),
    Row(from_text("%s s t\n%%\na 'A'\nb 'B'"), "", tables=1, without_table=0),
    Row(from_text("%x s\n%%\na 'A'\n<s>b 'B'"), "", tables=2, without_table=0),
    Row(from_text("%x s\n%%\na <s>'A'"), "", tables=1, without_table=0),
    Row(from_text(FAR_TWO_TABLES), "", tables=2, without_table=0),
    Row(from_text(FAR_FOUR_TABLES), "", tables=4, without_table=0),
]

# Texts on which tables walk far past the end of a tile in vain.
FAR_TEXTS = [
    Row(from_text(FAR), "a" * 1_000_000, tiles=1_000_000, count=1_000_000),
    Row(from_text(FAR), "a" * 1_000_000 + "b", tiles=1, count=1),
    Row(from_text(FAR_PAIRS), "ab" * 500_000, tiles=1_000_000, count=1_000_000),
    Row(from_text(FAR_TWO_TABLES), "a" * 200_000, tiles=200_000, count=200_000),
    # more dead ends than bytes: with a cap at as many this would take twenty minutes
    Row(from_text(FAR_FOUR_TABLES), "a" * 1_000_000, tiles=1_000_000, count=1_000_000),
    Row(from_text(FAR_STATES), "a" * 200_000, tiles=200_000, count=200_000),
    Row(from_text(FAR_WITHOUT_TABLE), "a" * 200_000, tiles=200_000, count=200_000),
]

BY_REGEX = with_budget(PUSHES, 0, 0)

# Inputs that push a million states, where no rule has a table, each also with an `e` put before it; and one of millions of tiles.
LONG = [
    Row(BY_REGEX, "a" * 1_000_000 + "d", tiles=1_000_001, count=1, peak=2, last=2),
    Row(
        BY_REGEX, "a" * 1_000_000 + "d", [(0, 0, "e")],
        tiles=1_000_002, count=1, peak=2, last=2, searches=5,
    ),
    Row(BY_REGEX, "ab" * 500_000 + "d", tiles=1_000_001, count=1, peak=1_000_001, last=1_000_001),
    Row(
        BY_REGEX, "ab" * 500_000 + "d", [(0, 0, "e")],
        tiles=1_000_002, count=1, peak=1_000_001, last=1_000_001, searches=5,
    ),
    Row(BY_REGEX, "abcc" * 250_000 + "d", tiles=1_000_001, count=1, peak=3, last=1),
    Row(
        BY_REGEX, "abcc" * 250_000 + "d", [(0, 0, "e")],
        tiles=1_000_002, count=1, peak=3, last=1, searches=5,
    ),
    Row(from_text("%%\nx ;"), "x" * 20_000_000, tiles=20_000_000, count=0, peak=1, searches=0),
]


class Runs(replay.TestCase):
    """Runs of a text as it is, and counts after edits of long ones."""

    def test_which_rules_have_a_table(self):
        check_rows(self, TABLES)

    def test_searches_of_rules_without_a_table(self):
        check_rows(self, SEARCHED)

    def test_texts_that_tables_walk_far_in_vain(self):
        check_rows(self, FAR_TEXTS)

    def test_a_million_pushes_and_twenty_million_tiles(self):
        for row in LONG:
            # one at a time: each takes much memory
            check_rows(self, [row])


if __name__ == "__main__":
    unittest.main()
