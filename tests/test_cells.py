"""How many cells of tables a run or a scanner looks at: worked out for short texts, and within what its contract allows for texts that look far."""

import random
import tempfile
import unittest

from support import programs
from support.rule_texts import FAR, FAR_FOUR_TABLES, FAR_PAIRS, FAR_STATES, FAR_TWO_TABLES, FAR_WITHOUT_TABLE, WORDS, far_by_chance

PROGRAM = "lrlex_bench"

# A rule text, a text, and how many cells its walks look at: for each tile its bytes and the one that no rule goes on with, where the
# text's end counts as one.
WORKED = [
    (WORDS, "", 0),
    (WORDS, "ab", 3),
    (WORDS, "ab c ", 3 + 2 + 2 + 2),
    # nothing matches the digit, which is looked at
    (WORDS, "ab 1", 3 + 2 + 1),
    (FAR, "aaab", 5),
    # each a looks to the end
    (FAR, "aaa", 4 + 3 + 2),
    # each a looks to the end, each b at the next byte
    (FAR_PAIRS, "abab", 5 + 2 + 3 + 2),
    # two tables
    (FAR_TWO_TABLES, "a", 2 + 2),
    # the rule that has no table looks at no cell
    (FAR_WITHOUT_TABLE, "aa", 3 + 2),
]

FAR_TEXTS = [
    (FAR, "a"), (FAR_PAIRS, "ab"), (FAR_TWO_TABLES, "a"), (FAR_FOUR_TABLES, "a"), (FAR_STATES, "a"), (FAR_WITHOUT_TABLE, "a"),
]


def cells_of(rules, text):
    """How many cells a run of the text looks at, and a scanner, and how many their contracts allow."""
    with tempfile.TemporaryDirectory() as folder:
        programs.fill(folder, {"rules": rules, "text": text})
        came = programs.run([programs.path_of(PROGRAM), "rules", "text", "1"], "", folder)
    found = dict(line.split(": ") for line in came.out.splitlines())
    return int(found["cells looked at"]), int(found["cells looked at by a scanner"]), int(found["cells at most"])


class Cells(unittest.TestCase):
    """Counts of cells."""

    def setUp(self):
        programs.need(PROGRAM)

    def test_short_texts(self):
        for rules, text, wanted in WORKED:
            with self.subTest(rules=rules, text=text):
                looked, scanned, _ = cells_of(rules, text)
                self.assertEqual(looked, wanted)
                self.assertEqual(scanned, wanted)

    def test_how_many_there_may_be(self):
        # five bytes by one table of four rows
        self.assertEqual(cells_of(WORDS, "ab c ")[2], 390 * 5 + 192 * 4 + 4 * 5 + 16_384)

    def test_texts_that_look_far_take_twice_as_much_where_they_are_twice_as_long(self):
        for rules, word in FAR_TEXTS:
            with self.subTest(rules=rules):
                once, scanned, most = cells_of(rules, word * (40_000 // len(word)))
                twice, twice_scanned, twice_most = cells_of(rules, word * (80_000 // len(word)))
                self.assertLessEqual(max(once, scanned), most)
                self.assertLessEqual(max(twice, twice_scanned), twice_most)
                self.assertLess(twice, 2.1 * once)
                self.assertLess(twice_scanned, 2.1 * scanned)

    def test_rules_that_look_far_by_chance(self):
        for seed in range(100):
            rules, text = far_by_chance(random.Random(seed), 20_000)
            with self.subTest(seed=seed, rules=rules):
                looked, scanned, most = cells_of(rules, text)
                self.assertLessEqual(max(looked, scanned), most)


if __name__ == "__main__":
    unittest.main()
