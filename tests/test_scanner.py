"""Scanners: each tile that they give, with its rule, its bytes and its id, and why they give no more."""

import unittest

from support import replay
from support.definitions import from_rules, from_text, new_with_budget, rule

WORDS = from_text("%%\n[a-z]+ 'WORD'\n[0-9]+ 'INT'\n[ ] ;")
STATES = from_text("%x s\n%%\n\\( <+s>'OPEN'\n<s>\\) <-s>'CLOSE'\n<s>\\( <+s>'OPEN_AGAIN'\n[a-z] 'A'\n<s>[a-z] 'IN'")

# The definition, the text, and what a scanner of it gives: [rule, start, length, id or null] for each tile, and the end.
ROWS = [
    (WORDS, "", ["done"]),
    (WORDS, "ab 12", [[0, 0, 2, 0], [2, 2, 1, None], [1, 3, 2, 1], "done"]),
    # no rule matches the character in state 0
    (WORDS, "ab!", [[0, 0, 2, 0], 0]),
    (WORDS, "é", [0]),
    # the state on top of the stack: two are opened, one is closed, and the text ends within the other
    (STATES, "(a(b)c", [[0, 0, 1, 0], [4, 1, 1, 4], [2, 2, 1, 2], [4, 3, 1, 4], [1, 4, 1, 1], [4, 5, 1, 4], "done"]),
    (STATES, "()a", [[0, 0, 1, 0], [1, 1, 1, 1], [3, 2, 1, 3], "done"]),
    # in the state that is named second
    (STATES, "(!", [[0, 0, 1, 0], 1]),
    # the same by `regex` alone
    (new_with_budget("%%\n[a-z]+ 'WORD'\n[ ] ;", 0, 0), "a b", [[0, 0, 1, 0], [1, 1, 1, None], [0, 2, 1, 0], "done"]),
    # a rule with a name and no id; one whose target is no state; no state 0
    (from_rules([rule(None, "A", 0, 1, "a"), rule(7, "B", 1, 1, "b")], True), "ba", [[1, 0, 1, 7], [0]]),
    (from_rules([rule(7, "A", 0, 1, "a+", [5, "Push"])], True), "aa", [[0, 0, 2, 7]]),
    (from_rules([rule(7, "A", 0, 1, "a")], False), "a", [None]),
]


class Scanners(replay.TestCase):
    """What the steps of a scanner are."""

    def test_tiles_and_ends(self):
        cases = [definition.case(["scan", text], ["run", text, []]) for definition, text, _ in ROWS]
        for (definition, text, want), answers in zip(ROWS, replay.answers(cases)):
            with self.subTest(definition=definition.name, text=text):
                self.assertEqual(want, answers.last("scan"))
                # an end comes to the error of a run
                stops = [item for item in answers.last("items") if item[0] == "err"]
                self.assertEqual(stops[0] if stops else None, answers.last("stop"))

    def test_a_long_text(self):
        answers = replay.answer(WORDS.case(["scan", "ab 12 " * 20_000]))
        tiles = answers.last("scan")
        self.assertEqual("done", tiles.pop())
        self.assertEqual(80_000, len(tiles))
        self.assertEqual([2, 119_999, 1, None], tiles[-1])


if __name__ == "__main__":
    unittest.main()
