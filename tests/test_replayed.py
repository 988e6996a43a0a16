"""The replayed cases (replayed.jsonl): rule texts and inputs, and all that comes of them, as both compilers build lrlex_bench."""

import unittest

from support import programs, replay
from support.replayed import compared, differences

# A case, and what it answers.
CASE = {"id": "a", "expected": {"rules": [{"re_str": "a", "tok_id": 0}], "items": [], "linecols": [], "tiles": 1, "entries_peak": 1, "asked_max": 3}}
LEXED = ["items []", "linecols []", "tiles 1", "entries_peak 1", "asked_max 3"]
LINES = ['rules [{"tok_id": 0, "re_str": "a"}]', *LEXED, *LEXED]

# Lines in place of some of these, and how many differences that makes.
ANSWERED = [
    ({}, 0),
    ({5: "asked_max 2"}, 0),
    ({5: "asked_max 4"}, 1),
    ({3: "tiles 2"}, 1),
    ({3: "tiles true"}, 1),
    ({3: "tiles 0", 8: "tiles 0"}, 2),
    ({0: 'rules [{"tok_id": false, "re_str": "a"}]'}, 1),
    ({0: "states []"}, 1),
    ({3: "rules []"}, 2),
]


class Replayed(replay.TestCase):
    """Each answer of a case is what it expects, and there is an answer for all that it expects."""

    def test_all_cases(self):
        cases = replay.stored()
        self.assertEqual(len(cases), 2850)
        for path in programs.by_each_compiler(replay.PROGRAM):
            with self.subTest(program=path):
                self.assertEqual([line for lines in compared(cases, path) for line in lines], [])


class Comparing(unittest.TestCase):
    """What differs is found."""

    def test_differences(self):
        for others, count in ANSWERED:
            with self.subTest(others=others):
                lines = [others.get(at, line).encode() for at, line in enumerate(LINES)]
                self.assertEqual(len(differences(CASE, replay.Answers(lines))), count)

    def test_answers_that_lack(self):
        for count in range(len(LINES)):
            with self.subTest(count=count):
                answers = replay.Answers(line.encode() for line in LINES[:count])
                self.assertEqual(len(differences(CASE, answers)), 1)


if __name__ == "__main__":
    unittest.main()
