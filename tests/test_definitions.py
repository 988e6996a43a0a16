"""Definitions from parts, look-ups by id and name, and both calls that set token ids."""

import unittest

from support import replay
from support.definitions import from_rules, from_text, rule
from support.formatting import format_rule, format_rules

THREE = "%%\na 'A'\nb 'B'\n[ ] ;"

# Rules, the ids that they are given, an id, the rule that is found, and what a lexeme of the id is called.
BY_ID = [
    (THREE, None, 0, "A 0", "A"),
    (THREE, None, 1, "B 1", "B"),
    (THREE, None, 2, "- 2", None),
    (THREE, None, 3, "", None),
    ("%%\na ;\nb 'B'", {"B": 0}, 0, "- 0", "B"),
    ("%%\na ;\nb 'B'", {"B": 0}, 1, "", None),
    ("%%\na 'A'\nb 'B'", {"A": 5, "B": 5}, 5, "A 5", "A"),
    ("%%\na 'A'\nb 'B'", {"B": 5}, 0, "", None),
]

# A name, and the pattern of the rule that is found.
BY_NAME = [("A", "a"), ("B", "b"), ("C", None), ("", None), ("a", None)]

ONE_RULE = [rule(4, "A", 2, 1, "a)|(b", [1, "Pop"])]

# Two rules named A, of which the second is at 2..3.
TWINS = [rule(None, "A", 0, 1, "a"), rule(None, "A", 2, 1, "a")]

# Ids that are set one after another, whether with places, both sets, and the rules.
IDS = [
    ({"A": 5}, False, [None, None], "A 5, A 5"),
    ({}, False, [None, ["A"]], "A none, A none"),
    ({"A": 5}, True, [None, None], "A 5, A 5"),
    ({}, True, [None, [["A", [0, 1]], ["A", [2, 3]]]], "A none, A none"),
    ({"A": 5, "B": 6}, True, [["B"], None], "A 5, A 5"),
]


class Definitions(replay.TestCase):
    """What a definition says of its rules."""

    def test_look_ups_by_id_find_the_first(self):
        for rules, ids, token, wanted, name in BY_ID:
            with self.subTest(rules=rules, ids=ids, token=token):
                setting = [] if ids is None else [["ids", ids, False]]
                answers = replay.answer(from_text(rules).case(*setting, ["find", [token], []]))
                asked, found, name_of = answers.last("by_id")
                self.assertEqual(asked, token)
                self.assertEqual("" if found is None else format_rule(found), wanted)
                self.assertEqual(name_of, name)

    def test_look_ups_by_name(self):
        names = [name for name, _ in BY_NAME]
        answers = replay.answer(from_text(THREE).case(["find", [], names]))
        for row, (name, found) in zip(BY_NAME, answers.values("by_name"), strict=True):
            with self.subTest(name=row[0]):
                self.assertEqual((name, found and found["re_str"]), row)

    def test_parts_are_kept_as_handed_in(self):
        answers = replay.answer(from_rules(ONE_RULE, True).case(["definition"]))
        self.assertEqual(answers.last("rules"), ONE_RULE)
        self.assertEqual(answers.last("states"), [[0, "INITIAL", False, [0, 0]]])
        self.assertEqual(answers.last("default_flags"), True)

    def test_ids_of_two_rules_of_one_name(self):
        steps = []
        for ids, spanned, _, _ in IDS:
            steps += [["ids", ids, spanned], ["definition"]]
        answers = replay.answer(from_rules(TWINS, True).case(*steps))
        came = zip(IDS, answers.values("ids"), answers.values("rules"), strict=True)
        for (ids, spanned, wanted_sets, wanted_rules), sets, rules in came:
            with self.subTest(ids=ids, spanned=spanned):
                self.assertEqual(sets, wanted_sets)
                self.assertEqual(format_rules(rules), wanted_rules)


if __name__ == "__main__":
    unittest.main()
