"""The form of cases and of steps (support/shapes.py): what isn't of it is no case."""

import unittest

from support.shapes import checked

# Steps that aren't of their form.
MALFORMED = [
    [],
    "definition",
    ["none"],
    ["definition", 1],
    ["scan"],
    ["scan", 1],
    ["run", "a", [[0, 1]]],
    ["run", "a", [[0, 1, "b", []]]],
    ["run", "a", [[0, -1, "b"]]],
    ["run", "a", [[0, True, "b"]]],
    ["part", "a", 0, 1 << 64],
    ["lexer", "a", 1, [], []],
    ["ids", {"A": 1 << 32}, True],
    ["ids", [], True],
    ["complaints", [256], ""],
    ["complaints", "%%", ""],
    ["engine", "%%", "", [1, 1, "breaks"]],
    ["all_faults", {"rules": "%%", "flags": {"octals": True}, "storage": "u8"}],
    ["all_faults", {"rules": "%%", "flags": {}, "storage": "u64"}],
    ["all_faults", {"rules": "%%", "flags": {}}],
]

WITH_STEPS = {"rules": "%%", "flags": {}, "steps": [["definition"], ("run", "a", [(0, 1, "")])]}
OF_PARTS = {"flags": {}, "from_rules": {"states": [[0, "A", False, [0, 0]]], "rules": []}, "steps": []}
REPLAYED = {"rules": "%%", "flags": {}, "input": "", "storage": "u32", "ids": {}, "expected": {}}

CASES = [WITH_STEPS, {**WITH_STEPS, "budget": [1, 2], "again": [3, 4]}, OF_PARTS, REPLAYED, {**REPLAYED, "from_rules": OF_PARTS["from_rules"]}]

# Cases that aren't of their form.
MALFORMED_CASES = [
    {**WITH_STEPS, "input": ""},
    {**WITH_STEPS, "flags": {"octal": 1}},
    {**WITH_STEPS, "again": [3]},
    {**OF_PARTS, "budget": [1, 2]},
    {**OF_PARTS, "from_rules": {"states": [[0, "A", False, [1, 0]]], "rules": []}},
    {**OF_PARTS, "from_rules": {"states": [], "rules": [{"tok_id": 0}]}},
    {**REPLAYED, "storage": "u8"},
    {**REPLAYED, "storage": "u64"},
    {key: REPLAYED[key] for key in REPLAYED if key != "input"},
    {},
]


class Shapes(unittest.TestCase):
    """What is a case, and what isn't."""

    def test_cases(self):
        for case in CASES:
            with self.subTest(case=case):
                self.assertIs(checked({"id": 1, **case})["id"], 1)

    def test_malformed_cases(self):
        steps = [{**WITH_STEPS, "steps": [step]} for step in MALFORMED]
        for case in steps + MALFORMED_CASES:
            with self.subTest(case=case), self.assertRaises(ValueError):
                checked({"id": 1, **case})


if __name__ == "__main__":
    unittest.main()
