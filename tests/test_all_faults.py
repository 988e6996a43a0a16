"""All faults of a rule text: those of the reading first, and then those past its fatal ones."""

import unittest

from support import replay
from support.all_faults import random_case

# Faults after which the reading goes on.
MILD = {"DuplicateStartState", "DuplicateName", "VerbatimNotSupported"}

# A rule text, and all its faults.
ROWS = [
    # Three half-typed rules, and three lines of other faults.
    ("%%\n( 'A'\n) 'B'\n[ 'C'\n", "RegexError 3..3, RegexError 9..9, RegexError 15..15"),
    ("%%\na\nb 'B\nc 'C'\n<c 'D'\n", "MissingSpace 3..3, InvalidName 7..7, InvalidStartState 16..16"),
    # A faulty declaration before good rules, two in a row, and one whose later names aren't declared.
    ("%y a\n%%\na 'A'\n", "UnknownDeclaration 0..0"),
    ("word\n%s 1\n%%\na 'A'\n", "UnknownDeclaration 0..0, InvalidStartStateName 8..8"),
    ("%s A 1 B\n%%\n<A>a 'A'\n<B>b 'B'\n", "InvalidStartStateName 5..5, UnknownStartState 21..21"),
    # Duplicates join their original's fault, but not over a faulty line; such a line declares nothing.
    ("%%\na 'A'\nb 'A'\nc 'A'\n", "DuplicateName 6..7 12..13 18..19"),
    ("%%\na 'A'\nb 'A'\n(\nc 'A'\n", "DuplicateName 6..7 12..13, MissingSpace 15..15, DuplicateName 6..7 20..21"),
    ("%%\na 'A'\n(\nc 'A'\n", "MissingSpace 9..9, DuplicateName 6..7 14..15"),
    ("%%\n( 'A'\na 'A'\nb 'A'\n", "RegexError 3..3, DuplicateName 12..13 18..19"),
    ("%s A\nword\n%s A\n%%\n", "UnknownDeclaration 5..5, DuplicateStartState 3..4 13..14"),
    # Start states that aren't declared, in a list and as a target.
    ("%%\n<A>a 'A'\nb <B>'B'\n<INITIAL>c 'C'\n", "UnknownStartState 3..3, UnknownStartState 14..14"),
    # The text as a whole.
    ("", "PrematureEnd 0..0"),
    ("a 'A'\n% %\nb 'B'", "UnknownDeclaration 0..0, UnknownDeclaration 6..6, UnknownDeclaration 10..10, PrematureEnd 15..15"),
    ("%%\n(\n%%\nmore", "MissingSpace 3..3, RoutinesNotSupported 5..5"),
    # Verbatim code, alone and between others.
    ("%%\n code\n( 'A'\n code\n", "VerbatimNotSupported 3..8, RegexError 9..9, VerbatimNotSupported 15..20"),
    # None.
    ("%%\n", ""),
    ("%s A\n%%\n<A>a <INITIAL>'A'\n%%\n \n", ""),
]


def case(rules, **members):
    """A case over this rule text."""
    return {"rules": rules, "flags": {}, "storage": "u32", **members}


def told(cases):
    """All faults of each of these cases, in order."""
    steps = [["all_faults", one] for one in cases]
    return replay.answer({"rules": "%%\n", "flags": {}, "steps": steps}).values("faults")


def format_fault(fault):
    """A fault by its kind and its spans: `DuplicateName 6..7 12..13`."""
    return fault["kind"] + "".join(f" {start}..{end}" for start, end in fault["spans"])


def format_faults(faults):
    """The faults in one line."""
    return ", ".join(format_fault(fault) for fault in faults)


def replayed():
    """The replayed cases with a rule text, each with the faults that the reading has to tell."""
    return [(one, one["expected"].get("faults", [])) for one in replay.stored() if "from_rules" not in one and "steps" not in one]


class AllFaults(replay.TestCase):
    """What `all_faults` tells."""

    def test_rows(self):
        for (rules, wanted), faults in zip(ROWS, told([case(rules) for rules, _ in ROWS]), strict=True):
            with self.subTest(rules=rules):
                self.assertEqual(format_faults(faults), wanted)

    def test_each_rule_past_the_last_id_is_told(self):
        rules = "%%\n" + "".join(f"a{number:03} ;\n" for number in range(259))
        (faults,) = told([case(rules, storage="u8")])
        self.assertEqual(format_faults(faults), "TooManyRules 1795..1795, TooManyRules 1802..1802, TooManyRules 1809..1809")

    def test_the_replayed_faults_come_first(self):
        cases = replayed()
        fatal = 0
        for (one, wanted), faults in zip(cases, told([one for one, _ in cases]), strict=True):
            with self.subTest(rules=one["rules"]):
                if all(fault["kind"] in MILD for fault in wanted):
                    self.assertEqual(faults, wanted)
                else:
                    fatal += 1
                    self.assertEqual(faults[: len(wanted)], wanted)
        self.assertGreater(fatal, 1000)

    def test_random_texts_against_the_model(self):
        cases = [random_case(seed) for seed in range(2000)]
        for (wanted, rules), faults in zip(cases, told([case(rules) for _, rules in cases]), strict=True):
            with self.subTest(rules=rules):
                self.assertEqual(faults, wanted)


if __name__ == "__main__":
    unittest.main()
