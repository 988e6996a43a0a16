"""Lexing by tables against lexing by `regex` alone, and rule texts of many start states."""

import unittest

from support import replay
from support.definitions import WORK, from_text, new_with_budget
from support.rule_texts import FAR, FAR_PAIRS, FAR_STATES, FAR_TWO_TABLES


def in_letters(number):
    """The number in the letters a to z, the least of them first."""
    return chr(97 + number % 26) + (in_letters(number // 26) if number >= 26 else "")


def by_word(count, pattern, more=""):
    """A rule text of so many rules, each of the pattern with a word of its own for WORD, and more of them below."""
    return "%%\n" + "".join(f"{pattern.replace('WORD', in_letters(it))} 'R{it}'\n" for it in range(count)) + more


# Rules, a text and its edits.
BOTH_WAYS = [
    # one table for a group of rules: of as many as there may be, of more, and of those around one without a table
    (by_word(256, "xWORD"), "xaxbxccxivbxax", []),
    (by_word(700, "xWORD", "[a-z]+ 'WORD'\n[ ] ;"), "xa xba xyza xbw xza x y", [(3, 4, "z")]),
    (by_word(80, "xWORD", "xab$ 'END'\n[a-z]+ 'WORD'\n\\n ;"), "xa\nxab\nxab", []),
    # rules that match on from everywhere, so that no group has one table
    (by_word(60, "[a-z]*WORD"), "abcabdxyaz", []),
    (by_word(30, "[ab]*aWORD[ab]*", "[a-z] 'LETTER'"), "abaabazabcab", [(0, 1, "zz")]),
    ("%%\n[a-z]+ 'ID'\nif 'IF'\n[ ] ;", "if iffy fi if", []),
    ("%%\nif 'IF'\n[a-z]+ 'ID'\n[ ] ;", "if iffy fi if", []),
    ("%%\na$ 'END'\na 'A'\n\\n 'NL'", "aa\na\naaa", []),
    ("%%\n^a 'LINE'\na 'A'\nb\\n^a 'TWO'\n[b\\n] 'O'", "ab\naab\na", []),
    ("%%\n(a|b)*a(a|b){12} 'LONG'\na 'A'\nb 'B'", "abababbabaabbabababbabb", []),
    ("%%\na*b 'B'\na 'A'", "aaaaaaaaab aaa", []),
    ("%%\n\\w+ 'W'\n[^\\w]+ 'O'", "für élan, naïve", []),
    ("%%\nx* 'X'\ny 'Y'", "xxyz", []),
    ("%x s\n%%\n\" <+s>'O'\n<s>[^\"]+ 'T'\n<s>\" <-s>'C'\na 'A'", 'a"abc"a""', []),
    # walks far in vain
    (FAR, "a" * 700, []),
    (FAR, "a" * 700 + "b", []),
    (FAR, "aab" + "a" * 700 + "aab", []),
    (FAR_PAIRS, "ab" * 400, []),
    (FAR_PAIRS, "b" + "ab" * 400 + "c", []),
    (FAR_TWO_TABLES, "a" * 500, []),
    (FAR_TWO_TABLES, "a" * (13 * 17 * 3) + "b", []),
    (FAR_TWO_TABLES, "a" * 500 + "c", []),
    (FAR_STATES, "a" * 500, []),
    (FAR_STATES, "a" * 500 + "c", []),
    (FAR_STATES, "a" * 501 + "c", []),
    (FAR, "a" * 300 + "b" + "a" * 300, [(300, 301, "")]),
    (FAR, "a" * 300 + "b" + "a" * 300, [(300, 301, "a")]),
    (FAR, "a" * 300 + "b" + "a" * 300, [(0, 0, "b")]),
    (FAR, "a" * 300 + "b" + "a" * 300, [(601, 601, "b")]),
    (FAR, "a" * 300 + "b" + "a" * 300, [(301, 301, "b")]),
    (FAR, "a" * 300 + "b" + "a" * 300, [(400, 500, "")]),
]

# The most rows of tables: more than these rules need, and few.
BUDGETS = [8_000, 20]


def by_tables(rules):
    """The definitions of a rule text with its usual tables, and with tables within each of the budgets."""
    return [from_text(rules)] + [new_with_budget(rules, rows, WORK) for rows in BUDGETS]


def by_regex(rules):
    """The definitions of a rule text without tables, so that each rule is matched by `regex`."""
    return [new_with_budget(rules, 0, 0), new_with_budget(rules, 0, WORK)]


def last_run(answers, with_recut):
    """Items and boundaries of the last run; its tiles, its items, the most entries of a stack and those of the last one.

    A run as it is also has its recut tiles, which are all. After an edit each definition recuts as many as it must.
    """
    counts = answers.last("run")
    return answers.last("items"), answers.last("boundaries"), counts[:5 if with_recut else 4]


def state_rule(state, count, moves):
    """The rule of a state: a named one, whose table has three rows, or one that moves to the next state."""
    if moves:
        return f"<s{state}>x <s{(state + 1) % count}>;\n"
    return f"<s{state}>a 'R{state}'\n"


def many_states(count, moves):
    """A rule text of so many exclusive states, each with one rule."""
    declared = "%x" + "".join(f" s{state}" for state in range(count))
    first = "\n%%\nx <s0>;\n" if moves else "\n%%\n"
    return declared + first + "".join(state_rule(state, count, moves) for state in range(count))


# Rows; tables, rows that they have, and rules without a table.
SHARED = [(0, [0, 0, 40]), (60, [19, 57, 21]), (200, [40, 120, 0])]


class TablesAgainstRegex(replay.TestCase):
    """What tables find is what `regex` finds."""

    def check_alike(self, rules, text, edits):
        """All definitions of the rule text lex the text alike, before and after its edits."""
        definitions = by_regex(rules) + by_tables(rules)
        cases = [definition.case(["definition"], ["run", text, edits]) for definition in definitions]
        first, *others = replay.answers(cases)
        self.assertEqual(first.last("tables")[0], 0)
        wanted = last_run(first, not edits)
        self.assertIsNotNone(wanted[0])
        for answers in others:
            self.assertEqual(last_run(answers, not edits), wanted)

    def test_tables_and_regex_lex_alike(self):
        for number, (rules, text, edits) in enumerate(BOTH_WAYS):
            with self.subTest(row=number, rules=rules, text=text[:40], edits=edits):
                self.check_alike(rules, text, edits)

    def test_the_tables_of_small_states_share_the_rows_of_a_budget(self):
        cases = [new_with_budget(many_states(40, False), rows, WORK).case(["definition"]) for rows, _ in SHARED]
        for (rows, wanted), answers in zip(SHARED, replay.answers(cases), strict=True):
            with self.subTest(rows=rows):
                self.assertEqual(answers.last("tables"), wanted)

    def test_states_with_the_same_rules_share_a_table(self):
        # the table of a rule of one letter has three rows
        answers = replay.answer(from_text("%x a b c\n%%\n<INITIAL,a,b,c>x 'X'\n").case(["definition"]))
        self.assertEqual(answers.last("tables"), [1, 3, 0])

    def test_four_thousand_states_with_a_rule_each(self):
        answers = replay.answer(from_text(many_states(4_000, True)).case(["run", "x" * 10_000, []]))
        tiles, *_, searches = answers.last("run")
        self.assertEqual(tiles, 10_000)
        self.assertLessEqual(searches, 10_000)


if __name__ == "__main__":
    unittest.main()
