"""Matches that are found ahead, in blocks of the text and in two lanes, against plain maximal munch over a stack of start states.

Blocks have 256 bytes at first, and then twice as many each time, up to 8,192. From 1,024 bytes on a second lane begins behind a line's end
near the middle, in the first list of rules. Where a match ends, the next one is looked for in the list that probably follows. After a pop
that is the last other one with a rule that pushes the state.
"""

import functools
import re
import unittest

from support import replay
from support.definitions import WORK, from_text, new_with_budget


class Rules:
    """Start states and rules: of each the states that it lists, its pattern, its name or None, and its target without the angles.

    Each pattern means the same to Python, and each match of it is the longest.
    """

    def __init__(self, rules, exclusive=(), inclusive=()):
        self.rules = rules
        self.exclusive, self.inclusive = exclusive, inclusive
        self.states = ["INITIAL", *exclusive, *inclusive]

    def text(self):
        """The rule text."""
        declared = [f"%{sign} {' '.join(names)}\n" for sign, names in (("x", self.exclusive), ("s", self.inclusive)) if names]
        return "".join(declared) + "%%\n" + "".join(rule_line(*rule) for rule in self.rules)

    def is_active(self, listed, state):
        """Whether a rule that lists these states is active in this one."""
        if not listed:
            return state not in self.exclusive
        return listed == "*" or state in listed.split(",")

    def active(self, state):
        """The places of the rules that are active in the state, their patterns and their targets."""
        rules = [(place, *rule) for place, rule in enumerate(self.rules) if self.is_active(rule[0], state)]
        return [(place, re.compile(pattern, re.MULTILINE), target) for place, _, pattern, _, target in rules]


def rule_line(listed, pattern, name, target):
    """The line of a rule."""
    before = f"<{listed}>" if listed else ""
    behind = f"<{target}>" if target else ""
    quoted = f"'{name}'" if name else ";"
    return f"{before}{pattern} {behind}{quoted}\n"


def move(stack, target):
    """Changes the stack as a rule with this target does."""
    if target.startswith("+"):
        stack.append(target[1:])
    elif target.startswith("-"):
        stack.pop()
    elif target:
        stack[:] = [target]
    if not stack:
        stack.append("INITIAL")


def munched(rules, text):
    """The tiles by plain maximal munch, of each the rule, its place and its length in bytes, and then the end as a scanner tells it."""
    active = {state: rules.active(state) for state in rules.states}
    stack, answer, at, place = ["INITIAL"], [], 0, 0
    while at < len(text):
        won, end, target = None, at, ""
        for rule, pattern, moves in active[stack[-1]]:
            found = pattern.match(text, at)
            if found and found.end() > end:
                won, end, target = rule, found.end(), moves
        if end == at:
            return [*answer, rules.states.index(stack[-1])]
        length = len(text[at:end].encode())
        answer.append([won, place, length])
        move(stack, target)
        at, place = end, place + length
    return [*answer, "done"]


def stateless(rules):
    """Rules that list no states and have no targets: of each the pattern and the name."""
    return Rules([("", pattern, name, "") for pattern, name in rules])


LINES = stateless([(r'"[^"]*"', "STRING"), (r"#[^#]*#", None), (r"[a-zé]+", "WORD"), (r"[0-9]+", "INT"), (r"[ \n]+", None)])
# A number may go on with a dot and a digit, and a word with a dash and a bang: else the walk has looked further in vain.
FURTHER = stateless(
    [(r"[0-9]+(\.[0-9]+)?", "NUMBER"), (r"[a-z]+(-+!)?", "WORD"), (r"[.]", "DOT"), (r"-", "DASH"), (r"[ \n]+", None)]
)

# Strings with escapes, and comments that nest. After a pop of a comment the guess is that no other is left.
NESTED = Rules(
    [
        ("", r'"', "OPEN", "+STR"),
        ("STR", r'[^"\\é]+', "TEXT", ""),
        ("STR", r"é", "ACCENT", ""),
        ("STR", r'\\["\\n]', "ESCAPE", ""),
        ("STR", r'"', "CLOSE", "-STR"),
        ("", r"/\*", None, "+REM"),
        ("REM", r"/\*", None, "+REM"),
        ("REM", r"\*/", None, "-REM"),
        ("REM", r"[^*/]+|[*/]", None, ""),
        ("", r"[a-zé]+", "WORD", ""),
        ("", r"[0-9]+", "INT", ""),
        ("", r"[ \n]+", None, ""),
    ],
    exclusive=["STR", "REM"],
)

# A value is in a state that replaces the stack. A string is pushed in it and outside of it: there the guess after the pop is wrong.
VALUES = Rules(
    [
        ("VAL", r"\n", "LINE", "INITIAL"),
        ("", r"\n", None, ""),
        ("", r"[ ]+", None, ""),
        ("INITIAL", r"=", "IS", "VAL"),
        ("VAL", r"true|false", "BOOL", ""),
        ("VAL", r"-?[0-9]+", "NUMBER", ""),
        ("", r"[a-zé][a-zé0-9.-]*", "WORD", ""),
        ("", r'"', "OPEN", "+STR"),
        ("STR", r'[^"\n]+', "TEXT", ""),
        ("STR", r'"', "CLOSE", "-STR"),
        ("STR", r"\n", "BROKEN", "-STR"),
        ("", r",", "COMMA", ""),
    ],
    exclusive=["STR"],
    inclusive=["VAL"],
)

# A string is pushed from two states that cut the same words into other tiles.
BELOW = Rules(
    [
        ("", r"\(", "IN_A", "+A"),
        ("", r"\[", "IN_B", "+B"),
        ("A", r"\)", "OUT_A", "-A"),
        ("B", r"\]", "OUT_B", "-B"),
        ("A,B", r'"', "OPEN", "+STR"),
        ("STR", r'[^"]+', "TEXT", ""),
        ("STR", r'"', "CLOSE", "-STR"),
        ("A", r"[a-z]+", "WORD", ""),
        ("B", r"[a-m]+|[n-z]+", "HALF", ""),
        ("*", r"[ \n]+", None, ""),
    ],
    exclusive=["A", "B", "STR"],
)

# Words have the same ends in both states, so two lanes meet though each walks in another one. A pop at the bottom leads to INITIAL.
BOTTOM = Rules(
    [
        ("", r"\(", "OPEN", "+IN"),
        ("", r"\)", "CLOSE", "-IN"),
        ("INITIAL", r"[a-z]+", "OUTER", ""),
        ("IN", r"[a-z]+", "INNER", ""),
        ("", r"[ \n]+", None, ""),
        ("INITIAL", r";", "ONLY_OUTER", ""),
    ],
    inclusive=["IN"],
)

# Two states have one list of rules, and a rule of it pushes one of them.
SHARED = Rules(
    [
        ("", r"\(", "IN_A", "+A"),
        ("", r"\[", "IN_B", "+B"),
        ("A,B", r"\(", "MORE", "+B"),
        ("A,B", r"\)", "OUT", "-A"),
        ("*", r"[a-z]+", "WORD", ""),
        ("*", r"[ \n]+", None, ""),
    ],
    exclusive=["A", "B"],
)

# A rule without a table in the pushed state, and in the one below.
ABOVE_HAS_NO_TABLE, BELOW_HAS_NO_TABLE = (
    Rules(
        [
            ("", r"\(", "OPEN", "+IN"),
            ("IN", r"\)", "CLOSE", "-IN"),
            (listed, r"a$", "LAST", ""),
            ("INITIAL", r"[a-z]", "OUTER", ""),
            ("IN", r"[a-z]", "INNER", ""),
            ("*", r"[ \n]+", None, ""),
        ],
        exclusive=["IN"],
    )
    for listed in ("IN", "INITIAL")
)


def ring(count):
    """So many states, each of which cuts words into pieces of another length. A bang leads to the next one, a question mark pushes it."""
    rules = [("INITIAL", "!", None, "S0")]
    for state in range(count):
        here, then, length = f"S{state}", f"S{(state + 1) % count}", 1 + state % 4
        rules += [
            (here, f"[a-z]{{{length}}}|[a-z]", f"PIECE{state}", ""),
            (here, "!", f"TO{state}", then),
            (here, "[?]", f"PUSH{state}", f"+{then}"),
            (here, "[.]", f"POP{state}", f"-{here}"),
        ]
    return Rules([*rules, ("*", r"[ \n]", None, "")], exclusive=[f"S{state}" for state in range(count)])


SHORT = 'ab "c d"é#x "y# 12 '
MIXED = 'ab "c\\"d\ne é" 12 /* x /* y */ é\n */ z '
CONFIG = 'a.b = 12, true\nname = "é b", x\n"c" "d" truer\n\nbroken = "e f\ng false\n"h\né-1 = -7\n'
LINE = "ab cd\n"


def with_line_ends(place):
    """The short text many times. Each eighth time a line ends at this place of it."""
    broken = SHORT[:place] + "\n" + SHORT[place:]
    return (SHORT * 7 + broken) * 120


ROWS = (
    # each length: the text ends anywhere in a block
    [(LINES, (SHORT * 80)[:length]) for length in range(1_200)]
    # a tile and a character stand across the end of any block
    + [(LINES, "a" * length + SHORT * 1_000) for length in range(25)]
    + [(LINES, "aé" * length + "é 1" * 5_000) for length in range(8)]
    # tiles longer than the first block, and than the longest
    + [(LINES, f'"{"é" * length}" ' * 5 + SHORT * 600) for length in (100, 127, 128, 500, 5_000)]
    # a second lane that begins at each byte, within a string, a comment, a word, a number or a blank
    + [(LINES, with_line_ends(place)) for place in range(len(SHORT))]
    # all of the text on one line, and each match on a line of its own
    + [(LINES, SHORT * 1_500), (LINES, "ab\n" * 9_000), (LINES, "\n" * 30_000)]
    # no match begins where a second lane does: its string never ends, or the first's does
    + [(LINES, "a\n" * 700 + '"' + "b\n" * 9_000), (LINES, "a\n" * 700 + '"' + "b\n" * 9_000 + '"' + "a\n" * 9_000)]
    # walks that have looked further in vain: no match is found ahead past them
    + [(FURTHER, ("12.5 3. ab-- c--! " + "x 1\n" * many) * (9_000 // many)) for many in (100, 300, 900, 3_000)]
    # no rule matches: the scanner ends there
    + [(LINES, SHORT * many + "!" + SHORT * 100) for many in (0, 1, 50, 100, 500)]
)

STATE_ROWS = (
    # each length: the text ends in any state
    [(NESTED, (MIXED * 20)[:length]) for length in range(601)]
    # each change of states stands across the end of any block
    + [(NESTED, "a" * length + MIXED * 250) for length in range(0, len(MIXED), 3)]
    + [(VALUES, "a" * length + CONFIG * many) for length in range(0, len(CONFIG), 9) for many in (1, 20, 150)]
    # characters of two, three and four bytes on both sides of each change
    + [(NESTED, "a" * length + 'é"é€"é/*é😀*/é1"€é"' * 500) for length in range(8)]
    # strings and comments longer than a block, with lines in them: a second lane begins in another state
    + [(NESTED, f'"{LINE * many}" é /*{LINE * many}*/ ' * 3 + MIXED * 90) for many in (20, 50, 200, 700, 2_000)]
    + [(NESTED, MIXED * 90 + opening + LINE * 2_000) for opening in ('"', "/*")]
    # both lanes cut alike, each in a state of its own
    + [(BOTTOM, LINE * 300 + "(" + LINE * many + ") a " + LINE * 300) for many in (100, 300, 1_000, 3_000)]
    # comments end within others
    + [(NESTED, ("/* a " * many + "*/ b " * many + "c\n") * (800 // many)) for many in (1, 2, 5, 50, 400)]
    # after a pop another state follows than is guessed: never, each time, and now and then
    + [(BELOW, opening + '"a b" lamb\n' * 900 + closing) for opening, closing in ("()", "[]")]
    + [(BELOW, ('("a" lamb "b" moon) ' * many + '["a" lamb "b" moon]\n' * few) * 40) for many, few in ((1, 1), (1, 9), (9, 1))]
    # a pop at the bottom of the stack
    + [(BOTTOM, text * 300) for text in (")a ", "a)b(c)d)e\n", "((a)b)c)d(e\n", ")))((a ")]
    # states with one list: a stack of them, and an error in each
    + [(SHARED, text * 300 + last) for text in ("(a)b ", "[a(b(c)d)e)f\n", "((a") for last in ("", "(!", "[!", "[(!")]
    # an error in a state
    + [(NESTED, MIXED * many + last) for many in (0, 1, 10, 40, 250) for last in ('"a\\q" b', "a !", '/* a */ "b" !')]
    + [(BOTTOM, LINE * many + "(" + LINE * many + "; a") for many in (0, 10, 200, 900)]
    # a list with a rule without a table beside one with tables alone
    + [
        (rules, text * 250)
        for rules in (ABOVE_HAS_NO_TABLE, BELOW_HAS_NO_TABLE)
        for text in ("a(a b a\na)a\n", "(" + LINE * 9 + ")" + LINE * 9 + "a\n")
    ]
    # many states, and more than a chain has
    + [
        (ring(count), "! abcdefg" + " hello? abc? defgh. ij. world!\n" * many)
        for count, many in ((2, 20), (40, 20), (40, 600), (300, 20), (300, 600))
    ]
)

# Rows that are long enough for several blocks, and short enough to be matched by `regex`.
MODERATE = [row for row in STATE_ROWS[590:] if len(row[1]) < 4_000]
# How many rows the tables may have: none, fewer than are needed, and so many that there is a chain of some of the lists.
BUDGETS = [(0, 0), *((rows, WORK) for rows in (20, 40, 60, 80, 100, 140, 200, 400))]


class MatchesAhead(replay.TestCase):
    """What is found ahead is what each rule matches at its place."""

    def check(self, rows, makers=(from_text,)):
        """A scanner and a run give the tiles of the rows, by the definitions that each of these makes of a rule text."""
        cases = [make(rules.text()).case(["scan", text], ["run", text, []]) for rules, text in rows for make in makers]
        answers = iter(replay.answers(cases))
        for number, (rules, text) in enumerate(rows):
            wanted = munched(rules, text)
            for made in range(len(makers)):
                with self.subTest(row=number, made=made, text=text[:40], length=len(text)):
                    self.check_row(rules, wanted, next(answers))

    def check_row(self, rules, wanted, answers):
        """A scanner gives these tiles and this end, and a run as many tiles, and the items of them."""
        *tiles, end = answers.last("scan")
        self.assertEqual(wanted, [*(tile[:3] for tile in tiles), end])
        lexemes = sum(rules.rules[rule][2] is not None for rule, *_ in wanted[:-1])
        self.assertEqual([len(tiles), lexemes + (end != "done")], answers.last("run")[:2])

    def test_tiles_by_a_scanner_and_a_run(self):
        self.check(ROWS)

    def test_tiles_in_several_states(self):
        self.check(STATE_ROWS)

    def test_tiles_in_several_states_within_any_budget(self):
        self.check(MODERATE, [functools.partial(new_with_budget, rows=rows, work=work) for rows, work in BUDGETS])


if __name__ == "__main__":
    unittest.main()
