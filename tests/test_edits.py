"""Runs after an edit: what they are, how many tiles are recut, and which edits fit."""

import unittest

from support import replay
from support.definitions import WORK, from_rules, from_text, rule, with_budget
from support.edits import edited, texts_after
from support.rule_texts import COMMENTS, NESTED, WORDS
from support.run_rows import Row, check_rows

# The rules A, B with a target that is no state, and C without an id.
RULES = [
    rule(0, "A", 0, 0, "a"),
    rule(1, "B", 0, 0, "b", [7, "Push"]),
    rule(None, "C", 0, 0, "c"),
]

WITH_STATE = from_rules(RULES, True)

WITHOUT_STATE = from_rules(RULES, False)

AFTER_AN_EDIT = [
    Row(from_text("%%\na+b|a 'X'"), "aac", [(2, 3, "b")], items="X 0+3", boundaries="0:0 3:0", at_most=1),
    Row(
        from_text(WORDS), "ab cd ef", [(0, 2, "xyz")],
        items="ID 0+3, ID 4+2, ID 7+2", boundaries="0:0 3:0 4:0 6:0 7:0 9:0", at_most=2,
    ),
    Row(from_text(WORDS), "ab cd ef", [(2, 3, "")], items="ID 0+4, ID 5+2", boundaries="0:0 4:0 5:0 7:0", at_most=2),
    Row(from_text(WORDS), "ab", [(2, 2, "c")], items="ID 0+3", boundaries="0:0 3:0", at_most=2),
    Row(
        from_text(WORDS), "ab !", [(0, 2, "xyz")],
        items="ID 0+3, error 4..4 in 0", boundaries="0:0 3:0 4:0", at_most=2,
    ),
    # the empty edit: nothing is searched for from its place on
    Row(
        from_text(WORDS), "ab cd ef", [(0, 0, "")],
        items="ID 0+2, ID 3+2, ID 6+2", boundaries="0:0 2:0 3:0 5:0 6:0 8:0", at_most=0,
    ),
    Row(
        from_text(WORDS), "ab cd ef", [(5, 5, "")],
        items="ID 0+2, ID 3+2, ID 6+2", boundaries="0:0 2:0 3:0 5:0 6:0 8:0", at_most=6,
    ),
    Row(from_text(WORDS), "", [(0, 0, "")], items="", boundaries="0:0", at_most=0),
    # Behind what is put, the boundary after the blank is the first that meets.
    Row(
        from_text(WORDS), "ab cd ef", [(3, 3, "x ")],
        items="ID 0+2, ID 3+1, ID 5+2, ID 8+2", boundaries="0:0 2:0 3:0 4:0 5:0 7:0 8:0 10:0", at_most=8,
    ),
    # At the very end, and the whole text.
    Row(
        from_text(WORDS), "ab cd", [(5, 5, " ef")],
        items="ID 0+2, ID 3+2, ID 6+2", boundaries="0:0 2:0 3:0 5:0 6:0 8:0", at_most=10,
    ),
    Row(from_text(WORDS), "ab ", [(3, 3, "!")], items="ID 0+2, error 3..3 in 0", boundaries="0:0 2:0 3:0", at_most=6),
    Row(from_text(WORDS), "ab cd", [(0, 5, "")], items="", boundaries="0:0", at_most=0),
    Row(from_text(WORDS), "", [(0, 0, "ab")], items="ID 0+2", boundaries="0:0 2:0", at_most=2),
    # An error goes, and another comes.
    Row(
        from_text(WORDS), "a! b! c", [(1, 2, "")],
        items="ID 0+1, ID 2+1, error 3..3 in 0", boundaries="0:0 1:0 2:0 3:0", at_most=8,
    ),
    # A comment is opened to the end of the text, closed again, and taken away.
    Row(
        from_text(COMMENTS), "one two three", [(4, 4, "/* ")],
        items="WORD 0+3", boundaries="0:0 3:0 4:0 6:0,1 16:0,1", at_most=12,
    ),
    Row(
        from_text(COMMENTS), "one /* two three", [(10, 10, " */")],
        items="WORD 0+3, WORD 14+5", boundaries="0:0 3:0 4:0 6:0,1 11:0,1 13:0 14:0 19:0", at_most=21,
    ),
    Row(
        from_text(COMMENTS), "one /* two */ three", [(4, 7, "")],
        items="WORD 0+3, WORD 4+3, error 8..8 in 0", boundaries="0:0 3:0 4:0 7:0 8:0", at_most=15,
    ),
    # The tops of the stacks are equal at 2 and 3, and the stacks never are.
    Row(
        from_text(NESTED), "(b)d", [(0, 0, "(")],
        items="OPEN 0+1, OPEN2 1+1, IN 2+1, CLOSE 3+1, IN 4+1",
        boundaries="0:0 1:0,1 2:0,1*2 3:0,1*2 4:0,1 5:0,1", at_most=14,
    ),
    # The last of these texts before its edit.
    Row(
        from_text(NESTED), "(b)d",
        items="OPEN 0+1, IN 1+1, CLOSE 2+1, OUT 3+1", boundaries="0:0 1:0,1 2:0,1 3:0 4:0", at_most=10,
    ),
    # Without a state 0 nothing is lexed; with it the old end comes along: a target that isn't there, and a rule without an
    # id.
    Row(WITHOUT_STATE, "", [(0, 0, "")], items="error 0..0", boundaries="", at_most=0),
    Row(WITHOUT_STATE, "", [(0, 0, "ab")], items="error 0..0", boundaries="", at_most=0),
    Row(WITHOUT_STATE, "ab", [(0, 2, "")], items="error 0..0", boundaries="", at_most=0),
    Row(WITHOUT_STATE, "aa", [(1, 1, "b")], items="error 0..0", boundaries="", at_most=0),
    Row(
        WITH_STATE, "aab", [(0, 0, "a")],
        items="A 0+1, A 1+1, A 2+1, B 3+1, error 3..3", boundaries="0:0 1:0 2:0 3:0", at_most=3,
    ),
    Row(WITH_STATE, "aac", [(0, 1, "")], items="A 0+1, error 1..1", boundaries="0:0 1:0", at_most=0),
    Row(
        WITH_STATE, "aab", [(2, 3, "c")],
        items="A 0+1, A 1+1, error 2..2", boundaries="0:0 1:0 2:0", at_most=9,
    ),
]

# Tiles that are recut after an edit, with tables and by `regex` alone, and how far the tiles of a run looked ahead.
RECUT = [
    # in a word, at the front and at the end: the word alone
    Row(with_budget(WORDS, 8_000, WORK), "ab cd ef", [(4, 4, "x")], recut=1),
    Row(with_budget(WORDS, 0, WORK), "ab cd ef", [(4, 4, "x")], recut=3),
    Row(with_budget(WORDS, 8_000, WORK), "ab cd ef", [(0, 0, "x")], recut=1),
    Row(with_budget(WORDS, 0, WORK), "ab cd ef", [(0, 0, "x")], recut=1),
    Row(with_budget(WORDS, 8_000, WORK), "ab cd ef", [(8, 8, "g")], recut=1),
    Row(with_budget(WORDS, 0, WORK), "ab cd ef", [(8, 8, "g")], recut=5),
    # nothing
    Row(with_budget(WORDS, 8_000, WORK), "ab cd ef", [(4, 4, "")], recut=1),
    Row(with_budget(WORDS, 0, WORK), "ab cd ef", [(4, 4, "")], recut=3),
    # the blank looked at the byte after it, and a comment goes on to the end
    Row(with_budget(COMMENTS, 8_000, WORK), "one two three", [(4, 4, "/* ")], recut=3),
    Row(with_budget(COMMENTS, 0, WORK), "one two three", [(4, 4, "/* ")], recut=4),
    # the first match looked for a b
    Row(with_budget("%%\na+b|a 'X'", 8_000, WORK), "aac", [(2, 3, "b")], recut=1),
    Row(with_budget("%%\na+b|a 'X'", 0, WORK), "aac", [(2, 3, "b")], recut=1),
    Row(with_budget(WORDS, 8_000, WORK), "ab cd", recut=3, lookahead="0 1 1 1"),
    # a rule that is matched by `regex` counts as one that looks at the text's end
    Row(with_budget(WORDS, 0, WORK), "ab cd", recut=3, lookahead="0 4 3 1"),
    Row(with_budget("%%\na+b|a 'X'", 8_000, WORK), "aaac", recut=3, lookahead="0 3 2 1"),
    Row(with_budget(WORDS, 8_000, WORK), "", recut=0, lookahead="0"),
]

# How often the edits are made one after another, a text and the edits.
#
# In the last one brackets are inside others: one more before them changes each stack after it, so each edit leaves entries that
# no boundary needs any more.
CHAINS = [
    (NESTED, 1, "(b)d", [(0, 0, "(")]),
    (COMMENTS, 1, "one two three", [(4, 4, "/* "), (10, 10, " */"), (4, 7, "")]),
    (NESTED, 100, "a((((((((((x))))))))))b", [(1, 1, "("), (1, 2, "")]),
]

# An edit, two texts, whether it fits the first, and whether it makes the second of it.
FITTING = [
    ((1, 2, ""), "❤", "❤", False, False),
    ((1, 2, ""), "aac", "ac", True, True),
    ((0, 3, "b"), "❤", "b", True, True),
    ((0, 3, ""), "❤", "", True, True),
    ((2, 3, "b"), "aac", "aab", True, True),
    ((2, 3, "b"), "aac", "aac", True, False),
    ((3, 4, "b"), "aac", "aacb", False, False),
    ((2, 2, "c"), "ab", "abc", True, True),
    ((0, 2, "xyz"), "ab cd ef", "xyz cd ef", True, True),
    ((2, 3, ""), "ab cd ef", "abcd ef", True, True),
]

# The characters of these texts, and rules of which each matches one: the ids of lexemes spell their text.
CHARACTERS = "abcdefxyz ❤"

SPELLING = "%%\n" + "".join(f"[{character}] 'T{token}'\n" for token, character in enumerate(CHARACTERS))


def spelled(items):
    """The text of these lexemes."""
    return "".join(CHARACTERS[token] for _, token, _, _ in items)


def runs_of(answers):
    """Counts, items and boundaries of each run."""
    return list(zip(answers.values("run"), answers.values("items"), answers.values("boundaries"), strict=True))


class Edits(replay.TestCase):
    """Runs, documents and texts after edits."""

    def test_runs_after_an_edit(self):
        check_rows(self, AFTER_AN_EDIT)

    def test_how_many_tiles_are_recut(self):
        check_rows(self, RECUT)

    def check_as_recomputed(self, after_edit, recomputed):
        """A run after an edit is the run of its text, and took no more searches."""
        counts, *lists = after_edit
        own_counts, *own_lists = recomputed
        self.assertEqual(lists, own_lists)
        self.assertEqual(counts[:4], own_counts[:4])
        self.assertLessEqual(counts[5], own_counts[5])

    def test_chains_of_edits_are_as_runs_of_their_texts(self):
        for rules, times, text, edits in CHAINS:
            edits = edits * times
            texts = texts_after(text, edits)
            definition = from_text(rules)
            of_texts = [definition.case(["run", after, []]) for after in texts]
            chain, *recomputed = replay.answers([definition.case(["run", text, edits]), *of_texts])
            _, *after_edits = runs_of(chain)
            for number, (run, answers) in enumerate(zip(after_edits, recomputed, strict=True)):
                with self.subTest(rules=rules, text=text, edit=number, gives=texts[number]):
                    self.check_as_recomputed(run, *runs_of(answers))

    def test_a_run_and_a_document_take_the_edits_that_fit(self):
        definition = from_text(SPELLING)
        cases = [definition.case(["run", old, [edit]], ["document", old, [edit]]) for edit, old, *_ in FITTING]
        for row, answers in zip(FITTING, replay.answers(cases), strict=True):
            edit, old, new, fits, makes = row
            after = edited(old, edit) if fits else old
            with self.subTest(text=old, edit=edit):
                self.assertEqual(answers.values("edit"), [fits])
                self.assertEqual(answers.values("unfit"), [] if fits else [list(edit[:2])])
                # of the run, which has none after an edit that doesn't fit, and of the document
                runs = [old, after] if fits else [old]
                self.assertEqual([spelled(items) for items in answers.values("items")], [*runs, old, after])
                self.assertEqual(answers.values("text"), [old, after])
                self.assertEqual(fits and after == new, makes)

    def test_an_edit_says_whether_it_fits_and_makes_a_text(self):
        definition = from_text(WORDS)
        cases = [
            definition.case(["edit", old, edit, new], ["edit", old, edit, "other"]) for edit, old, new, _, _ in FITTING
        ]
        for row, answers in zip(FITTING, replay.answers(cases), strict=True):
            edit, old, new, fits, makes = row
            with self.subTest(text=old, edit=edit, other=new):
                self.assertEqual(answers.values("fits"), [[fits, makes], [fits, False]])


if __name__ == "__main__":
    unittest.main()
