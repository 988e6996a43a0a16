"""The callers that pages show or name (crates/lrlex_examples), against worked answers."""

import unittest

from support import replay
from support.definitions import from_text
from support.rule_texts import LINES, WORDS

# Rules, an input, and the name and the text of each lexeme.
LEXEMES = [
    ("%%\n[0-9]+ 'INT'\n[a-z]+ 'ID'\n[ ] ;", "abc 123", "ID abc|INT 123"),
    ("%%\nif 'IF'\n[a-z]+ 'ID'\n[ ] ;", "iff if", "ID iff|IF if"),
    ("%%\n[a❤]+ 'ID'\n[ ] ;", "a ❤ a", "ID a|ID ❤|ID a"),
    ("%%\na|ab 'X'", "ab", "X a"),
]

# Edits, each with the text that it makes, and the items after them.
AFTER_EDITS = [
    ([], [["lex", 0, 0, 2], ["lex", 0, 3, 2], ["lex", 0, 6, 2]]),
    ([[0, 2, "xyz", "xyz cd ef"]], [["lex", 0, 0, 3], ["lex", 0, 4, 2], ["lex", 0, 7, 2]]),
    ([[0, 2, "xyz", "xyz cd ef"], [3, 4, "", "xyzcd ef"]], [["lex", 0, 0, 5], ["lex", 0, 6, 2]]),
    ([[0, 2, "xyz", "xyz cd ef"], [3, 4, "", "xyz cd ef"]], None),
]

# A text, where keys are typed, the keys, and the line and column after them.
TYPED = [("ab cd", 2, "x\ny", [2, 2]), ("ab cd", 9, "x", None)]


# A text, an edit, which tokens it changes, and those that come.
RETYPED = [
    ("ab cd ef", [3, 5, "x y"], [1, 1, 2], [["ID", "x"], ["ID", "y"]]),
    ("ab cd", [2, 3, ""], [0, 2, 1], [["ID", "abcd"]]),
    ("ab cd", [9, 9, "x"], None, None),
]


def last(step, key, rules=WORDS):
    """The last value of this key that the step answers."""
    answers = replay.answer(from_text(rules).case(step))
    if key not in answers.keys():
        raise AssertionError(f"{step} answers no {key}: {answers.pairs}")
    return answers.last(key)


class DocCallers(replay.TestCase):
    """What the callers give."""

    def test_names_and_texts_of_lexemes(self):
        for rules, text, wanted in LEXEMES:
            with self.subTest(rules=rules, text=text):
                words = last(["words", text], "words", rules)
                self.assertEqual("|".join(f"{name} {part}" for name, part in words), wanted)

    def test_which_tokens_an_edit_changes(self):
        for text, edit, changed, came in RETYPED:
            with self.subTest(text=text, edit=edit):
                answers = replay.answer(from_text(WORDS).case(["retyped", text, edit]))
                self.assertEqual([answers.last("retyped"), answers.last("words")], [changed, came])

    def test_a_run_is_kept_through_edits(self):
        for edits, wanted in AFTER_EDITS:
            with self.subTest(edits=edits):
                self.assertEqual(last(["after", "ab cd ef", edits], "items"), wanted)

    def test_a_definition_is_free_again_after_its_run(self):
        answers = replay.answer(from_text(WORDS).case(["replaced", "ab cd", "%%\nx 'X'"], ["find", [], ["X"]]))
        self.assertEqual(answers.last("tiles"), 3)
        self.assertEqual(answers.last("by_name")[1]["re_str"], "x")

    def test_callers_that_highlight_and_show_a_part(self):
        whole = [["ID", "ab"], ["", " "], ["", "#c"], ["", "\n"], ["ID", "d"]]
        self.assertEqual(last(["highlighted", "ab #c\nd"], "words", LINES), whole)
        self.assertEqual(last(["visible", "ab #c\nd", [0, 7]], "words", LINES), whole)
        self.assertEqual(last(["visible", "ab #c\nd", [4, 7]], "words", LINES), whole[2:])

    def test_a_caller_that_types(self):
        for text, at, keys, wanted in TYPED:
            with self.subTest(text=text, at=at, keys=keys):
                self.assertEqual(last(["typed", text, [at, at, keys]], "typed", LINES), wanted)


if __name__ == "__main__":
    unittest.main()
