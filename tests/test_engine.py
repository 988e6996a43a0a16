"""The engine over writers that take one to four bytes a call and fail, or take none, at each of their calls in turn.

The writer has a beginning of the whole output, the fault is its own, and nothing is written after it.
"""

import unittest

from support import replay
from support.definitions import from_text
from support.rule_texts import WORDS

HEARTS = "%%\n[a-z]+ 'ID'\n❤ 'HEART'\n[ ] ;"

# What goes wrong at a call of a writer, and the fault that a caller sees.
BREAKS = [
    ("fails", "Failed(Other)"),
    ("is interrupted", "Failed(Interrupted)"),
    ("takes none", "Failed(WriteZero)"),
]

# A step without its writer, all that it writes, and what it comes to.
WHOLE = [
    (["engine", HEARTS, "ab❤ c"], "ID ab\nHEART ❤\nID c\n", "Lexed"),
    (["engine", HEARTS, "❤ !"], "HEART ❤\nCouldn't lex input starting at byte 4\n", "Stopped"),
    (["engine", "%%\n( 'A'", "a"], "", "Refused"),
    (
        ["engine_edited", HEARTS, "ab cd ef", [0, 2, "❤"], "❤ cd ef"],
        "HEART ❤\nID cd\nID ef\n",
        "Lexed",
    ),
    (
        ["engine_edited", HEARTS, "ab !", [0, 2, "xyz"], "xyz !"],
        "ID xyz\nCouldn't lex input starting at byte 4\n",
        "Stopped",
    ),
    (["engine_report", ""], "1:1: File ends prematurely\n", "Reported"),
    (
        ["engine_report", "%%\na 'A'\n( 'A'\n[0-9] int"],
        "2:4: Rule name already exists, again at 3:4\n4:7: Invalid rule name\n",
        "Reported",
    ),
]

# Rules, the old text, the edit and the new text; how it ends and what is written.
AFTER_AN_EDIT = [
    (WORDS, "ab cd ef", [0, 2, "xyz"], "xyz cd ef", "Lexed", "ID xyz\nID cd\nID ef\n"),
    (WORDS, "ab cd ef", [2, 3, ""], "abcd ef", "Lexed", "ID abcd\nID ef\n"),
    (WORDS, "ab", [2, 2, "c"], "abc", "Lexed", "ID abc\n"),
    (WORDS, "ab", [0, 0, ""], "ab", "Lexed", "ID ab\n"),
    (WORDS, "ab !", [3, 4, "c"], "ab c", "Lexed", "ID ab\nID c\n"),
    ("%%\na+b|a 'X'", "aac", [2, 3, "b"], "aab", "Lexed", "X aab\n"),
    (WORDS, "ab !", [0, 2, "xyz"], "xyz !", "Stopped", "ID xyz\nCouldn't lex input starting at byte 4\n"),
    ("%%\n( 'A'", "ab", [0, 1, "x"], "xb", "Refused", ""),
]

BOTH = "%%\n[0-9]+ 'INT'\n[a-z]+ 'ID'\n[ ] ;\n----\nabc 123"

# Both texts of standard input, a standard output and a standard error that break, what each has then, and the flushes.
BROKEN = [
    # standard error takes two bytes, and its fault is passed over
    (BOTH, [3, 0, "fails at a flush"], [1, 3, "fails"], "ID abc\nINT 123\n", "Ca", 1),
    (
        BOTH.replace("123", "12!"),
        [3, 0, "fails at a flush"],
        [1, 3, "fails"],
        "ID abc\nINT 12\nCouldn't lex input starting at byte 6\n",
        "Ca",
        1,
    ),
    (BOTH, [5, 2, "is interrupted"], [99, 0, "never"], "ID ab", "Can't write\n", 0),
    # a refused rule text is written to standard error, and nothing is flushed
    ("", [5, 0, "fails at a flush"], [4, 2, "takes none"], "", "1:1:", 0),
]

# What each error of lrlex_cli displays: those of the engine, of the words and of the texts.
ERRORS = [
    "Out of memory",
    "Can't write",
    "Out of memory",
    "Usage: lrlex <lexer.l> <input file>",
    "Out of memory",
    "Can't open file",
    "File is not UTF-8",
]


def answers_of(steps, key):
    """What each step answers under this key, by one run of the program."""
    found = replay.answer(from_text("%%\n").case(*steps)).values(key)
    if len(found) != len(steps):
        raise AssertionError(f"{len(found)} answers to {len(steps)} steps")
    return found


def writers(whole, came):
    """Each writer, and what it must have then: what the call comes to, the bytes, and how often it was asked."""
    for most in range(1, 5):
        calls = -(-len(whole) // most)
        for done in range(calls):
            for breaks, failed in BREAKS:
                yield [most, done + 1, breaks], [failed, list(whole[: done * most]), done + 1, 0]
        for breaks, _ in BREAKS:
            yield [most, calls + 1, breaks], [came, list(whole), calls, 0]


class Engine(replay.TestCase):
    """Bytes, faults, and how often writers are called."""

    def test_writers_that_fail_at_each_call(self):
        for step, text, outcome in WHOLE:
            rows = list(writers(text.encode(), outcome))
            answers = answers_of([[*step, writer] for writer, _ in rows], "engine")
            for (writer, wanted), answer in zip(rows, answers, strict=True):
                with self.subTest(step=step, writer=writer):
                    self.assertEqual(answer, wanted)

    def test_lines_after_an_edit(self):
        steps = [["engine_edited", *row[:4], [100, 0, "never"]] for row in AFTER_AN_EDIT]
        for row, answer in zip(AFTER_AN_EDIT, answers_of(steps, "engine"), strict=True):
            with self.subTest(step=row[:4]):
                outcome, held, _, _ = answer
                self.assertEqual((outcome, bytes(held).decode()), row[4:])

    def test_no_fault_no_line(self):
        [answer] = answers_of([["engine_report", "%%", [3, 1, "fails"]]], "engine")
        self.assertEqual(answer, ["Reported", [], 0, 0])

    def test_serving_over_writers_that_fail(self):
        steps = [["served", *row[:3]] for row in BROKEN]
        for row, answer in zip(BROKEN, answers_of(steps, "served"), strict=True):
            with self.subTest(step=row[:3]):
                lines, messages, flushes = row[3:]
                self.assertEqual(answer, [1, list(lines.encode()), list(messages.encode()), flushes])

    def test_what_errors_display(self):
        [displayed] = answers_of([["faults"]], "faults")
        for row in zip(displayed.split("\n"), ERRORS, strict=True):
            with self.subTest(error=row[1]):
                self.assertEqual(*row)


if __name__ == "__main__":
    unittest.main()
