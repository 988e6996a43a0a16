"""The input's own text at the spans of lexemes: the matched text, its place and its whole lines."""

import unittest

from support import replay
from support.definitions import from_text
from support.formatting import format_place
from support.places import counted, said_of_span

WORDS = "%%\n[a-z❤]+ 'ID'\n[ \\n] ;"

# Rules, an input, and the places of its lexemes.
PLACES = [
    (
        WORDS, " a\n❤ b",
        "a at 1:2-1:3 in [ a], ❤ at 2:1-2:2 in [❤ b], b at 2:3-2:4 in [❤ b]",
    ),
    (
        WORDS, "a b c",
        "a at 1:1-1:2 in [a b c], b at 1:3-1:4 in [a b c], c at 1:5-1:6 in [a b c]",
    ),
    (
        WORDS, "a b c\n",
        "a at 1:1-1:2 in [a b c], b at 1:3-1:4 in [a b c], c at 1:5-1:6 in [a b c]",
    ),
    (
        WORDS, " a\nb\n  c d",
        "a at 1:2-1:3 in [ a], b at 2:1-2:2 in [b], c at 3:3-3:4 in [  c d], d at 3:5-3:6 in [  c d]",
    ),
    ("%%\n'.*' 'STR'\n[ \\n] ;", "'a\nb'\n", "'a\nb' at 1:1-2:3 in ['a\nb']"),
    (
        "%%\n[a❤]+ 'ID'\n[ ] ;", "a ❤ a",
        "a at 1:1-1:2 in [a ❤ a], ❤ at 1:3-1:4 in [a ❤ a], a at 1:5-1:6 in [a ❤ a]",
    ),
    ("%%\n[0-9]+ 'int'", "abc", "error"),
    ("%%", "", ""),
]

STAIR_RULES = "%%\n[a-z]+ 'ID'\n[ \\n] ;"

STEPS = 71

SPANS = [(0, 0), (0, 2), (0, 4), (0, 7), (4, 7)]

# What a lexer of the stairs must say of these spans.
OF_SPANS = [
    " at 1:1-1:1 in []",
    "\na at 1:1-2:2 in [\na]",
    "\na\na at 1:1-3:2 in [\na\na a]",
    "\na\na a\n at 1:1-4:1 in [\na\na a\na a a]",
    " a\n at 3:2-4:1 in [a a\na a a]",
]

# A text, a span, and whether it fits the text.
FITTING = [
    (" a\n❤ b", (3, 6), True),
    (" a\n❤ b", (8, 8), True),
    (" a\n❤ b", (3, 4), False),
    (" a\n❤ b", (9, 9), False),
]

MANY_LINES = "é\n❤ b\n\n😀x\r\ny"

LONG_LINE = "é b" * 5_000

# What a cursor is asked one after the other: a text, and bytes of it.
ASKED_OF_CURSORS = [
    ("forward", MANY_LINES, range(len(MANY_LINES.encode()) + 2)),
    ("back", MANY_LINES, range(len(MANY_LINES.encode()) + 2, -1, -1)),
    ("to and fro", MANY_LINES, [9, 0, 4, 4, 17, 2**64 - 1, 1, 12]),
    ("in a long line", LONG_LINE, range(len(LONG_LINE.encode()) + 1)),
    ("in an empty text", "", [0, 1, 0, 2**64 - 1]),
]


def letters(count):
    """So many letters `a`, with blanks between them."""
    return " ".join("a" * count)


def stairs(count):
    """So many lines, the first with no letter, each with one more than the one before."""
    return "\n".join(letters(line) for line in range(count))


def of_stair(count):
    """What a lexer must say of the lexemes of the line of so many letters."""
    line, row = letters(count), count + 1
    columns = range(1, 2 * count, 2)
    return [f"a at {row}:{column}-{row}:{column + 1} in [{line}]" for column in columns]


def lexers(rules, text, spans):
    """What the lexer of a text says, made at once and of a run."""
    return replay.answers([from_text(rules).case(["lexer", text, of_run, spans, []]) for of_run in [False, True]])


class Lexers(replay.TestCase):
    """Texts, lines and columns of lexemes and spans."""

    def format_span(self, said):
        """`a at 1:2-1:3 in [ a]`, by the three calls that take a span which fits."""
        _, _, text_of, text, lines, places, start, _, end, _ = said
        if text is None:
            return "past the input"
        self.assertEqual(text_of, text)
        self.assertEqual([start, end], places)
        return f"{text} at {format_place(places[0])}-{format_place(places[1])} in [{lines}]"

    def format_lexer(self, answers):
        """What a lexer says of its lexemes, and then of the spans that it was given."""
        items, spans = answers.last("items"), answers.values("told")
        errors = [at for at, item in enumerate(items) if item[0] == "err"]
        return ["error" if at in errors else self.format_span(said) for at, said in enumerate(spans)]

    def test_lines_and_columns_of_lexemes(self):
        for rules, text, wanted in PLACES:
            for answers in lexers(rules, text, []):
                with self.subTest(rules=rules, text=text):
                    self.assertEqual(", ".join(self.format_lexer(answers)), wanted)

    def test_the_whole_lines_of_many_lexemes(self):
        wanted = [said for count in range(STEPS) for said in of_stair(count)] + OF_SPANS
        for answers in lexers(STAIR_RULES, stairs(STEPS), SPANS):
            said = self.format_lexer(answers)
            self.assertEqual(len(said), len(wanted))
            for number, row in enumerate(zip(said, wanted)):
                with self.subTest(row=number):
                    self.assertEqual(*row)

    def test_a_span_fits_on_character_boundaries(self):
        for text, span, fits in FITTING:
            for answers in lexers(WORDS, text, [span]):
                with self.subTest(text=text, span=span):
                    said = answers.values("told")[-1]
                    self.assertEqual([part is not None for part in said[3:6]], [fits] * 3)
                    self.assertEqual(said, said_of_span(text.encode(), *span))

    def test_a_span_past_the_text_fits_nothing(self):
        wanted = "a at 1:1-1:2 in [a b c], b at 1:3-1:4 in [a b c], c at 1:5-1:6 in [a b c], past the input"
        for answers in lexers(STAIR_RULES, "a b c", [(100, 100)]):
            self.assertEqual(", ".join(self.format_lexer(answers)), wanted)
            self.assertEqual(answers.values("told")[-1][2:6], ["", None, None, None])

    def test_the_places_that_a_cursor_tells(self):
        cases = [from_text("%%\n(?s:.) ;").case(["lexer", text, False, [], list(asked)]) for _, text, asked in ASKED_OF_CURSORS]
        for (name, text, asked), answers in zip(ASKED_OF_CURSORS, replay.answers(cases), strict=True):
            with self.subTest(row=name):
                wanted = [counted(text.encode(), byte)[0] for byte in asked]
                self.assertEqual([of_cursor for *_, of_cursor in answers.values("place")], wanted)


if __name__ == "__main__":
    unittest.main()
