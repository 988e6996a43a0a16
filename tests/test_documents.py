"""Documents and the pieces of a text, against worked answers and against runs of their texts."""

import unittest

from support import replay
from support.definitions import from_rules, from_text, rule
from support.edits import edited, is_change, moved_item, moved_piece
from support.formatting import format_boundaries, format_items, format_pieces, format_places, names_of
from support.places import counted
from support.rule_texts import COMMENTS, LINES, NESTED, WORDS

FACES = "%%\n[a😀]+ 'ID'\n[ ] ;"

# round brackets, square ones inside these, round ones inside those, each kind with a start state of its own
TWO_KINDS = (
    "%x round square\n%%\n"
    "<INITIAL,square>\\( <+round>;\n<round>\\) <-round>;\n<round>\\[ <+square>;\n<square>\\] <-square>;\n<*>[a-z] 'IN'"
)

# A row: what it shows, rules, text, edits; then text, items, pieces, and how many edits didn't fit.
DOCUMENTS = [
    (
        "an unnamed comment between two lexemes", LINES, "ab #c\nd", [],
        ("ab #c\nd", "ID 0+2, ID 6+1", "0 ID ab|2 -  |1 - #c|2 - \n|0 ID d", 0),
    ),
    (
        "a text that stops with an error", WORDS, "ab!cd", [],
        ("ab!cd", "ID 0+2, error 2..2 in 0", "0 ID ab", 0),
    ),
    ("an empty text", WORDS, "", [], ("", "", "", 0)),
    (
        "edited to empty and back", WORDS, "ab cd", [(0, 5, ""), (0, 0, "ab cd")],
        ("ab cd", "ID 0+2, ID 3+2", "0 ID ab|1 -  |0 ID cd", 0),
    ),
    (
        "edits at 0, inside a tile and at the end", WORDS, "ab cd", [(0, 0, "x"), (2, 2, " "), (7, 7, "e f")],
        (
            "xa b cde f",
            "ID 0+2, ID 3+1, ID 5+3, ID 9+1",
            "0 ID xa|1 -  |0 ID b|1 -  |0 ID cde|1 -  |0 ID f",
            0,
        ),
    ),
    (
        "an edit opens a comment to the end", COMMENTS, "one two three", [(4, 4, "/* ")],
        ("one /* two three", "WORD 0+3", "4 WORD one|5 -  |0 - /*|2 -  two three", 0),
    ),
    (
        "another closes it", COMMENTS, "one two three", [(4, 4, "/* "), (10, 10, " */")],
        (
            "one /* two */ three",
            "WORD 0+3, WORD 14+5",
            "4 WORD one|5 -  |0 - /*|2 -  two |1 - */|5 -  |4 WORD three",
            0,
        ),
    ),
    (
        "characters of four bytes: an edit inside one doesn't fit", FACES, "a😀a a", [(1, 3, ""), (1, 5, "")],
        ("aa a", "ID 0+2, ID 3+1", "0 ID aa|1 -  |0 ID a", 1),
    ),
    (
        "carriage return and line feed", LINES, "a\r\nb", [(1, 1, "c")],
        ("ac\r\nb", "ID 0+2, ID 4+1", "0 ID ac|2 - \r|2 - \n|0 ID b", 0),
    ),
    (
        "edits that end before they begin, or past the end, don't fit", WORDS, "ab cd",
        [(3, 1, "x"), (0, 9, "x"), (9, 9, "x")],
        ("ab cd", "ID 0+2, ID 3+2", "0 ID ab|1 -  |0 ID cd", 3),
    ),
]

# Places at which a key is typed.
KEYS = [(0, 0, "x"), (450, 450, "x"), (451, 451, "x"), (900, 900, "x")]

# A text, bytes of it, spans, and the place and the position of each byte, and the text of each span. Positions count from 0, in
# code units of UTF-16.
AT_ANY_NUMBER = [
    (
        "a\n😀b",
        [0, 1, 2, 3, 5, 6, 7, 99],
        [(2, 6), (3, 6), (0, 1), (6, 99)],
        "1:1 0:0 1:2 0:1 2:1 1:0 2:1 1:0 2:1 1:0 2:2 1:2 2:3 1:3 2:3 1:3",
        " <😀> <> <a> <>",
    ),
    (
        "a\n😀b\ufffd😀",
        [0, 1, 2, 3, 6, 7, 10, 14, 99],
        [],
        "1:1 0:0 1:2 0:1 2:1 1:0 2:1 1:0 2:2 1:2 2:3 1:3 2:4 1:4 2:5 1:6 2:5 1:6",
        "",
    ),
]

# A text and an edit, after which the document tells the place of each byte.
PLACED = [
    ("", (0, 0, "")),
    ("", (0, 0, "\n")),
    ("", (0, 0, "a\nb\n")),
    ("a\nb\nc", (0, 0, "x")),
    ("a\nb\nc", (0, 0, "x\n")),
    ("a\nb\nc", (0, 1, "")),
    ("a\nb\nc", (0, 2, "\n\n\n")),
    ("a\nb\nc", (1, 2, "x")),
    ("a\nb\nc", (2, 3, "\n\n")),
    ("a\nb\nc", (2, 2, "❤")),
    ("a\nb\nc", (1, 4, "")),
    ("a\nb\nc", (1, 4, "\n")),
    ("a\nb\nc", (0, 5, "")),
    ("a\nb\nc", (0, 5, "\n")),
    ("a\nb\nc", (4, 5, "")),
    ("a\nb\nc", (5, 5, "d")),
    ("a\nb\nc", (5, 5, "\n")),
    ("\n\n\n", (1, 2, "")),
    ("\n\n\n", (3, 3, "\n")),
    ("a\r\nb\r\n", (1, 3, "\n")),
    ("a\r\nb\r\n", (2, 3, "")),
    ("a\r\nb\r\n", (4, 6, "\r\n\r\n")),
    ("❤\n❤\n", (3, 4, "\r\n")),
]

LETTERS = [rule(0, "A", 0, 1, "a")]

# What a row shows, how its definition is made, its text, the two ends of the part, and the pieces.
PARTS = [
    ("an unnamed comment between lexemes", from_text(LINES), "ab #c\nd", 2, 6, "2 -  |1 - #c|2 - \n"),
    ("the same up to the end", from_text(LINES), "ab #c\nd", 4, 7, "1 - #c|2 - \n|0 ID d"),
    ("both ends in the middle of a tile", from_text(WORDS), "abc def ghi", 1, 6, "0 ID abc|1 -  |0 ID def"),
    ("one byte in the middle", from_text(WORDS), "abc de", 1, 2, "0 ID abc"),
    ("one byte at a tile's end", from_text(WORDS), "abc de", 2, 3, "0 ID abc"),
    ("one byte at a tile's beginning", from_text(WORDS), "abc de", 3, 4, "1 -  "),
    ("no byte, at a boundary", from_text(WORDS), "abc de", 3, 3, ""),
    ("no byte, inside a tile", from_text(WORDS), "abc de", 1, 1, ""),
    ("ends that are out of order", from_text(WORDS), "abc de", 2, 1, ""),
    ("up to past the end", from_text(WORDS), "abc de", 5, 99, "0 ID de"),
    ("from the end on", from_text(WORDS), "abc de", 6, 99, ""),
    ("from past the end on", from_text(WORDS), "abc de", 50, 99, ""),
    ("the greatest numbers", from_text(WORDS), "abc de", 0, 2**64 - 1, "0 ID abc|1 -  |0 ID de"),
    ("an empty text", from_text(WORDS), "", 0, 9, ""),
    ("up to an error", from_text(WORDS), "ab!cd", 1, 5, "0 ID ab"),
    ("after an error", from_text(WORDS), "ab!cd", 2, 5, ""),
    ("an error at the beginning", from_text(WORDS), "!ab", 0, 3, ""),
    ("without a state 0", from_rules(LETTERS, False), "aa", 0, 2, ""),
    ("from parts", from_rules(LETTERS, True), "aaa", 1, 2, "0 A a"),
    (
        "characters of four bytes, with both ends inside one", from_text(FACES), "a 😀 😀", 4, 8,
        "0 ID 😀|1 -  |0 ID 😀",
    ),
    ("a comment that was opened before", from_text(COMMENTS), "a /* b */ c", 6, 8, "2 -  b |1 - */"),
]

# What a row shows, how its definition is made, its text, the place up to which it is lexed, and the start state there.
ENDS = [
    ("a text that is lexed whole", from_text(WORDS), "ab cd", [5, 0]),
    ("an empty text", from_text(WORDS), "", [0, 0]),
    ("a text that stops with an error", from_text(WORDS), "ab!cd", [2, 0]),
    ("an unclosed comment", from_text(COMMENTS), "a /* b", [6, 1]),
    ("a closed comment", from_text(COMMENTS), "a /* b */ c", [11, 0]),
    ("two open brackets", from_text(NESTED), "((x)y", [5, 1]),
    ("an error in a start state", from_text(NESTED), "(1", [1, 1]),
    ("without a state 0", from_rules(LETTERS, False), "aa", [0, None]),
    ("from parts", from_rules(LETTERS, True), "aab", [2, 0]),
]


# What a row shows, how its definition is made, its text, the edits, and what each changed, after what a new document says: of
# items and of pieces the first, how many went and how many came. The answer of an edit that doesn't fit is that before it.
CHANGES = [
    ("a new document", from_text(WORDS), "ab cd ef", [], [[[0, 0, 3], [0, 0, 5]]]),
    ("an empty one", from_text(WORDS), "", [], [[[0, 0, 0], [0, 0, 0]]]),
    ("one that stops with an error", from_text(WORDS), "ab !", [], [[[0, 0, 2], [0, 0, 2]]]),
    (
        "a first word is replaced", from_text(WORDS), "ab cd ef", [(0, 2, "xyz")],
        [[[0, 0, 3], [0, 0, 5]], [[0, 1, 1], [0, 1, 1]]],
    ),
    (
        "an edit that doesn't fit, and one that changes nothing", from_text(WORDS), "ab cd", [(3, 9, "x"), (0, 0, "")],
        [[[0, 0, 2], [0, 0, 3]], [[0, 0, 2], [0, 0, 3]], [[0, 0, 0], [0, 0, 0]]],
    ),
    (
        "all goes", from_text(WORDS), "ab cd", [(0, 5, "")],
        [[[0, 0, 2], [0, 0, 3]], [[0, 2, 0], [0, 3, 0]]],
    ),
    (
        "without a state 0 nothing changes", from_rules(LETTERS, False), "aa", [(0, 1, "b")],
        [[[0, 0, 1], [0, 0, 0]], [[1, 0, 0], [0, 0, 0]]],
    ),
]

# What a row shows, how its definition is made, its text, the edits, and the boundaries after each of them and before the first:
# the place and the stack from bottom to top.
BOUNDARIES = [
    ("an empty text, and a word that comes", from_text(WORDS), "", [(0, 0, "ab")], ["0:0", "0:0 2:0"]),
    ("without a state 0", from_rules(LETTERS, False), "aa", [(0, 1, "b")], ["", ""]),
    (
        "a comment is opened to the end, and closed", from_text(COMMENTS), "a b c", [(2, 3, "/*"), (4, 4, " */")],
        ["0:0 1:0 2:0 3:0 4:0 5:0", "0:0 1:0 2:0 4:0,1 6:0,1", "0:0 1:0 2:0 4:0,1 5:0,1 7:0 8:0 9:0"],
    ),
    (
        "a bracket more before open ones, and one less", from_text(NESTED), "(b)d", [(0, 0, "("), (1, 2, "")],
        ["0:0 1:0,1 2:0,1 3:0 4:0", "0:0 1:0,1 2:0,1*2 3:0,1*2 4:0,1 5:0,1", "0:0 1:0,1 2:0,1 3:0 4:0"],
    ),
    (
        "three states inside one another, one of them twice", from_text(TWO_KINDS), "([x])", [(2, 2, "("), (4, 4, ")")],
        [
            "0:0 1:0,1 2:0,1,2 3:0,1,2 4:0,1 5:0",
            "0:0 1:0,1 2:0,1,2 3:0,1,2,1 4:0,1,2,1",
            "0:0 1:0,1 2:0,1,2 3:0,1,2,1 4:0,1,2,1 5:0,1,2 6:0,1 7:0",
        ],
    ),
]

# Texts through edits, of which each must say truly what it changed.
CHAINS = [
    (WORDS, "ab cd ef gh", [(3, 5, "x y"), (0, 0, "q "), (9, 9, "z"), (4, 4, "!"), (4, 5, ""), (0, 4, "")]),
    (COMMENTS, "one two three", [(4, 4, "/* "), (10, 10, " */"), (4, 7, ""), (0, 3, "/*")]),
    (NESTED, "((x)y)", [(1, 1, "("), (0, 1, ""), (3, 4, ")"), (0, 0, "x")]),
    (FACES, "a😀a a", [(1, 5, ""), (0, 0, "😀 "), (5, 5, "😀")]),
]


def document_case(rules, text, edits):
    """A document of a text through edits."""
    return from_text(rules).case(["definition"], ["document", text, edits])


def distance(edit):
    """How many bytes the text grows by an edit."""
    start, end, put = edit
    return len(put.encode()) - (end - start)


def format_texts(texts):
    """Each text in angle brackets."""
    return "".join(f" <{part}>" for part in texts)


class Documents(replay.TestCase):
    """Documents through edits, what they say at any number, and parts of a text."""

    def check_document(self, answers, wanted):
        """The document is this in the end, and so many of its edits didn't fit."""
        text, items, pieces, unfit = wanted
        self.assertEqual(answers.last("text"), text)
        self.assertEqual(format_items(answers.last("items"), names_of(answers.last("rules"))), items)
        self.assertEqual(format_pieces(answers.last("pieces"), text), pieces)
        self.assertEqual(answers.values("edit").count(False), unfit)

    def test_documents_after_their_edits(self):
        for name, rules, text, edits, wanted in DOCUMENTS:
            with self.subTest(row=name):
                run = from_text(rules).case(["run", wanted[0], []])
                of_document, of_run = replay.answers([document_case(rules, text, edits), run])
                self.assertEqual(len(of_document.values("edit")), len(edits))
                self.check_document(of_document, wanted)
                for key in ["items", "boundaries", "pieces"]:
                    self.assertEqual(of_document.last(key), of_run.last(key), key)

    def test_the_boundaries_of_a_document_and_of_a_run_through_edits(self):
        for name, definition, text, edits, wanted in BOUNDARIES:
            with self.subTest(row=name):
                cases = [definition.case([step, text, edits]) for step in ["document", "run"]]
                for answers in replay.answers(cases):
                    self.assertEqual([format_boundaries(it) for it in answers.values("boundaries")], wanted)

    def test_what_an_edit_changed(self):
        for name, definition, text, edits, wanted in CHANGES:
            with self.subTest(row=name):
                answers = replay.answer(definition.case(["document", text, edits]))
                self.assertEqual(answers.values("changed"), wanted)

    def check_change(self, change, lists, move, recut):
        """The change makes the second list of the first, and no more came than tiles were cut anew, but for an error."""
        before, after = lists
        self.assertTrue(is_change(change, before, after, move), (change, before, after))
        self.assertLessEqual(change[2], recut + 1)

    def test_a_change_makes_the_lists_after_an_edit_of_those_before_it(self):
        for rules, text, edits in CHAINS:
            answers = replay.answer(document_case(rules, text, edits))
            columns = [answers.values(key) for key in ["document", "changed", "items", "pieces"]]
            states = list(zip(*columns, strict=True))
            for number, edit in enumerate(edits):
                with self.subTest(rules=rules, text=text, edit=edit):
                    (_, _, *before), (counts, changed, *after) = states[number:number + 2]
                    moves = [lambda item, by=edit: moved_item(item, distance(by)), lambda piece, by=edit: moved_piece(piece, distance(by))]
                    for change, old, new, move in zip(changed, before, after, moves, strict=True):
                        self.check_change(change, (old, new), move, counts[1])
                    self.assertEqual(changed[1][2], counts[1])

    def test_a_key_in_a_long_document_recuts_few_tiles(self):
        cases = [document_case(WORDS, "ab " * 300, [key]) for key in KEYS]
        for key, answers in zip(KEYS, replay.answers(cases), strict=True):
            with self.subTest(key=key):
                self.assertEqual(answers.values("edit"), [True])
                self.assertLessEqual(answers.last("document")[1], 3)

    def test_the_texts_of_a_document_at_any_span(self):
        for text, _, spans, _, texts in AT_ANY_NUMBER:
            with self.subTest(text=text, spans=spans):
                answers = replay.answer(from_text(FACES).case(["texts", text, spans]))
                self.assertEqual(format_texts(answers.last("texts")), texts)

    def test_the_places_of_a_document_at_any_byte(self):
        for text, at, _, places, _ in AT_ANY_NUMBER:
            with self.subTest(text=text, bytes=at):
                answers = replay.answer(from_text(FACES).case(["document", text, [(0, 0, "", at)]]))
                self.assertEqual(format_places(answers.last("places")), places)

    def test_the_places_of_a_document_after_an_edit(self):
        for text, edit in PLACED:
            data = edited(text, edit).encode()
            at = list(range(len(data) + 2))
            with self.subTest(text=text, edit=edit):
                answers = replay.answer(from_text(LINES).case(["document", text, [(*edit, at)]]))
                self.assertEqual(answers.values("edit"), [True])
                self.assertEqual(answers.last("places"), [counted(data, byte) for byte in at])

    def test_the_places_and_texts_of_a_lexer_at_any_number(self):
        for text, at, spans, places, texts in AT_ANY_NUMBER:
            for of_run in [False, True]:
                with self.subTest(text=text, bytes=at, spans=spans, of_run=of_run):
                    answers = replay.answer(from_text(FACES).case(["lexer", text, of_run, spans, at]))
                    told = answers.values("place")
                    self.assertEqual(format_places([of_lexer for *of_lexer, _ in told]), places)
                    self.assertEqual([of_cursor for *_, of_cursor in told], [place for place, *_ in told])
                    of_spans = answers.values("told")[len(answers.last("items")):]
                    self.assertEqual(format_texts(span[2] for span in of_spans), texts)

    def test_where_a_text_ends(self):
        cases = [definition.case(["end", text]) for _, definition, text, _ in ENDS]
        for (name, _, _, wanted), answers in zip(ENDS, replay.answers(cases), strict=True):
            with self.subTest(row=name):
                # by a run and by a document
                self.assertEqual(answers.values("end"), [wanted, wanted])

    def test_the_pieces_of_a_part(self):
        cases = [definition.case(["part", text, start, end]) for _, definition, text, start, end, _ in PARTS]
        for (name, _, text, _, _, wanted), answers in zip(PARTS, replay.answers(cases), strict=True):
            with self.subTest(row=name):
                # by a run and by a document
                got = [format_pieces(pieces, text) for pieces in answers.values("pieces")]
                self.assertEqual(got, [wanted, wanted])


if __name__ == "__main__":
    unittest.main()
