"""Positions of bytes and bytes of positions, in both encodings, against worked answers and against a plain model."""

from laws.chance import Chance
from support import replay
from support.definitions import from_text
from support.positions import answered

RULES = "%%\n[a-z]+ 'ID'\n(.|\\n) ;"

# What a row shows, a text, what is asked, and the answers: of a byte its positions in columns of UTF-8 and of UTF-16, of a line and
# column their byte by either.
ROWS = [
    ("a line", "ab", [0, 1, 2, (0, 0), (0, 1), (0, 2)], [[[0, 0]] * 2, [[0, 1]] * 2, [[0, 2]] * 2, [0, 0], [1, 1], [2, 2]]),
    ("past the end", "ab", [3, 99, (0, 3), (0, 2**64 - 1)], [[[0, 2]] * 2, [[0, 2]] * 2, [2, 2], [2, 2]]),
    ("past the last line", "ab\n", [(1, 0), (1, 5), (2, 0), (2**64 - 1, 2**64 - 1)], [[3, 3], [3, 3], [3, 3], [3, 3]]),
    ("past a line's end", "ab\ncd", [(0, 2), (0, 3), (0, 9), (1, 0)], [[2, 2], [2, 2], [2, 2], [3, 3]]),
    ("an empty text", "", [0, 1, (0, 0), (0, 1), (1, 0)], [[[0, 0]] * 2, [[0, 0]] * 2, [0, 0], [0, 0], [0, 0]]),
    ("empty lines", "\n\n", [0, 1, 2, (0, 0), (1, 0), (2, 0)], [[[0, 0]] * 2, [[1, 0]] * 2, [[2, 0]] * 2, [0, 0], [1, 1], [2, 2]]),
    (
        "a surrogate pair", "a😀b", [1, 2, 4, 5, (0, 1), (0, 2), (0, 3), (0, 4), (0, 5)],
        [[[0, 1]] * 2, [[0, 1]] * 2, [[0, 1]] * 2, [[0, 5], [0, 3]], [1, 1], [1, 1], [1, 5], [1, 6], [5, 6]],
    ),
    (
        "two and three bytes", "é❤", [2, 5, (0, 1), (0, 2), (0, 4), (0, 5)],
        [[[0, 2], [0, 1]], [[0, 5], [0, 2]], [0, 2], [2, 5], [2, 5], [5, 5]],
    ),
    (
        "return and newline", "a\r\nb", [1, 2, 3, (0, 1), (0, 2), (0, 9), (1, 0)],
        [[[0, 1]] * 2, [[0, 1]] * 2, [[1, 0]] * 2, [1, 1], [1, 1], [1, 1], [3, 3]],
    ),
    (
        "a return alone", "a\rb", [1, 2, 3, (0, 1), (0, 9), (1, 0), (1, 1)],
        [[[0, 1]] * 2, [[1, 0]] * 2, [[1, 1]] * 2, [1, 1], [1, 1], [2, 2], [3, 3]],
    ),
    (
        "newline and return", "\n\r", [0, 1, 2, (1, 0), (1, 1), (2, 0)],
        [[[0, 0]] * 2, [[1, 0]] * 2, [[2, 0]] * 2, [1, 1], [1, 1], [2, 2]],
    ),
    (
        "a surrogate pair before each end of a line", "😀\r😀\r\n😀", [4, 5, 9, 10, 11, (0, 1), (0, 2), (0, 9), (1, 2), (1, 4), (1, 9), (2, 1)],
        [
            [[0, 4], [0, 2]], [[1, 0]] * 2, [[1, 4], [1, 2]], [[1, 4], [1, 2]], [[2, 0]] * 2,
            [0, 0], [0, 4], [4, 4], [5, 9], [9, 9], [9, 9], [11, 11],
        ],
    ),
    (
        "returns before a newline", "\r\r\n", [0, 1, 2, 3, (0, 0), (1, 0), (1, 1), (2, 0)],
        [[[0, 0]] * 2, [[1, 0]] * 2, [[1, 0]] * 2, [[2, 0]] * 2, [0, 0], [1, 1], [1, 1], [3, 3]],
    ),
]

# What a row shows, a text, edits, and the text after them.
EDITED = [
    ("a newline comes", "abcd", [(2, 2, "\n")], "ab\ncd"),
    ("a newline goes", "ab\ncd", [(2, 3, "")], "abcd"),
    ("a character of two code units comes", "ab\ncd", [(4, 4, "😀")], "ab\nc😀d"),
    ("two lines become three", "ab\ncd", [(1, 4, "x\ny\nz")], "ax\ny\nzd"),
    ("a return comes", "ab\ncd", [(1, 1, "\r")], "a\rb\ncd"),
    ("a return goes", "a\rb", [(1, 2, "")], "ab"),
    ("a newline leaves its return", "a\r\nb", [(2, 3, "")], "a\rb"),
    ("a newline finds a return", "a\rb", [(2, 2, "\n")], "a\r\nb"),
    ("a text parts a return and its newline", "a\r\nb", [(2, 2, "x")], "a\rx\nb"),
    ("a return and its newline come in two edits", "ab", [(1, 1, "\r"), (2, 2, "\n")], "a\r\nb"),
    ("lines that end by both", "ab", [(1, 1, "\r\n\r\n")], "a\r\n\r\nb"),
    ("a return before a newline that stays", "a\nb", [(1, 1, "\r")], "a\r\nb"),
    ("far from a return", "a\rb\ncd", [(5, 5, "x\n")], "a\rb\ncx\nd"),
    ("a line that a return ends becomes two", "a\rb\rc", [(3, 3, "\r\n😀")], "a\rb\r\n😀\rc"),
    ("all goes", "a\rb\r", [(0, 4, "")], ""),
    ("all that newlines end goes", "a\nb\n", [(0, 4, "")], ""),
]

PARTS = ["a", "b", "\n", "\r", "\r\n", "é", "❤", "😀", "", "x\r\ry"]

RANDOM, SEED, ASKED = 2_000, 7, 12


def case(text, edits, asked):
    """Asks for positions in a text after edits."""
    return from_text(RULES).case(["positions", text, edits, asked])


def random_text(chance, most):
    """Some parts of a text, in any order."""
    return "".join(chance.one_of(PARTS) for _ in range(chance.below(most)))


def random_edit(chance, text):
    """An edit that fits the text, by bytes, and the text after it."""
    start = chance.below(len(text) + 1)
    end = start + chance.below(min(4, len(text) - start) + 1)
    put = random_text(chance, 3)
    edit = (len(text[:start].encode()), len(text[:end].encode()), put)
    return edit, text[:start] + put + text[end:]


def random_case(number):
    """A text, edits, the text after them, and bytes and positions to ask for."""
    chance = Chance(SEED, number)
    first = text = random_text(chance, 14)
    edits = []
    for _ in range(chance.below(4)):
        edit, text = random_edit(chance, text)
        edits.append(edit)
    asked = [chance.below(len(text.encode()) + 3) if chance.one_in(2) else (chance.below(8), chance.below(10)) for _ in range(ASKED)]
    return first, edits, text, asked


class Positions(replay.TestCase):
    """Each is answered by a document after its edits, by the lexer of its text, and by a lexer made of the text alone."""

    def check_answers(self, answers, wanted):
        """All three answer so."""
        self.assertEqual(answers.values("positions"), [wanted] * 3)

    def test_worked_positions(self):
        found = replay.answers([case(text, [], asked) for _, text, asked, _ in ROWS])
        for (name, text, asked, wanted), answers in zip(ROWS, found, strict=True):
            with self.subTest(row=name):
                self.assertEqual([answered(text.encode(), one) for one in asked], wanted)
                self.check_answers(answers, wanted)

    def test_positions_after_edits(self):
        for name, text, edits, after in EDITED:
            with self.subTest(row=name):
                data = after.encode()
                asked = [*range(len(data) + 2), *((line, column) for line in range(5) for column in range(5))]
                self.check_answers(replay.answer(case(text, edits, asked)), [answered(data, one) for one in asked])

    def test_random_positions(self):
        cases = [random_case(number) for number in range(RANDOM)]
        found = replay.answers([case(first, edits, asked) for first, edits, _, asked in cases])
        for (first, edits, text, asked), answers in zip(cases, found, strict=True):
            with self.subTest(text=first, edits=edits):
                self.check_answers(answers, [answered(text.encode(), one) for one in asked])
