"""Rule texts that are long, deep or full of names: each has its exact answer, and none takes long."""

import unittest

from support import replay
from support.definitions import from_text


def format_span(span):
    """` 6..7`."""
    start, end = span
    return f" {start}..{end}"


def format_fault(fault):
    """A fault by its kind and its spans: `DuplicateName 6..7 12..13`."""
    return fault["kind"] + "".join(format_span(span) for span in fault["spans"])


def format_state(state):
    """A state by the length of its name, the name's place, and its id: `state 7 0..0 0`."""
    number, name, _, span = state
    return f"state {len(name.encode())}{format_span(span)} {number}"


def format_rule(rule):
    """A rule by the length of its name, the name's place, and how many start states it lists: `rule 1 6..7 0`."""
    length = "-" if rule["name"] is None else len(rule["name"].encode())
    return f"rule {length}{format_span(rule['name_span'])} {len(rule['start_states'])}"


def format_reading(rules):
    """The states and the rules of a rule text, or its faults."""
    answers = replay.answer(from_text(rules).case(["definition"]))
    faults = answers.last("faults")
    if faults is not None:
        return ", ".join(format_fault(fault) for fault in faults)
    states = [format_state(state) for state in answers.last("states")]
    return ", ".join(states + [format_rule(rule) for rule in answers.last("rules")])


# A part between a head and a tail, how often, and what comes of it.
LONG = [
    ("%%\n", "x", 10_000_000, "\n", "MissingSpace 3..3"),
    ("%%\n ", "x", 10_000_000, "\n", "VerbatimNotSupported 3..10000004"),
    ("", "\n", 1_000_000, "", "PrematureEnd 1000000..1000000"),
    ("%%\n", "\n", 1_000_000, "a", "MissingSpace 1000003..1000003"),
    ("", "%", 1_000_000, "", "RoutinesNotSupported 2..2"),
    ("%%\n%%", " ", 1_000_000, "x", "RoutinesNotSupported 3..3"),
    ("%s a", " ", 1_000_000, "b\n%%\n", "InvalidStartStateName 5..5"),
    ("%%\n", "<", 100_000, " 'a'\n", "InvalidStartState 3..3"),
    ("%%\nx ", "<", 100_000, "\n", "InvalidStartState 4..4"),
    ("%%\n<", ">", 100_000, " 'a'\n", "UnknownStartState 3..3"),
    ("%%\n", "<\n", 100_000, "", "MissingSpace 3..3"),
    ("%s s\n%%\n<", "s,", 100_000, "t>x 'a'\n", "UnknownStartState 8..8"),
    ("%%\n", "(", 100_000, " 'a'\n", "RegexError 3..3"),
    ("%%\n", "[", 100_000, " 'a'\n", "RegexError 3..3"),
    ("%%\n", "x|(", 100_000, " 'a'\n", "RegexError 3..3"),
    ("%%\nx", " ", 10_000_000, "'a'\n", "state 7 0..0 0, rule 1 10000005..10000006 0"),
    ("%%\n", "\n", 1_000_000, "x 'a'", "state 7 0..0 0, rule 1 1000006..1000007 0"),
    ("", "\n", 1_000_000, "%%\nx 'a'", "state 7 0..0 0, rule 1 1000006..1000007 0"),
    ("%%\nx 'a'\n%%", "\n", 1_000_000, "", "state 7 0..0 0, rule 1 6..7 0"),
    # a long name, and a long list
    ("%%\nx '", "a", 10_000_000, "'\n", "state 7 0..0 0, rule 10000000 6..10000006 0"),
    (
        "%s s\n%%\n<s", ",s", 99_999, ">x 'a'\n",
        "state 7 0..0 0, state 1 3..4 1, rule 1 200012..200013 100000",
    ),
]


def names(head, before, count, after, named=True):
    """A head, and then so many times what comes before a name, the name, and what comes after it.

    The names have seven bytes and differ, or they are none.
    """
    return head + "".join(f"{before}{f'n{k + 100_000}' if named else ''}{after}" for k in range(count))


def place_of(first, step, k, length, places, apart):
    """The places of number k: so many, so far apart, of this length."""
    start = first + k * step
    return "".join(format_span((start + i * apart, start + i * apart + length)) for i in range(places))


def many(what, count, first, step, length, after="", places=1, apart=0, numbered=False):
    """Faults, states or rules that come of it, so many.

    What each is, the place of the first, and how much further on each of the others has its own; how long a place is, and what
    follows after the places: the number from 1, or these letters. Each is in so many places, and these are so far apart.
    """
    return [
        f"{what}{place_of(first, step, k, length, places, apart)}{f' {k + 1}' if numbered else ''}{after}"
        for k in range(count)
    ]


INITIAL = ["state 7 0..0 0"]

# What a row shows, its rule text, and what comes of it.
MANY = [
    (
        "ten thousand names",
        [names("%%\n", "x '", 10_000, "'\n")],
        [INITIAL, many("rule 7", 10_000, first=6, step=12, length=7, after=" 0")],
    ),
    (
        "twenty thousand states with a rule each",
        [names("%s", " ", 20_000, ""), names("\n%%\n", "<", 20_000, ">x ;\n")],
        [
            INITIAL,
            many("state 7", 20_000, first=3, step=8, length=7, numbered=True),
            many("rule -", 20_000, first=160_017, step=13, length=0, after=" 1"),
        ],
    ),
    (
        "a hundred thousand states on a line",
        [names("%s", " ", 100_000, ""), "\n%%\n"],
        [INITIAL, many("state 7", 100_000, first=3, step=8, length=7, numbered=True)],
    ),
    (
        "ten thousand duplicates of one name",
        [names("%%\n", "x 'a'\n", 10_000, "", named=False)],
        [many("DuplicateName", 1, first=6, step=0, length=1, places=10_000, apart=6)],
    ),
    (
        "ten thousand duplicates of one state",
        [names("%s", " a", 10_000, "", named=False), "\n%%\n"],
        [many("DuplicateStartState", 1, first=3, step=0, length=1, places=10_000, apart=2)],
    ),
    (
        "five thousand pairs of duplicates, of states and of names",
        [
            names("%s", " ", 5_000, ""),
            names("", " ", 5_000, ""),
            names("\n%%\n", "x '", 5_000, "'\n"),
            names("", "x '", 5_000, "'\n"),
        ],
        [
            many("DuplicateStartState", 5_000, first=3, step=8, length=7, places=2, apart=40_000),
            many("DuplicateName", 5_000, first=80_009, step=12, length=7, places=2, apart=60_000),
        ],
    ),
]


class HostileRuleTexts(replay.TestCase):
    """Reading rule texts that are made to be hard to read."""

    def check_reading(self, rules, wanted):
        """Reading these rules gives this. Long answers are compared without a line for each difference."""
        got = format_reading(rules)
        self.assertTrue(got == wanted, f"got {got[:500]}, wanted {wanted[:500]}")

    def test_long_texts(self):
        for head, part, count, tail, wanted in LONG:
            with self.subTest(head=head, part=part, count=count, tail=tail):
                self.check_reading(head + part * count + tail, wanted)

    def test_texts_of_many_names(self):
        for name, texts, wanted in MANY:
            with self.subTest(row=name):
                self.check_reading("".join(texts), ", ".join(word for words in wanted for word in words))


if __name__ == "__main__":
    unittest.main()
