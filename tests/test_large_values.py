"""Large values: each call that asks for memory, once with one. What comes of them is worked out here, by counting."""

import unittest

from support import replay
from support.definitions import from_text

# One tile of 10 MB, and a million lines of ten bytes.
LONG = "x" * 10_000_000
LINES = "abc de 12\n" * 1_000_000
WORDS = from_text("%%\n[a-z]+ 'WORD'\n[0-9]+ 'INT'\n[ \\n] ;")
# Names of letters alone, each once.
NAMES = [f"k{''.join(chr(97 + int(digit)) for digit in str(number))}" for number in range(10_000)]


class LargeValues(replay.TestCase):
    """Answers to large texts, and to rule texts with many rules or faults."""

    def told(self, definition, *step):
        """What this definition answers to a step."""
        return replay.answer(definition.case(list(step)))

    def test_a_scanner_of_a_long_tile(self):
        self.assertEqual([[0, 0, 10_000_000, 0], "done"], self.told(WORDS, "scan", LONG).last("scan"))

    def test_a_document_that_is_edited_in_the_middle(self):
        answers = self.told(WORDS, "retyped", LINES, [5_000_004, 5_000_006, "f 3 g"])
        # item 1,500,001 is `de`: each line before it has three
        self.assertEqual([1_500_001, 1, 3], answers.last("retyped"))
        self.assertEqual([["WORD", "f"], ["INT", "3"], ["WORD", "g"]], answers.last("words"))

    def test_the_pieces_of_a_part(self):
        wanted = [[0, 5_000_000, 3, "WORD"], [2, 5_000_003, 1, None], [0, 5_000_004, 2, "WORD"]]
        for pieces in self.told(WORDS, "part", LINES, 5_000_001, 5_000_005).values("pieces"):
            self.assertEqual(wanted, pieces)

    def test_positions_in_a_long_line(self):
        text = "é" * 2_500_000 + "\n" + "😀" * 1_000_000
        asked = [4_999_999, 9_000_001, (0, 2_500_001), (1, 1_000_001)]
        wanted = [
            [[0, 4_999_998], [0, 2_499_999]],
            [[1, 4_000_000], [1, 2_000_000]],
            [2_500_000, 5_000_000],
            [5_000_001 + 1_000_000, 5_000_001 + 2_000_000],
        ]
        for answer in self.told(WORDS, "positions", text, [], asked).values("positions"):
            self.assertEqual(wanted, answer)

    def test_all_faults_of_a_thousand_lines(self):
        rules = "%%\n" + "( 'A'\n" * 1_000
        faults = replay.answer({"rules": "%%\n", "flags": {}, "steps": [["all_faults", {"rules": rules, "flags": {}, "storage": "u32"}]]}).last("faults")
        self.assertEqual([["RegexError", [[3 + 6 * line] * 2]] for line in range(1_000)], [[it["kind"], it["spans"]] for it in faults])

    def test_ten_thousand_names(self):
        rules = from_text("%%\n" + "".join(f"{name} '{name}'\n" for name in NAMES))
        ids = {name: number for number, name in enumerate(reversed(NAMES))}
        answers = replay.answer(rules.case(["ids", {**ids, "none": 1}, False], ["find", [9_999], [NAMES[0]]], ["may_win"]))
        self.assertEqual([["none"], None], answers.last("ids"))
        number, rule, name = answers.last("by_id")
        self.assertEqual([9_999, NAMES[0], NAMES[0]], [number, rule["name"], name])
        self.assertEqual([True] * 10_000, answers.last("may_win"))


if __name__ == "__main__":
    unittest.main()
