"""lrlex_bench over rows: its words, its messages and statuses, and the names of what it times, as both compilers build it."""

import shlex
import tempfile
import unittest

from support import programs
from support.programs import Outcome
from support.replay import PROGRAM

USAGE = "Usage: lrlex_bench RULES INPUT K [--edits | --keys] [--no-tables]\n       lrlex_bench --replay\n       lrlex_bench --example NAME\n"
STREAM = "The clock, standard input or standard output failed\n"

FILES = {"rules": "%%\n[0-9]+ 'INT'\n[a-z]+ 'ID'\n[ ] ;", "input": "abc 123 ❤", "faulty": "%%\n( 'A'", "bad": b"\xff"}

# Words, standard input, and what comes of them.
ROWS = [
    ("", "", Outcome(USAGE)),
    ("--help", "", Outcome(USAGE)),
    ("--replay", "", Outcome("0 cases\n")),
    ("--replay", b"\xff\n", Outcome("", STREAM, 1)),
    ("--replay", "{\n", Outcome("", STREAM, 1)),
    ("--replay", '{"rules": "%%", "steps": [["none"]]}\n', Outcome("case null\n", STREAM, 1)),
    ("--replay --replay", "", Outcome("", USAGE, 1)),
    ("--replay --no-tables", "", Outcome("", USAGE, 1)),
    ("--example", "", Outcome("", USAGE, 1)),
    ("--example calc more", "", Outcome("", USAGE, 1)),
    ("--example calc --replay", "", Outcome("", USAGE, 1)),
    ("--example none", "", Outcome("", "The examples are calc, conf, edit_loop, first and json_check\n", 1)),
    ("rules input 1 --replay", "", Outcome("", USAGE, 1)),
    ("rules input", "", Outcome("", USAGE, 1)),
    ("rules input 0", "", Outcome("", USAGE, 1)),
    ("rules input 4294967296", "", Outcome("", USAGE, 1)),
    ("rules input 1 more", "", Outcome("", USAGE, 1)),
    ("rules input 1 --edit", "", Outcome("", USAGE, 1)),
    ("none input 1", "", Outcome("", "Can't read the rule file\n", 1)),
    ("bad input 1", "", Outcome("", "Can't read the rule file\n", 1)),
    ("rules none 1", "", Outcome("", "Can't read the input\n", 1)),
    ("faulty input 1", "", Outcome("", "The rule file has faults\n", 1)),
]

OF_BYTES = ["median ns per byte", "best ns per byte", "worst ns per byte"]
OF_EDIT = ["tiles cut anew", "matches asked", "median ns", "best ns", "worst ns", "times faster than run", "cells looked at"]
OF_KEY = ["most tiles cut anew for a key", "most cells looked at for a key", "median ns for a key", "best ns for a key", "worst ns for a key"]
PLACES = ["front", "middle", "end"]


def each(names, kinds):
    """Each kind of each name."""
    return [f"{name} {kind}" for name in names for kind in kinds]


# Words, the names of the lines, and what some of them say.
TIMED = [
    (
        "rules input 3",
        [
            "peak kB before lexing",
            "bytes", "rules", "states", "tables", "rows of tables", "rules without a table", "build ms",
            "bytes lexed", "lexemes", "tiles", "matches asked", "peak entries", "ns per match asked",
            "cells looked at", "cells at most",
            *each(["run"], OF_BYTES), "lexemes by a scanner", "cells looked at by a scanner", *each(["scan", "lexer", "lines"], OF_BYTES),
            "peak kB",
        ],
        {"bytes": "11", "rules": "3", "states": "1", "rules without a table": "0", "bytes lexed": "8", "lexemes": "2", "tiles": "4", "cells looked at": "13"},
    ),
    (
        "rules input 3 --no-tables",
        [],
        {"tables": "0", "rules without a table": "3", "bytes lexed": "8", "lexemes": "2", "tiles": "4", "cells looked at": "0"},
    ),
    (
        "rules input 3 --edits",
        ["run matches asked", "run median ns", *each(PLACES, OF_EDIT)],
        # a blank in front, one between 1 and 23, and one behind the place where lexing stops
        {"front cells looked at": "2", "middle cells looked at": "7", "end cells looked at": "1"},
    ),
    (
        "rules input 3 --keys",
        ["tiles", "peak kB before typing", *each(PLACES, OF_KEY), "peak kB"],
        # the third key makes aaaabc
        {"tiles": "4", "front most tiles cut anew for a key": "1", "front most cells looked at for a key": "7"},
    ),
]


# Each tile is one level deeper than the one before it. So a key at the front changes the stack behind each tile.
DEEPER = {"rules": "%x c\n%%\na <+c>'FIRST'\n<c>a <+c>'DEEPER'", "input": "a" * 2_000}

# 680,000 tiles, half of them with a lexeme.
LONG = {"rules": FILES["rules"], "input": "ab cd " * 170_000}


class Bench(unittest.TestCase):
    """What lrlex_bench makes of its words."""

    def setUp(self):
        programs.need(PROGRAM)

    def came_of(self, program, words, stdin="", files=None):
        """What comes of these words in a folder with the files."""
        with tempfile.TemporaryDirectory() as folder:
            programs.fill(folder, files or FILES)
            return programs.run([program, *shlex.split(words)], stdin, folder)

    def test_words(self):
        for program in programs.by_each_compiler(PROGRAM):
            for words, stdin, wanted in ROWS:
                with self.subTest(program=program, words=words):
                    self.assertEqual(self.came_of(program, words, stdin), wanted)

    def test_names_of_what_is_timed(self):
        for program in programs.by_each_compiler(PROGRAM):
            for words, names, wanted in TIMED:
                with self.subTest(program=program, words=words):
                    came = self.came_of(program, words)
                    self.assertEqual((came.err, came.status), ("", 0))
                    lines = [line.split(": ") for line in came.out.splitlines()]
                    self.assertEqual([name for name, _ in lines], names or [name for name, _ in lines])
                    found = dict(lines)
                    self.assertEqual({name: found[name] for name in wanted}, wanted)
                    self.assertTrue(all(float(value) >= 0 for value in found.values()))

    def peaks(self, words, files):
        """The peaks of memory before and after what these words time, in kB, and all lines."""
        came = self.came_of(programs.path_of(PROGRAM), words, files=files)
        found = dict(line.split(": ") for line in came.out.splitlines())
        [before] = [int(value) for name, value in found.items() if name.startswith("peak kB before")]
        return before, int(found["peak kB"]), found

    def test_a_document_keeps_no_stack_that_no_boundary_has(self):
        before, after, found = self.peaks("rules input 400 --keys", DEEPER)
        # behind the keys before it, the last tile that looked at its place, and all behind
        self.assertEqual("2002", found["front most tiles cut anew for a key"])
        # 400 keys replace 2,000 stacks each, of 16 bytes at the least
        self.assertLess(after - before, 4_000)

    def test_a_text_is_lexed_once(self):
        before, after, found = self.peaks("rules input 1", LONG)
        self.assertEqual("680000", found["tiles"])
        # 40 bytes for a lexeme, 9 for a boundary, the room that growing lists have, and the lines
        self.assertLess(after - before, 37_000)

    def test_a_key_takes_no_memory_for_the_text(self):
        before, after, _ = self.peaks("rules input 3 --keys", LONG)
        self.assertLess(after - before, 8_000)

    def test_a_short_text_takes_no_room_for_a_long_one(self):
        with tempfile.TemporaryDirectory() as folder:
            programs.fill(folder, FILES)
            limited = ["sh", "-c", 'ulimit -v 32000; exec "$0" rules input 1', programs.path_of(PROGRAM)]
            self.assertEqual(("", 0), programs.run(limited, cwd=folder)[1:])


if __name__ == "__main__":
    unittest.main()
