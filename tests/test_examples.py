"""The examples (lrlex_bench --example) over stored runs and rows, as both compilers build the program.

The stored run of an example is its input examples/NAME.in, or examples/NAME.txt at the top where README shows it, and its output
examples/NAME.out.
"""

import unittest

from support import programs
from support.programs import Outcome
from support.replay import PROGRAM

# Examples that read standard input: the input of the stored run, and its status.
STORED = {
    "calc": ("examples/calc.txt", 0),
    "conf": ("tests/examples/conf.in", 0),
    "edit_loop": ("tests/examples/edit_loop.in", 0),
    "first": ("tests/examples/first.in", 0),
    "json_check": ("tests/examples/json_check.in", 1),
}

# Other inputs: the example, its input, its output and its status.
ROWS = [
    ("calc", "", "", 0),
    ("calc", " \n8 / 2 / 2", "8 / 2 / 2 = 2\n", 0),
    ("conf", "a = 1", "a = 1\n", 0),
    ("conf", "a b = 1", "stdin:1:3: expected = or {\n", 1),
    ("conf", 'a = b  # c\r\n\r\ns {\r\n  b = "x"\r\n}\r\n', "a = b\ns.b = x\n", 0),
    ("conf", "a = b\rc", "stdin:1:6: no token begins here\n", 1),
    ("conf", "s {\n  a = 1\n", "s.a = 1\nstdin:2:8: expected }\n", 1),
    ("conf", "a = 1\n}", "a = 1\nstdin:2:1: no token begins here\n", 1),
    ("edit_loop", "", "0 of 0 tiles cut anew\n", 0),
    ("edit_loop", "a?", "1:1 NAME a\nstdin:1:2: no rule matches here\n1 of 1 tiles cut anew\n", 0),
    ("json_check", "[1, {}]\n", "ok\n", 0),
    ("json_check", "[1,\n", "stdin:2:1: expected a value, found the end\n2 | \n  | ^\n", 1),
    ("json_check", b"[\xff]", "stdin:1:2: not UTF-8, byte 0xFF at offset 1\n1 | [\n  |  ^\n", 1),
]


class Examples(unittest.TestCase):
    """What comes of each example."""

    def setUp(self):
        programs.need(PROGRAM)

    def rows(self, rows):
        """Each program with each of the rows."""
        return [(program, row) for program in programs.by_each_compiler(PROGRAM) for row in rows]

    def test_stored_runs(self):
        for program, (name, (given, status)) in self.rows(STORED.items()):
            with self.subTest(example=name, program=program):
                wanted = Outcome(programs.read(f"tests/examples/{name}.out"), "", status)
                self.assertEqual(programs.run([program, "--example", name], programs.read(given)), wanted)

    def test_other_inputs(self):
        for program, (name, given, out, status) in self.rows(ROWS):
            with self.subTest(example=name, given=given, program=program):
                self.assertEqual(programs.run([program, "--example", name], given), Outcome(out, "", status))


if __name__ == "__main__":
    unittest.main()
