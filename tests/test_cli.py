"""Stored runs of ./lrlex, which builds the program first where its source changed."""

import os.path
import shlex
import unittest

from support import programs
from support.cli_rows import ROWS
from support.program_rows import PROGRAM


def command():
    """./lrlex where its program is built, so that no test starts the first build; else the program that LRLEX_PROGRAMS names."""
    is_built = os.path.exists(f"{programs.TOP}/crates/{PROGRAM}/out/{PROGRAM}")
    return f"{programs.TOP}/lrlex" if is_built else programs.path_of(PROGRAM)


class Cli(unittest.TestCase):
    """Output, errors and status of each stored run."""

    def setUp(self):
        programs.need(PROGRAM)
        # what a build says is no output of a row
        programs.run([command(), "--help"], timeout=None)

    def test_stored_runs(self):
        for row in ROWS:
            with self.subTest(name=row.name, words=row.words, stdin=row.stdin):
                self.assertEqual(programs.run([command(), *shlex.split(row.words)], row.given()), row.wanted())

    def test_an_edit_is_made_on_a_run_of_the_old_text(self):
        """In little memory the new text could be lexed, but not the old one, which has 1.5 million tiles."""
        path = f"{programs.scratch().name}/old"
        programs.fill(programs.scratch().name, {"old": "abc 12" * 500_000})
        edit = [programs.path_of(PROGRAM), "--from", "0", "--to", "3000000", "--put", "x", "examples/tokens.l", path]
        self.assertEqual(programs.Outcome("ID x\n"), programs.run(edit))
        limited = ["sh", "-c", 'ulimit -v 40000; exec "$0" "$@"', *edit]
        self.assertEqual(programs.Outcome("", "Out of memory\n", 1), programs.run(limited))


if __name__ == "__main__":
    unittest.main()
