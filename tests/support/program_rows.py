"""Rows on the program: its words, the files and the standard input that it reads, and what must come of it."""

import shlex
import tempfile
from typing import NamedTuple

from support import programs
from support.programs import Outcome

PROGRAM = "lrlex_program"

USAGE = "Usage: lrlex <lexer.l> <input file>\n"
BAD_EDIT = "Bad edit\n"
NO_PATTERN = "2:1: Invalid regular expression\n"
SHORT = "1:1: File ends prematurely\n"

RULES = "%%\n[0-9]+ 'INT'\n[a-z]+ 'ID'\n[ ] ;"
BOTH = RULES + "\n----\nabc 123"
LINES = "ID abc\nINT 123\n"

MANY_FAULTS = "%%\na 'A'\n( 'A'\n[0-9] int"
MANY_REPORTED = "2:4: Rule name already exists, again at 3:4\n4:7: Invalid rule name\n"


class Row(NamedTuple):
    """A run, its words as a shell reads them, and what must come of it. Its own files are put beside those of all rows."""

    name: str
    words: str
    wanted: Outcome
    stdin: object = ""
    files: dict = {}


def serve(folder, words, stdin, environment=None):
    """What comes of the program with these words in the folder."""
    return programs.run([programs.path_of(PROGRAM), *shlex.split(words)], stdin, folder, environment)


def check_rows(test, rows, files):
    """Checks what comes of the program in each of these rows, in a folder of its own with these files."""
    programs.need(PROGRAM)
    rows = list(rows)
    names = [row.name for row in rows]
    test.assertEqual(len(set(names)), len(names), f"two rows have one name: {sorted(names)}")
    for row in rows:
        with test.subTest(row=row.name, words=row.words), tempfile.TemporaryDirectory() as folder:
            programs.fill(folder, {**files, **row.files})
            test.assertEqual(serve(folder, row.words, row.stdin), row.wanted)
