"""The program over streams that break: each call of read or write moves one to four bytes, and each in turn fails, or moves
nothing. tools/preload/break_streams.c, preloaded, breaks a stream so, and keeps a trace of all calls that open, read and write.

Of each run its output, its messages, its status and the whole trace have to be those of Model, which says what the program does,
call by call: no fault is tried again, a fault ends what was begun and is reported, and one of standard error is passed over.
"""

import collections
import errno
import os
import tempfile
import unittest
from concurrent.futures import ThreadPoolExecutor
from typing import NamedTuple

from support import programs
from support.program_rows import (
    BAD_EDIT, BOTH, LINES, MANY_FAULTS, MANY_REPORTED, NO_PATTERN, PROGRAM, SHORT, USAGE, serve,
)
from support.programs import Outcome, as_bytes, as_text

STDIN, STDOUT, STDERR = "0", "1", "2"
MOST = range(1, 5)
NOTHING = 0
NEVER = -1

# How many ways in which a run differs are shown.
MOST_SHOWN = 5


class Run(NamedTuple):
    """A run on streams that are whole: the texts that it reads, in order and each from which stream (None: there is no such
    file), what it writes to standard output, the pieces that it writes to standard error, and its status."""

    name: str
    words: str
    reads: list
    out: str = ""
    err: tuple = ()
    status: int = 0


class Break(NamedTuple):
    """How a stream breaks: the bytes that a call moves at most, the number of the call that fails, and by which error. Number 0
    is the call that opens a file."""

    most: int
    at: int
    error: int


WHOLE = Break(8192, NEVER, NOTHING)


class Model:
    """What the program does where streams break. trace has its calls, and held what standard output and error hold."""

    def __init__(self, breaks):
        self.breaks = breaks
        self.trace = []
        self.calls = collections.Counter()
        self.held = {STDOUT: b"", STDERR: b""}

    def answer(self, call, stream, size):
        """The call of read or write that asks for so many bytes: how many it moves, or its error with a minus."""
        self.calls[stream] += 1
        most, at, error = self.breaks.get(stream, WHOLE)
        answer = -error if self.calls[stream] == at else min(size, most)
        self.trace.append(f"{call} {stream} {answer}")
        return answer

    def open(self, path, text):
        """The error by which the file can't be opened. Where a signal came, the standard library opens again."""
        _, at, error = self.breaks.get(path, WHOLE)
        answers = [-errno.ENOENT if text is None else 0]
        if at == 0:
            answers = [-error, *answers] if error == errno.EINTR else [-error]
        self.trace += [f"open {path} {answer}" for answer in answers]
        return -answers[-1]

    def read(self, stream, text):
        """The error by which the text can't be read to its end."""
        left = len(text)
        while True:
            moved = self.answer("read", stream, left)
            if moved <= 0:
                return -moved
            left -= moved

    def write(self, stream, text):
        """Whether the whole text was written."""
        while text:
            moved = self.answer("write", stream, len(text))
            if moved <= 0:
                return False
            self.held[stream] += text[:moved]
            text = text[moved:]
        return True

    def tell(self, pieces):
        """Writes the pieces to standard error, up to its first fault."""
        return all(self.write(STDERR, piece.encode()) for piece in pieces)

    def take(self, stream, text):
        """What is written to standard error where the text can't be had; nothing where it can."""
        path = "-" if stream == STDIN else stream
        error = (stream != STDIN and self.open(path, text)) or self.read(stream, as_bytes(text))
        if error == errno.ENOMEM:
            return ("Out of memory\n",)
        if error:
            return ("Can't open file ", path, "\n")
        return () if is_text(text) else ("File ", path, " is not UTF-8\n")

    def serve(self, run):
        """Goes through the run, and answers its status."""
        for stream, text in run.reads:
            fault = self.take(stream, text)
            if fault:
                self.tell(fault)
                return 1
        if not self.write(STDOUT, run.out.encode()):
            self.tell(["Can't write\n"])
            return 1
        self.tell(run.err)
        return run.status


def is_text(text):
    try:
        as_bytes(text).decode()
    except UnicodeDecodeError:
        return False
    return True


def wanted(run, breaks):
    """What must come of the run where streams break so, and its trace."""
    model = Model(breaks)
    status = model.serve(run)
    out, err = (as_text(model.held[stream]) for stream in (STDOUT, STDERR))
    return Outcome(out, err, status), model.trace


def outcome_of(folder, run, breaks):
    """What comes of the run in its folder where streams break so, and its trace."""
    lines = [f"{stream} {most} {at} {error}" for stream, (most, at, error) in breaks.items()]
    stdin = b"".join(as_bytes(text) for stream, text in run.reads if stream == STDIN)
    with tempfile.NamedTemporaryFile("r", dir=folder) as trace:
        environment = {"LD_PRELOAD": programs.preloaded("break_streams"), "BREAK": "\n".join(lines), "TRACE": trace.name}
        outcome = serve(folder, run.words, stdin, environment)
        return outcome, trace.read().splitlines()


def each(run, stream, errors, others=None, first=1):
    """The ways in which this stream breaks: for each most each call fails, up to one more than there are, by each error."""
    for most in MOST:
        model = Model({**(others or {}), stream: Break(most, NEVER, NOTHING)})
        model.serve(run)
        for at in range(first, model.calls[stream] + 2):
            for error in errors:
                yield {**(others or {}), stream: Break(most, at, error)}


WRITING = (errno.EIO, errno.EINTR, NOTHING)
READING = (errno.EIO, errno.EINTR, errno.ENOMEM)

HEARTS = "%%\n[a-z]+ 'ID'\n❤ 'HEART'\n[ ] ;"
STOPPED = "Couldn't lex input starting at byte"


def texts(rules, text):
    """Both texts in files."""
    return [("rules", rules), ("input", text)]


WRITERS = [
    Run("lexed", "rules input", texts(HEARTS, "ab❤ c"), "ID ab\nHEART ❤\nID c\n"),
    Run("stopped", "rules input", texts(HEARTS, "❤ !"), f"HEART ❤\n{STOPPED} 4\n", (), 1),
    Run("refused", "rules input", texts("%%\n( 'A'", "a"), "", (NO_PATTERN,), 1),
    Run("edited", "--from 0 --to 2 --put ❤ rules input", texts(HEARTS, "ab cd ef"), "HEART ❤\nID cd\nID ef\n"),
    Run("edited, stopped", "--from 0 --to 2 --put xyz rules input", texts(HEARTS, "ab !"), f"ID xyz\n{STOPPED} 4\n", (), 1),
    Run("a line that is written whole", "", [(STDIN, BOTH)], LINES),
]

REPORTS = [
    Run("one fault", "rules input", texts("", "a"), "", (SHORT,), 1),
    Run("more faults", "rules input", texts(MANY_FAULTS, "a"), "", (MANY_REPORTED,), 1),
    Run("faults after an edit", "--from 0 --to 1 --put x rules input", texts(MANY_FAULTS, "a"), "", (MANY_REPORTED,), 1),
    Run("nothing in standard input", "", [(STDIN, "")], "", (SHORT,), 1),
    Run("usage", "--help", [], "", (USAGE,), 1),
    Run("a bad edit", "--from 2 --to 1 --put x rules input", texts(HEARTS, "ab"), "", (BAD_EDIT,), 1),
    Run("no file", "rules none", [("rules", HEARTS), ("none", None)]),
    Run("no text", "rules input", texts(HEARTS, b"\xff")),
    Run("no text in standard input", "rules -", [("rules", HEARTS), (STDIN, b"\xff")]),
]

NAMES = "%%\n[a-z❤]+ 'ID'\n[ ] ;"
TEXT = "a❤ ❤❤"
BOTH_HEARTS = f"{NAMES}\n----\n{TEXT}"
HEARTS_LEXED = "ID a❤\nID ❤❤\n"

READERS = [
    Run("lexed", "", [(STDIN, BOTH_HEARTS)], HEARTS_LEXED),
    Run("stopped", "", [(STDIN, "%%\na 'A'\n----\na❤")], f"A a\n{STOPPED} 1\n", (), 1),
    Run("refused", "", [(STDIN, "%%\n❤❤ x\n----\na")], "", ("2:4: Invalid rule name\n",), 1),
    # the first `-` takes all, and the second asks once more at the end
    Run("twice", "- -", [(STDIN, "%%\n❤ 'A'"), (STDIN, "")]),
    Run("no input", "- none", [(STDIN, "%%\n❤ 'A'"), ("none", None)]),
    Run("the rules alone", "- input", [(STDIN, NAMES), ("input", TEXT)], HEARTS_LEXED),
    Run("the input alone", "rules -", [("rules", NAMES), (STDIN, TEXT)], HEARTS_LEXED),
    Run("an input that is edited", "--from 1 --to 4 --put b rules -", [("rules", NAMES), (STDIN, TEXT)], "ID ab\nID ❤❤\n"),
]

FILES = [
    Run("both", "rules input", texts(NAMES, TEXT), HEARTS_LEXED),
    Run("an input that is edited", "--from 1 --to 4 --put b rules input", texts(NAMES, TEXT), "ID ab\nID ❤❤\n"),
    Run("the rules alone", "rules -", [("rules", NAMES), (STDIN, TEXT)], HEARTS_LEXED),
    Run("the input alone", "- input", [(STDIN, NAMES), ("input", TEXT)], HEARTS_LEXED),
]


# A text that is read one byte a call.
MANY_READS = Run("many reads", "rules -", [("rules", HEARTS), (STDIN, f"{' ' * 20_000}ab")], "ID ab\n")


def broken_writers():
    return [(run, each(run, STDOUT, WRITING)) for run in WRITERS]


def broken_reports():
    return [(run, each(run, STDERR, WRITING)) for run in REPORTS]


def broken_twice():
    """Standard output fails at each of its calls, and the message of that at each of standard error's."""
    for run in [it for it in WRITERS if it.name in ("lexed", "edited, stopped")]:
        for breaks in each(run, STDOUT, (errno.EIO,)):
            if breaks[STDOUT].most == 3:
                yield run, each(run, STDERR, WRITING, breaks)


def broken_readers():
    return [(run, each(run, STDIN, READING)) for run in READERS]


def broken_files():
    """Each file fails at each of its calls, the one that opens it among them."""
    for run in FILES:
        for path in [it for it, _ in run.reads if it != STDIN]:
            yield run, each(run, path, READING, first=0)


def cut(text):
    """The beginnings of the text that end within a character."""
    whole = text.encode()
    parts = [whole[:end] for end in range(len(whole))]
    return [it for it in parts if not is_text(it)]


def cut_texts():
    """Texts that end within a character, read a few bytes a call."""
    assert len(cut(BOTH_HEARTS)) == 8
    for part in cut(BOTH_HEARTS):
        yield Run("both", "", [(STDIN, part)]), STDIN
    for part in cut(NAMES):
        yield Run("the rules", "rules input", [("rules", part)]), "rules"
    for part in cut(TEXT):
        yield Run("the input", "rules input", texts(NAMES, part)), "input"
        yield Run("the input in standard input", "rules -", [("rules", NAMES), (STDIN, part)]), STDIN


def cut_readers():
    for run, stream in cut_texts():
        yield run, [{stream: Break(most, NEVER, NOTHING)} for most in MOST]


class Streams(unittest.TestCase):
    """The program does as Model does, in each way in which a run's streams break."""

    def check_run(self, run, ways):
        """Checks the run in each of these ways, each of which is a row."""
        with tempfile.TemporaryDirectory() as folder, ThreadPoolExecutor(os.cpu_count()) as pool:
            programs.fill(folder, {path: text for path, text in run.reads if path != STDIN and text is not None})
            outcomes = pool.map(lambda breaks: outcome_of(folder, run, breaks), ways)
            differ = 0
            for breaks, outcome in zip(ways, outcomes, strict=True):
                right = wanted(run, breaks)
                differ += outcome != right
                with self.subTest(run=run.name, words=run.words, breaks=breaks):
                    self.assertEqual(outcome, right)
                self.assertLess(differ, MOST_SHOWN, f"{run.name}: its other ways are not compared")

    def check_runs(self, pairs):
        """Checks runs, each with the ways in which its streams break."""
        programs.need(PROGRAM)
        programs.preloaded("break_streams")
        for run, ways in pairs:
            ways = list(ways)
            self.assertTrue(ways, f"{run.name}: there is no way in which it breaks")
            self.check_run(run, ways)

    def test_standard_output_that_breaks(self):
        self.check_runs(broken_writers())

    def test_standard_error_that_breaks(self):
        self.check_runs(broken_reports())

    def test_standard_output_and_error_that_break(self):
        self.check_runs(broken_twice())

    def test_standard_input_that_breaks(self):
        self.check_runs(broken_readers())

    def test_files_that_break(self):
        self.check_runs(broken_files())

    def test_texts_that_end_within_a_character(self):
        self.check_runs(cut_readers())

    def test_a_text_that_takes_many_reads(self):
        self.check_runs([(MANY_READS, [{STDIN: Break(1, NEVER, NOTHING)}])])


if __name__ == "__main__":
    unittest.main()
