"""Has lrlex_bench replay cases. steps.md says what a case is, and which lines it answers."""

import json
import unittest

from support import programs
from support.shapes import checked

PROGRAM = "lrlex_bench"

# The keys of what setting ids gives.
OF_SETS = ["ids", "set_ids"]


class TestCase(unittest.TestCase):
    """Tests that replay cases. They are skipped where lrlex_bench isn't built."""

    def setUp(self):
        programs.need(PROGRAM)


class Answers:
    """The lines that a case answers, each a key and a JSON value."""

    def __init__(self, lines):
        self.pairs = [pair(line) for line in lines]

    def keys(self):
        """The keys, in order."""
        return [key for key, _ in self.pairs]

    def values(self, key):
        """All values of this key, in order."""
        found = [json.loads(value) for found, value in self.pairs if found == key]
        return [in_order(sets) for sets in found] if key in OF_SETS else found

    def last(self, key):
        """The last value of this key. None where there is none."""
        found = self.values(key)
        return found[-1] if found else None


def in_order(sets):
    """Both sets of names that setting ids gives, each in the order of the names, or of their places if it has these."""
    return [names and sorted(names, key=lambda it: it if isinstance(it, str) else it[::-1]) for names in sets]


def cases_in(path):
    """The cases of a file, each on a line."""
    with open(path, encoding="utf-8") as file:
        return [json.loads(line) for line in file]


def stored():
    """The cases without steps that the tests replay."""
    return cases_in(f"{programs.TOP}/tests/replayed.jsonl")


def pair(line):
    """The key and the value of a line, as texts."""
    key, _, value = line.decode().partition(" ")
    return key, value


def one_line(number, case):
    """The case as a line of JSON. Its id is its number, unless it has one."""
    return json.dumps(checked({"id": str(number), **case}), ensure_ascii=False) + "\n"


def as_input(cases):
    """The cases as the program reads them."""
    return "".join(one_line(number, case) for number, case in enumerate(cases)).encode()


def words(path=None):
    """The words that have the program replay cases."""
    return [path or programs.path_of(PROGRAM), "--replay"]


def run(text, path=None):
    """The bytes that the program writes of this text of cases."""
    ended = programs.run(words(path), text, timeout=600)
    if ended.status != 0 or ended.err:
        raise AssertionError(f"{words(path)} ended with status {ended.status}: {ended.err!r} after {ended.out[-300:]!r}")
    return programs.as_bytes(ended.out)


def split(out, count):
    """The lines of each of so many cases, without the line that names it."""
    parts = (b"\n" + out).split(b'\ncase "')
    last = parts[-1].rstrip(b"\n").rsplit(b"\n", 1)
    if parts[0] or len(parts) != count + 1 or last[-1] != b"%d cases" % count:
        raise AssertionError(f"{len(parts) - 1} cases were answered in place of {count}, at the end {last[-1]!r}")
    parts[-1] = last[0]
    return [part.split(b"\n")[1:] for part in parts[1:]]


def answers(cases, path=None):
    """What each case answers, by the program of this path if there is one."""
    return [Answers(lines) for lines in split(run(as_input(cases), path), len(cases))]


def answer(case):
    """What one case answers."""
    return answers([case])[0]
