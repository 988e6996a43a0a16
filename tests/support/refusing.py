"""Refuses three programs their requests for memory, and says how they met it: python3 -m support.refusing, in tests/.

Each request in turn is refused, from the first until no more are made: at first that one alone, and then all after it too. On each
row of cli_rows.py the program must say 'Out of memory' and nothing else, or do what it does with memory for all. On each case of
library_calls.py lrlex_bench must write the lines that were worked out by hand; where a call answers that memory ran out, also what
it was lent as it was, and what the call answers when it is made once more; or a beginning of these lines and 'Out of memory'. Each
command of rolgumzai must write what it does with memory for all, or a beginning of it and 'rolgumzai: out of memory'.

It needs cc, and the programs that ./lrlex and the gate build. The last three lines say how many requests were refused. The status
is 0 where each was met so, 1 where one wasn't, and 2 where that can't be tried.
"""

import json
import multiprocessing
import os
import shlex
import subprocess
import sys
import tempfile
import unittest
from collections import Counter

from support import cli_rows, library_calls, program_rows, programs, replay

OUT_OF_MEMORY = b"Out of memory\n"

ROLGUMZAI = "rolgumzai"
ROLGUMZAI_OUT_OF_MEMORY = b"rolgumzai: out of memory\n"

# Commands of rolgumzai, and the status of each.
COMMANDS = [
    ("--help", 0),
    ("none", 2),
    ("tokens --help", 0),
    ("tokens --octal false examples/tokens.l examples/tokens.txt", 0),
    ("tokens --json examples/tokens.l examples/tokens.txt", 0),
    ("tokens examples/tokens.l examples/sorted.c", 1),
    ("tokens examples/faults.l examples/tokens.txt", 1),
    ("check examples/faults.l none examples/tokens.l", 2),
    ("highlight --map ID=class examples/tokens.l examples/tokens.txt", 0),
    ("highlight --html examples/tokens.l examples/tokens.txt", 0),
    ("explain examples/tokens.l examples/tokens.txt 5", 0),
]

# How a program met a refusal.
REPORTED, NOT_NEEDED, WRONG = "reported", "not needed", "wrong"

# The most lines of what is wrong that are printed.
MOST_LINES = 20


class Run:
    """A program with its words, and the file that is its standard input."""

    def __init__(self, name, words, stdin):
        self.name, self.words, self.stdin = name, words, stdin

    def start(self, settings):
        """What comes of it with these settings in the environment: status, output and errors."""
        with open(self.stdin, "rb") as stdin:
            environment = {**os.environ, **settings}
            ended = subprocess.run(
                self.words, stdin=stdin, capture_output=True, cwd=programs.TOP, env=environment, close_fds=False, check=False
            )
        return ended.returncode, ended.stdout, ended.stderr


class Example(Run):
    """A stored run of the program."""

    def __init__(self, row):
        words = [programs.path_of(program_rows.PROGRAM), *shlex.split(row.words)]
        super().__init__(f"example {row.name}", words, f"{programs.TOP}/{row.stdin}" if row.stdin else os.devnull)
        out, err, status = row.wanted()
        self.right = (status, programs.as_bytes(out), programs.as_bytes(err))

    def learn(self):
        """What is wrong with memory for all; nothing where it is as it was stored."""
        return None if self.start({}) == self.right else f"{self.name}: wrong without a refusal"

    def met(self, came, _rest):
        """How it met a refusal."""
        if came == (1, b"", OUT_OF_MEMORY):
            return REPORTED
        return NOT_NEEDED if came == self.right else WRONG


class Command(Run):
    """A run of a command of rolgumzai."""

    def __init__(self, words, status):
        super().__init__(f"rolgumzai {words}", [programs.path_of(ROLGUMZAI), *words.split()], os.devnull)
        self.right, self.status = None, status

    def learn(self):
        """What is wrong with memory for all: another status."""
        self.right = self.start({})
        return None if self.right[0] == self.status else f"{self.name}: {self.right}"

    def met(self, came, _rest):
        """How it met a refusal."""
        if came == self.right:
            return NOT_NEEDED
        (status, out, errors), (_, all_out, all_errors) = came, self.right
        is_told = status == 2 and errors.endswith(ROLGUMZAI_OUT_OF_MEMORY)
        is_beginning = all_out.startswith(out) and all_errors.startswith(errors.removesuffix(ROLGUMZAI_OUT_OF_MEMORY))
        return REPORTED if is_told and is_beginning else WRONG


class Calls(Run):
    """A replayed case with calls of the library."""

    def __init__(self, call, stdin):
        super().__init__(f"calls {call.name}", replay.words(), stdin)
        self.call, self.right, self.lines = call, None, []

    def learn(self):
        """What is wrong with memory for all; nothing where the lines are those that were worked out. Keeps the lines."""
        self.right = self.start({})
        status, out, errors = self.right
        self.lines = out.split(b"\n")
        got = [parsed(line) for line in self.lines[:-2]]
        if (status, errors) != (0, b"") or got != self.call.lines:
            return f"{self.name}: {first_difference(got, self.call.lines)}, status {status}, {errors!r}"
        return None

    def met(self, came, rest):
        """How it met a refusal. It may have made the call once more, after an answer that memory ran out."""
        status, out, errors = came
        lines = out.split(b"\n")
        if came == self.right:
            return NOT_NEEDED
        if (status, errors) == (0, b"") and not rest:
            return REPORTED if self.is_made_again(lines) else WRONG
        if (status, errors) == (1, OUT_OF_MEMORY) and lines[-1] == b"":
            return REPORTED if self.is_beginning(lines[:-1], rest) else WRONG
        return WRONG

    def is_beginning(self, lines, rest):
        """Whether these lines are the first of all. Where all is refused, an answer that memory ran out may be the last."""
        at = self.first_other(lines)
        return at == len(lines) or (rest and lines[at:] == [b"out_of_memory null"] and self.line(at).startswith(b"step "))

    def is_made_again(self, lines):
        """Whether these are all lines, but for an answer that memory ran out, and what was lent as it was."""
        at = self.first_other(lines)
        left = self.lines[at:]
        if left and at < len(lines) and is_full(lines[at], left[0]):
            return lines[at + 1:] == left[1:]
        return lines[at:] == [b"out_of_memory null"] + self.lent(at) + left

    def first_other(self, lines):
        """The place of the first line that isn't as it was without a refusal."""
        for at, (line, right) in enumerate(zip(lines, self.lines)):
            if line != right:
                return at
        return min(len(lines), len(self.lines))

    def line(self, at):
        """The line at this place, empty after the last."""
        return self.lines[at] if at < len(self.lines) else b""

    def lent(self, at):
        """The lines of what was lent to the call of this line: of a document that is edited, and of rules.

        A step as a whole is lent a definition that it doesn't change.
        """
        if self.line(at).startswith(b"edit "):
            return self.last(at, b"document ", 6)
        return self.last(at, b"rules ", 1) if self.line(at).startswith(b"ids ") else []

    def last(self, at, key, count):
        """So many lines from the last with this key before the place on."""
        place = max(place for place in range(at) if self.lines[place].startswith(key))
        return self.lines[place:place + count]


def parsed(line):
    """The key and the value of a line."""
    key, value = replay.pair(line)
    return key, json.loads(value)


def is_full(line, right):
    """Whether the line says of a call of the engine that its writer had no memory for more than a beginning of what is right."""
    if not line.startswith(b'engine ["Failed(OutOfMemory)",') or not right.startswith(b"engine "):
        return False
    (_, (_, held, *_)), (_, (_, whole, *_)) = parsed(line), parsed(right)
    return held == whole[:len(held)]


def first_difference(got, wanted):
    """The first lines that differ."""
    for one, other in zip(got, wanted):
        if one != other:
            return f"got {one}, expected {other}"
    return f"{len(got)} lines in place of {len(wanted)}"


def examples():
    """The stored runs of the program to which memory is refused."""
    return [Example(row) for row in cli_rows.ROWS if row.is_refused]


def commands():
    """The runs of rolgumzai."""
    return [Command(words, status) for words, status in COMMANDS]


def calls(folder):
    """The runs on calls of the library. Each reads a file of its own in the folder."""
    runs = []
    for number, call in enumerate(library_calls.CALLS):
        path = f"{folder}/call{number}"
        with open(path, "w", encoding="utf-8") as file:
            file.write(replay.one_line(number, call.case))
        runs.append(Calls(call, path))
    return runs


def in_turn(task):
    """Refuses one run each of its requests from the first on, by steps of so many. Returns counts and what is wrong."""
    run, library, marker, request, by, rest = task
    counts, lines = Counter(), []
    settings = {"LD_PRELOAD": library, "REFUSED": marker, **({"REFUSE_REST": "1"} if rest else {})}
    while True:
        with open(marker, "w", encoding="utf-8"):
            pass
        came = run.start({**settings, "REFUSE": str(request)})
        if os.path.getsize(marker) == 0:
            return counts, lines
        met = run.met(came, rest)
        counts.update(["requests", met])
        if met == WRONG:
            lines.append(f"{run.name}, request {request}{' and all after it' if rest else ''}: {came}")
        request += by


def tasks(runs, library, folder, by):
    """Each run with each request refused alone, and then with all after it, in so many tasks each."""
    turns = [(run, rest, request) for rest in [False, True] for run in runs for request in range(1, by + 1)]
    for number, (run, rest, request) in enumerate(turns):
        yield run, library, f"{folder}/refused{number}", request, by, rest


def refuse(runs, library, folder):
    """Refuses all of these runs their requests. Returns counts and what is wrong."""
    by = len(os.sched_getaffinity(0))
    lines = [fault for fault in (run.learn() for run in runs) if fault]
    counts = Counter(wrong=len(lines))
    if not lines:
        with multiprocessing.Pool(by) as pool:
            for more, faults in pool.imap_unordered(in_turn, tasks(runs, library, folder, by)):
                counts.update(more)
                lines += faults
    return counts, lines


def refuse_and_print(what, runs, library, folder):
    """Refuses all of these runs their requests. Prints what is wrong, and the line of the counts; whether nothing is wrong."""
    counts, lines = refuse(runs, library, folder)
    for line in lines[:MOST_LINES]:
        print(f"refused memory: {line}")
    passed = counts[WRONG] == 0 and counts[REPORTED] > 0
    print(
        f"refused memory: {'passed' if passed else 'FAILED'}, {len(runs)} {what}, {counts['requests']} requests refused:"
        f" {counts[REPORTED]} told, {counts[NOT_NEEDED]} not needed, {counts[WRONG]} wrong",
        flush=True,
    )
    return passed


def main():
    """Refuses memory to the programs."""
    try:
        library = programs.preloaded("refuse_memory")
        programs.need(program_rows.PROGRAM)
        programs.need(replay.PROGRAM)
        programs.need(ROLGUMZAI)
    except unittest.SkipTest as why:
        print(f"refused memory: skipped, {why}")
        return 2
    with tempfile.TemporaryDirectory() as folder:
        of_examples = refuse_and_print("examples", examples(), library, folder)
        of_calls = refuse_and_print("cases with calls", calls(folder), library, folder)
        of_commands = refuse_and_print("commands", commands(), library, folder)
    return 0 if of_examples and of_calls and of_commands else 1


if __name__ == "__main__":
    sys.exit(main())
