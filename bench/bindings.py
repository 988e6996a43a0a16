#!/usr/bin/env python3
"""What the bindings of the C library cost: bench/bindings.py RULES INPUT [--rounds N] [--instructions]. It lexes a text in C, C++, Rust
and Python.

Each round runs each program in turn, three times each way. A line has a way, its nanoseconds a byte (the median of all), and how many
times as many they are as those of `lrlex_lex` into a buffer that is kept. All must find as many tokens. `run` is measured where
lrlex_bench is built.

With --instructions valgrind counts the instructions of each way, once, in place of its time. Other work of the machine doesn't change
them. They are those of lexing four times less those of lexing once, by three.
"""

import argparse
import os
import re
import statistics
import subprocess
import sys

TOP = os.path.dirname(os.path.dirname(os.path.realpath(__file__)))
sys.dont_write_bytecode = True
sys.path.insert(0, f"{TOP}/tests")

# pylint: disable=wrong-import-position
import test_bindings  # noqa: E402
from support import c_library, programs  # noqa: E402

HERE = f"{TOP}/bench/bindings"
# The way that all others are held against.
BASE = "C lex"
COUNTING = ["valgrind", "--tool=callgrind", "--callgrind-out-file=/dev/null"]


class Caller:
    """A program that lexes, its environment, and its ways."""

    def __init__(self, language, words, ways=("lex", "scanner"), environment=None):
        self.language, self.words, self.ways, self.environment = language, words, ways, environment

    def run(self, *words, before=()):
        """What the program prints, and what is told of it on standard error."""
        ran = subprocess.run(
            [*before, *self.words, *words], check=True, text=True, capture_output=True, env={**(self.environment or os.environ), "PYTHONHASHSEED": "0"}
        )
        return ran.stdout.splitlines(), ran.stderr

    def instructions(self, rules, text, times, way):
        """The instructions of so many times."""
        return int(re.search(r"Collected : (\d+)", self.run(rules, text, str(times), way, before=COUNTING)[1])[1])


def callers():
    """The programs, built."""
    return [
        Caller("C", [c_library.of_c(f"{HERE}/lexing.c")]),
        Caller("C++", [c_library.of_cpp(f"{HERE}/lexing.cpp")]),
        Caller("Rust", [test_bindings.rust_program(f"{HERE}/lexing.rs")]),
        Caller("Python", [sys.executable, f"{HERE}/lexing.py"], ("spans", "scanner"), test_bindings.python_environment()),
    ]


def timed(rules, text, rounds):
    """The nanoseconds a byte of each way, and the counts of tokens that were found."""
    took, counts, size, them = {}, set(), os.path.getsize(text), callers()
    for _ in range(rounds):
        for caller in them:
            for line in caller.run(rules, text, "3")[0]:
                way, micros, count = line.rsplit(" ", 2)
                took.setdefault(way, []).append(int(micros) * 1000 / size)
                counts.add(count)
        if programs.is_built("lrlex_bench"):
            for line in Caller("Rattle", [programs.path_of("lrlex_bench")]).run(rules, text, "3")[0]:
                if found := re.match(r"run median ns per byte: ([0-9.]+)", line):
                    took.setdefault("run", []).append(float(found[1]))
    return {way: statistics.median(each) for way, each in took.items()}, counts


def counted(rules, text):
    """The instructions a byte of each way, and the counts of tokens that were found."""
    took, counts, size = {}, set(), os.path.getsize(text)
    for caller in callers():
        counts.update(line.rsplit(" ", 1)[1] for line in caller.run(rules, text, "1")[0])
        for way in caller.ways:
            once, often = (caller.instructions(rules, text, times, way) for times in (1, 4))
            took[f"{caller.language} {way}"] = (often - once) / 3 / size
    return took, counts


def main(words):
    """Measures, and prints the lines."""
    parser = argparse.ArgumentParser(prog="bench/bindings.py", description="What the bindings of the C library cost.")
    parser.add_argument("rules", help="a rule file")
    parser.add_argument("text", help="a text")
    parser.add_argument("--rounds", type=int, default=7, help="how often each program is timed; 7, if left out")
    parser.add_argument("--instructions", action="store_true", help="count instructions; it needs valgrind")
    asked = parser.parse_args(words)
    took, counts = counted(asked.rules, asked.text) if asked.instructions else timed(asked.rules, asked.text, asked.rounds)
    unit = "instructions" if asked.instructions else "ns"
    for way, each in took.items():
        print(f"{way:16} {each:8.2f} {unit} a byte  {each / took[BASE]:5.2f}")
    print(f"tokens: {', '.join(sorted(counts))}")
    return len(counts) != 1


if __name__ == "__main__":
    sys.exit(main(sys.argv[1:]))
