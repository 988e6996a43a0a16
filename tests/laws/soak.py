"""Has random cases replayed, and compares what comes of them with the laws."""

import multiprocessing
import os
from collections import Counter

from laws.checks import compare_case
from laws.random_case import RandomCase
from laws.tally import Tally
from support import programs
from support.replay import PROGRAM, as_input, run, split

# How many cases a run of the program is given, and how many of all are given to the second compiler's program too.
CHUNK, BOTH = 50, 250


def answers_of(cases, path=None):
    """The text of these cases, what the program writes of it, and for each case the lines of each step of each definition."""
    asked = [steps for case in cases for steps in case.asked()]
    text = as_input([steps.case() for steps in asked])
    out = run(text, path)
    answers = (steps.answers(lines) for steps, lines in zip(asked, split(out, len(asked))))
    return text, out, [[next(answers) for _ in case.asked()] for case in cases]


def described(case, differences):
    """What differs in a case, and all that is needed to try it again."""
    again = f"case {case.number} of seed {case.seed}: python3 -m laws 1 {case.seed} {case.number} {len(case.edits)}"
    return [again, f"rules: {case.rules.text!r}", f"flags: {case.rules.flags}", *differences]


def try_case(case, answers):
    """Compares a case with the laws. Returns counts, and lines for what differs."""
    tally = Tally()
    try:
        compare_case(case, answers, tally)
    except (AssertionError, KeyError, IndexError, TypeError, ValueError, StopIteration) as fault:
        tally.law(f"lines of another form: {fault!r}", False)
    return tally.counts, described(case, tally.differences) if tally.differences else []


def try_alone(case):
    """Tries a case by itself, since a run of several ended before its time."""
    try:
        _, _, answers = answers_of([case])
    except AssertionError as fault:
        return Counter(compared=1, differ=1, cases=1), described(case, [str(fault)])
    return try_case(case, answers[0])


def try_by_rattle(text, out):
    """Whether the second compiler's program writes the same of this text of cases, if it is there."""
    other = programs.by_rattle(PROGRAM)
    if other is None:
        return Counter(), []
    alike = run(text, other) == out
    lines = [] if alike else ["the second compiler's program writes something else"]
    return Counter(both=text.count(b"\n"), compared=1, differ=0 if alike else 1), lines


def try_chunk(chunk):
    """Tries the cases of these numbers. Returns counts, and lines for what differs."""
    seed, numbers, edits, both = chunk
    cases = [RandomCase(seed, number, edits) for number in numbers]
    try:
        text, out, answers = answers_of(cases)
        tried = [try_case(case, of_case) for case, of_case in zip(cases, answers)]
        if both:
            tried.append(try_by_rattle(text, out))
    except AssertionError as fault:
        tried = [try_alone(case) for case in cases]
        tried.append((Counter(compared=1, differ=1), [f"cases {numbers}: {fault}"]))
    counts = sum((counts for counts, _ in tried), Counter())
    return counts, [line for _, lines in tried for line in lines]


def chunks(cases, seed, first, edits):
    """The cases in chunks, the first of which both programs are given."""
    for at in range(0, cases, CHUNK):
        yield seed, range(first + at, first + min(at + CHUNK, cases)), edits, at < BOTH


def soak(cases, seed, first, edits, write):
    """Tries all these cases, and hands each line of what differs to `write`. Returns the counts."""
    counts = Counter()
    with multiprocessing.Pool(len(os.sched_getaffinity(0))) as pool:
        for more, lines in pool.imap(try_chunk, chunks(cases, seed, first, edits)):
            counts.update(more)
            for line in lines:
                write(line)
    return counts
