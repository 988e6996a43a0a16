"""Replays cases without steps, and compares what comes of them: python3 -m support.replayed [FILE], in tests/.

The cases are those of replayed.jsonl, or of the file; steps.md says what each is. A difference is printed on a line of its own; the
last line is 'N cases, K differ'. The status is 1 if one differs.
"""

import json
import sys

from support import replay

# What lexing an input answers: by the definition's tables, and once more without any.
OF_LEXING = ["items", "linecols", "tiles", "entries_peak", "asked_max"]

# A member of an expectation that isn't compared: why the original answers otherwise.
NOTE = "departure"


def wanted_keys(expected):
    """The keys of the lines that a case has to answer, in any order."""
    keys = [key for key in expected if key != NOTE]
    return sorted(keys + (OF_LEXING if "items" in expected else []))


def exact(value):
    """A value as a text that no other value has."""
    return json.dumps(value, sort_keys=True)


def is_as_wanted(key, got, wanted):
    """Whether an answer is what is expected; a count `asked_max` may be less."""
    return got <= wanted if key == "asked_max" else exact(got) == exact(wanted)


def differences(case, answers):
    """A line for each answer of a case that isn't as it is expected."""
    expected, keys = case["expected"], answers.keys()
    lines = [] if sorted(keys) == wanted_keys(expected) else [f"{case['id']}: answered {keys}, expected {list(expected)}"]
    for key in expected:
        others = [got for got in answers.values(key) if not is_as_wanted(key, got, expected[key])]
        lines += [f"{case['id']}: {key}: expected {exact(expected[key])}, got {exact(got)}" for got in others]
    return lines


def compared(cases, path=None):
    """For each of the cases, the lines of what differs where the program of this path replays it."""
    return [differences(case, answers) for case, answers in zip(cases, replay.answers(cases, path), strict=True)]


def main(words):
    """Replays the cases of a file, or those that are stored."""
    cases = replay.cases_in(words[0]) if words else replay.stored()
    found = compared(cases)
    for lines in found:
        print(*lines, sep="\n", end="\n" if lines else "")
    differ = sum(map(bool, found))
    print(f"{len(cases)} cases, {differ} differ")
    return 1 if differ else 0


if __name__ == "__main__":
    sys.exit(main(sys.argv[1:]))
