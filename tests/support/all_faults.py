"""A plain model of all faults of a rule text, over lines of which each is made from its parts."""

import random
from typing import NamedTuple

# Names that are declared once in a while, and those of rules.
STATES = ["A", "B", "C"]
NAMES = ["X", "Y", "Z"]


class Rule(NamedTuple):
    """The parts of a rule line: a start state or none, a pattern, a target state or none, and a name, quoted or not."""

    state: str
    pattern: str
    target: str
    name: str

    def text(self):
        """The line."""
        state = f"<{self.state}>" if self.state else ""
        target = f"<{self.target}>" if self.target else ""
        return f"{state}{self.pattern} {target}{self.name}"


class Faults:
    """The faults so far. Duplicates of one original are one fault, unless a fatal one is between them."""

    def __init__(self):
        self.told, self.joined = [], {}

    def fatal(self, kind, at):
        """A fault after which no duplicate joins an earlier one."""
        self.told.append({"kind": kind, "spans": [[at, at]]})
        self.joined = {}

    def duplicate(self, kind, original, found):
        """One more duplicate of this original."""
        key = (kind, *original)
        if key not in self.joined:
            self.joined[key] = {"kind": kind, "spans": [original]}
            self.told.append(self.joined[key])
        self.joined[key]["spans"].append(found)


def declare(faults, states, line, at):
    """A declaration at this place: `%s` and names, or another line."""
    if not line.startswith("%s "):
        return faults.fatal("UnknownDeclaration", at)
    at += 3
    for name in line[3:].split(" "):
        span = [at, at + len(name)]
        if not name[:1].isalpha():
            return faults.fatal("InvalidStartStateName", at)
        if name in states:
            faults.duplicate("DuplicateStartState", states[name], span)
        states.setdefault(name, span)
        at += len(name) + 1


def add_rule(faults, states, rules, rule, at):
    """A rule line at this place."""
    blank = at + rule.text().rindex(" ")
    if rule.target and rule.target not in states:
        return faults.fatal("UnknownStartState", blank + 1)
    named = rule.name.startswith("'")
    if not named and rule.name != ";":
        return faults.fatal("InvalidName", blank + 1)
    end = at + len(rule.text())
    span = [end - len(rule.name) + 1, end - 1]
    if named and rule.name in rules:
        return faults.duplicate("DuplicateName", rules[rule.name], span)
    if rule.state and rule.state not in states:
        return faults.fatal("UnknownStartState", at)
    if rule.pattern in "([":
        return faults.fatal("RegexError", at)
    if named:
        rules[rule.name] = span


def all_faults(declared, lines, end):
    """All faults of the text of these lines, and the text: `end` is a second mark and what follows it, or empty."""
    faults, states, rules, at = Faults(), {"INITIAL": [0, 0]}, {}, 0
    for line in declared:
        declare(faults, states, line, at)
        at += len(line) + 1
    at += len("%%\n")
    for line in lines:
        text = line.text() if isinstance(line, Rule) else line
        if isinstance(line, Rule):
            add_rule(faults, states, rules, line, at)
        elif line.startswith(" "):
            faults.told.append({"kind": "VerbatimNotSupported", "spans": [[at, at + len(line)]]})
        else:
            faults.fatal("MissingSpace", at)
        at += len(text) + 1
    if end.strip("%"):
        faults.fatal("RoutinesNotSupported", at)
    texts = [line.text() if isinstance(line, Rule) else line for line in lines]
    return faults.told, "\n".join([*declared, "%%", *texts, end])


def random_declaration(chance):
    """A declaration, of which one in some is wrong."""
    if chance.random() < 0.2:
        return chance.choice(["%y A", "word", "%s", "%"])
    return " ".join(["%s"] + [chance.choice([*STATES, *STATES, "1a"]) for _ in range(chance.randrange(1, 4))])


def random_line(chance):
    """A line between the rules: a rule, verbatim code, or a word."""
    if chance.random() < 0.2:
        return chance.choice([" code", "word"])
    state = chance.choice(["", "", *STATES])
    target = chance.choice(["", "", "", *STATES])
    name = chance.choice([f"'{name}'" for name in NAMES] + [";", "bad"])
    return Rule(state, chance.choice("xyz(["), target, name)


def random_case(seed):
    """All faults of a random rule text, and the text."""
    chance = random.Random(seed)
    declared = [random_declaration(chance) for _ in range(chance.randrange(4))]
    lines = [random_line(chance) for _ in range(chance.randrange(12))]
    return all_faults(declared, lines, chance.choice(["", "", "%%", "%%more"]))
