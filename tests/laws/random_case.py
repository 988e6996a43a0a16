"""A random case of the laws: a rule text, texts, edits and a map of ids, and the steps that ask what comes of them."""

from laws.chance import Chance
from laws.generate import UNKNOWN, any_ids, edits, rule_text, text, with_mistake
from support.definitions import Definition

# How many mistakes are made in each rule text, by themselves.
MISTAKES = 4

# Each rule text is read twice in the cases with numbers below this. What reading gives is a function of the text and the flags by
# its contract, so that a few cases show what is compiled.
TWICE = 250

# How many characters a text has at the most that is lexed from each of its places on.
SHORT = 20

# How the definitions are made that find winners in different ways: by `regex` alone; by tables, as far as the usual budget goes;
# and by tables that are made later, as far as a small budget goes.
WAYS = {
    "regex": {"budget": [0, 0]},
    "tabled": {},
    "mixed": {"budget": [0, 0], "again": [20, 1_000_000]},
}

# Ids that are looked for; no rule has the last ones.
IDS = list(range(12))


def any_way(chance):
    """One of the ways, mostly that by the usual tables."""
    return {0: "regex", 1: "mixed"}.get(chance.below(6), "tabled")


def any_span(chance, most):
    """Two numbers below this."""
    return [chance.below(most), chance.below(most)]


def tails_of(text):
    """The text from each of its characters on, each with the byte at which that begins."""
    tails, at = [], 0
    for number, c in enumerate(text):
        tails.append((at, text[number:]))
        at += len(c.encode())
    return tails


class Steps:
    """The steps of one definition, each under a name by which its lines are found."""

    def __init__(self, rules, way):
        self.rules, self.way, self.names, self.steps = rules, way, [], []

    def ask(self, name, *step):
        """Adds a step."""
        self.names.append(name)
        self.steps.append(list(step))

    def case(self):
        """The case of these steps."""
        return Definition(self.way, rules=self.rules.text, flags=self.rules.flags, **WAYS[self.way]).case(*self.steps)

    def answers(self, lines):
        """The lines of each step by its name. Those before the first step, as faults, are under None."""
        parts = [[]]
        for line in lines:
            if line.startswith(b"step "):
                parts.append([])
            else:
                parts[-1].append(line)
        if len(parts) not in (1, len(self.names) + 1):
            raise AssertionError(f"{len(parts) - 1} of {len(self.names)} steps were made")
        return dict(zip([None, *self.names], parts))


def definition_of(rules, way):
    """Asks what the definition of a rule text is."""
    asked = Steps(rules, way)
    asked.ask("definition", "definition")
    return asked


def reading(rules, text, looked_for):
    """Asks what a rule text gives, a run of a text, and look-ups."""
    asked = definition_of(rules, "regex")
    asked.ask("run", "run", text, [])
    asked.ask("find", "find", IDS, looked_for)
    return asked


class Reading:
    """What a rule text gives with a run of a text, and perhaps what it gives again."""

    def __init__(self, first, text, twice):
        self.first, self.text = first, text
        self.again = definition_of(first.rules, "regex") if twice else None

    def asked(self):
        """Its steps, once or twice."""
        return [self.first, self.again] if self.again else [self.first]


class RandomCase:
    """The random case with this number, of this seed, with so many edits of a document."""

    def __init__(self, seed, number, edit_count):
        chance = Chance(seed, number)
        self.seed, self.number = seed, number
        self.rules = rule_text(chance)
        self.read_text = text(chance, 40)
        self.short = text(chance, 40)[:SHORT]
        self.run_way = any_way(chance)
        self.run_text = text(chance, 100)
        self.ids = any_ids(chance, self.rules.names)
        self.edit_way = any_way(chance)
        self.edit_text = text(chance, chance.below(180) + 20)
        self.edits = edits(chance, self.edit_text, edit_count)
        self.mistakes = [(with_mistake(chance, self.rules), text(chance, 40)) for _ in range(MISTAKES)]
        self.choose(chance)
        self.ask()

    def choose(self, chance):
        """Which spans, bytes and parts are asked for, and by which calls."""
        most = len(self.run_text.encode()) + 4
        self.spans = [any_span(chance, most) for _ in range(3)]
        self.bytes = any_span(chance, most)
        self.part = any_span(chance, most)
        self.of_run = chance.one_in(2)
        self.spanned = chance.one_in(2)

    def ask(self):
        """Makes the steps of each definition."""
        looked_for = [name for name in self.rules.names if name is not None] + UNKNOWN
        self.ways = {way: definition_of(self.rules, way) for way in ["tabled", "mixed"]}
        self.ways["regex"] = reading(self.rules, self.read_text, looked_for)
        for asked in self.ways.values():
            asked.ask("may_win", "may_win")
            self.ask_places(asked)
        self.ask_run(self.ways[self.run_way])
        self.ask_edits(self.ways[self.edit_way])
        self.ask_mapping(self.ways["regex"])
        twice = self.number < TWICE
        self.readings = [Reading(self.ways["regex"], self.read_text, twice)]
        for rules, read_text in self.mistakes:
            first = reading(rules, read_text, ["R0", "R1", "ALL", ""])
            self.readings.append(Reading(first, read_text, twice))

    def ask_places(self, asked):
        """Asks for a run from each place of the short text on, and for the tiles that a scanner gives."""
        for place, tail in tails_of(self.short):
            asked.ask(("from", place), "run", tail, [])
            asked.ask(("scanned from", place), "scan", tail)

    def ask_run(self, asked):
        """Asks for a run, a lexer and a part of a text."""
        asked.ask("one run", "run", self.run_text, [])
        asked.ask("lexer", "lexer", self.run_text, self.of_run, self.spans, self.bytes)
        asked.ask("part", "part", self.run_text, *self.part)

    def ask_edits(self, asked):
        """Asks for a document and runs through the edits, and for a run of each of the texts after them."""
        asked.ask("document", "document", self.edit_text, [edit.as_list() for edit in self.edits])
        fitting = [edit.as_list()[:3] for edit in self.edits if edit.fits]
        asked.ask("edited runs", "run", self.edit_text, fitting)
        asked.ask(("recomputed", None), "run", self.edit_text, [])
        for number, edit in enumerate(self.edits):
            if edit.fits:
                asked.ask(("recomputed", number), "run", edit.after.decode(), [])

    def ask_mapping(self, asked):
        """Sets the ids of the map, and asks for the definition, a run and look-ups once more."""
        asked.ask("ids", "ids", self.ids, self.spanned)
        asked.ask("mapped definition", "definition")
        asked.ask("mapped run", "run", self.run_text, [])
        asked.ask("mapped scan", "scan", self.run_text)
        asked.ask("mapped find", "find", IDS, [])

    def asked(self):
        """All steps, of each definition by itself."""
        readings = [asked for reading in self.readings for asked in reading.asked()]
        return readings + [self.ways["tabled"], self.ways["mixed"]]
