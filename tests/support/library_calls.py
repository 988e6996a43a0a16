"""Calls of the library that ask for memory, as cases with steps, and all that has to come of them.

ANY is what isn't worked out by hand.
"""

from unittest.mock import ANY

from support.places import said_of_span

# A state that is pushed and popped, and a rule that has no table, since it looks at what follows.
RULES = """%x TEXT
%%
[a-z]+ 'NAME'
[0-9]+$ 'LAST'
[0-9]+ 'NUMBER'
" <+TEXT>;
<TEXT>[^"]+ 'PART'
<TEXT>" <-TEXT>;
[^a-z0-9"]+ ;"""

STATES = [[0, "INITIAL", False, [0, 0]], [1, "TEXT", True, [3, 7]]]

# The rules of it: name and the name's place, pattern, start states and target. Their ids are their places.
FACTS = [
    ("NAME", [19, 23], "[a-z]+", [], None),
    ("LAST", [34, 38], "[0-9]+$", [], None),
    ("NUMBER", [48, 54], "[0-9]+", [], None),
    (None, [58, 58], '"', [], [1, "Push"]),
    ("PART", [80, 84], '[^"]+', [1], None),
    (None, [94, 94], '"', [1], [1, "Pop"]),
    (None, [115, 115], '[^a-z0-9"]+', [], None),
]

# Ids of names, of which no rule has the last, and the ids that the rules have after that.
IDS = {"NAME": 7, "NUMBER": 9, "PART": 8, "MORE": 4}

OWN_IDS = [7, None, 9, 3, 8, 5, 6]


def rule(token, facts):
    """The rule with this id."""
    name, span, pattern, states, target = facts
    return {"tok_id": token, "name": name, "name_span": span, "re_str": pattern, "start_states": states, "target": target}


def rules(tokens=range(7)):
    """The rules with these ids."""
    return [rule(token, facts) for token, facts in zip(tokens, FACTS)]


class Lexed:
    """A text, and what lexing it by the rules gives: lexemes by id, start and end; tiles by rule, start and end.

    `deep` are the first of the boundaries at which TEXT is on top, and the first after them; `lines` are what the engine writes.
    """

    def __init__(self, text, lexemes, tiles, deep, lines):
        self.text, self.lexemes, self.tiles, self.deep, self.lines = text, lexemes, tiles, deep, lines

    def items(self):
        """The items, as they are answered."""
        return [["lex", token, start, end - start] for token, start, end in self.lexemes]

    def pieces(self):
        """The pieces."""
        return [[rule, start, end - start, FACTS[rule][0]] for rule, start, end in self.tiles]

    def boundaries(self):
        """The boundaries with their stacks."""
        places = [0] + [end for _, _, end in self.tiles]
        first, after = self.deep
        return [[place, [[1, 0]] + ([[1, 1]] if first <= at < after else [])] for at, place in enumerate(places)]

    def run(self, recut, searches):
        """The lines of a run that recut so many tiles and took so many searches."""
        return [
            ("run", [len(self.tiles), len(self.lexemes), 2, 1, recut, searches]),
            ("items", self.items()),
            ("boundaries", self.boundaries()),
            ("ahead", ANY),
            ("pieces", self.pieces()),
        ]

    def document(self):
        """The lines of a document."""
        return [
            ("document", [len(self.tiles), ANY, ANY]),
            ("changed", ANY),
            ("text", self.text),
            ("items", self.items()),
            ("boundaries", self.boundaries()),
            ("pieces", self.pieces()),
        ]

    def lexer(self):
        """The lines of a lexer that is asked for its items alone."""
        data = self.text.encode()
        return [("items", self.items())] + [("told", said_of_span(data, start, end)) for _, start, end in self.lexemes]


OLD = Lexed(
    'ab 12 "x y" 34\n',
    [(0, 0, 2), (2, 3, 5), (4, 7, 10), (1, 12, 14)],
    [
        (0, 0, 2), (6, 2, 3), (2, 3, 5), (6, 5, 6), (3, 6, 7), (4, 7, 10), (5, 10, 11), (6, 11, 12), (1, 12, 14), (6, 14, 15),
    ],
    (5, 7),
    "NAME ab\nNUMBER 12\nPART x y\nLAST 34\n",
)

# This replaces bytes 3..5 of the old text.
PUT = "cd\n5"

NEW = Lexed(
    'ab cd\n5 "x y" 34\n',
    [(0, 0, 2), (0, 3, 5), (2, 6, 7), (4, 9, 12), (1, 14, 16)],
    [
        (0, 0, 2), (6, 2, 3), (0, 3, 5), (6, 5, 6), (2, 6, 7), (6, 7, 8), (3, 8, 9), (4, 9, 12), (5, 12, 13), (6, 13, 14),
        (1, 14, 16), (6, 16, 17),
    ],
    (7, 9),
    "NAME ab\nNAME cd\nNUMBER 5\nPART x y\nLAST 34\n",
)

# A rule text with faults: its last line is after all that can be read.
FAULTY = "%s AA\n%s AA\n%%\na 'Y'\nb 'Y'\n( 'OPEN'\n"

FAULTS = [
    {"kind": "DuplicateStartState", "spans": [[3, 5], [9, 11]]},
    {"kind": "DuplicateName", "spans": [[18, 19], [24, 25]]},
    {"kind": "RegexError", "spans": [[27, 27]]},
]

# What follows it, with the faults of that.
REST = "c 'Y'\n) 'Z'\n"

REST_FAULTS = [
    {"kind": "DuplicateName", "spans": [[18, 19], [39, 40]]},
    {"kind": "RegexError", "spans": [[42, 42]]},
]

# The report of the first faults.
REPORT = (
    "1:4: Start state already exists, again at 2:4\n4:4: Rule name already exists, again at 5:4\n6:1: Invalid regular expression\n"
)

# So many `a` that walks which look for a `b` in vain are kept in mind.
MANY = 400


class Call:
    """Calls of the library: what they are, the case that makes them, and for each step its lines."""

    def __init__(self, name, made, steps, answers, before=()):
        self.name = name
        self.case = {"id": name, "flags": {}, **made, "steps": steps}
        self.lines = [("case", name), *before]
        for step, lines in zip(steps, answers):
            self.lines += [("step", step[0]), *lines]


def definition(without_table, tokens=range(7)):
    """The lines of the definition, where so many rules have no table, and the rules these ids."""
    return [("tables", [ANY, ANY, without_table]), ("states", STATES), ("rules", rules(tokens)), ("default_flags", True)]


def engine(outcome, lines):
    """The line of a call of the engine, which wrote these lines."""
    return [("engine", [outcome, list(lines.encode()), ANY, 0])]


def by_id(token, name):
    """The line of a look-up by id."""
    return ("by_id", [token, rules()[token] if token < 7 else None, name])


def by_name(name, place):
    """The line of a look-up by name."""
    return ("by_name", [name, None if place is None else rules()[place]])


TEXT = {"rules": RULES}

PARTS = {"from_rules": {"states": STATES, "rules": rules()}}

REFUSED = {"from_rules": {"states": STATES, "rules": rules()[:2] + [rule(2, ("X", [0, 0], "(", [], None))]}}

IN_VAIN = {"rules": "%%\na 'A'\na*b 'B'\n"}

FOUND = [by_id(1, "LAST"), by_id(3, None), by_id(7, None), by_name("PART", 4), by_name("MORE", None)]

NONE = {"rules": "%%\n"}

# A writer that takes all and never fails.
PAGE = [1_000, 0, "never"]

DEFINITION, LEX_OLD = ["definition"], ["run", OLD.text, []]

CALLS = [
    Call(
        "new_with_options, look-ups", TEXT, [DEFINITION, ["find", [1, 3, 7], ["PART", "MORE"]]],
        [definition(1), FOUND],
    ),
    # in either case of letters
    Call(
        "new_with_options with a flag", {**TEXT, "flags": {"case_insensitive": True}}, [["run", 'AB 12 "X Y" 34\n', []]],
        [OLD.run(10, 8)],
    ),
    Call("new_with_options of faults", {"rules": FAULTY}, [], [], [("faults", FAULTS)]),
    Call(
        "all_faults", NONE, [["all_faults", {"rules": FAULTY + REST, "flags": {}, "storage": "u32"}]],
        [[("faults", FAULTS + REST_FAULTS)]],
    ),
    Call("new_with_budget", {**TEXT, "budget": [0, 0]}, [DEFINITION], [definition(7)]),
    Call("with_budget", {**TEXT, "budget": [0, 0], "again": [7_000, 1_000_000]}, [DEFINITION], [definition(1)]),
    Call("Rule::new, StartState::new, from_rules", PARTS, [DEFINITION, LEX_OLD], [definition(1), OLD.run(10, 8)]),
    Call("Rule::new, refused", REFUSED, [], [], [("rule_refused", 2)]),
    Call(
        "set_rule_ids", TEXT, [DEFINITION, ["ids", IDS, False], DEFINITION],
        [definition(1), [("ids", [["MORE"], ["LAST"]])], definition(1, OWN_IDS)],
    ),
    Call(
        "set_rule_ids_spanned", TEXT, [DEFINITION, ["ids", IDS, True], DEFINITION],
        [definition(1), [("ids", [["MORE"], [["LAST", [34, 38]]]])], definition(1, OWN_IDS)],
    ),
    Call(
        "run, relex, pieces", TEXT, [["run", OLD.text, [[3, 5, PUT]]]],
        [OLD.run(10, 8) + NEW.run(ANY, ANY)],
    ),
    Call(
        "run, far past a tile's end in vain", IN_VAIN, [["run", "a" * MANY, []]],
        [[
            ("run", [MANY, MANY, 1, 1, MANY, 0]),
            ("items", [["lex", 0, at, 1] for at in range(MANY)]),
            ("boundaries", [[at, [[1, 0]]] for at in range(MANY + 1)]),
            ("ahead", ANY),
            ("pieces", [[0, at, 1, "A"] for at in range(MANY)]),
        ]],
    ),
    Call(
        "lexer, into_lexer", TEXT, [["lexer", NEW.text, False, [], []], ["lexer", NEW.text, True, [], []]],
        [NEW.lexer(), NEW.lexer()],
    ),
    Call(
        "pieces_in", TEXT, [["part", OLD.text, 4, 8]],
        [[("pieces", OLD.pieces()[2:6]), ("pieces", OLD.pieces()[2:6])]],
    ),
    # there and back again
    Call(
        "Document::new, edit, pieces", TEXT, [["document", OLD.text, [[3, 5, PUT], [3, 7, "12"]]]],
        [OLD.document() + [("edit", True)] + NEW.document() + [("edit", True)] + OLD.document()],
    ),
    Call(
        "engine::run", NONE, [["engine", RULES, OLD.text, PAGE]],
        [engine("Lexed", OLD.lines)],
    ),
    Call(
        "engine::run_edited", NONE, [["engine_edited", RULES, OLD.text, [3, 5, PUT], NEW.text, PAGE]],
        [engine("Lexed", NEW.lines)],
    ),
    Call(
        "engine::report", NONE, [["engine_report", FAULTY, PAGE]],
        [engine("Reported", REPORT)],
    ),
]
