"""How the definition of a case is made, and what a row calls it."""

WORK = 80_000_000


class Definition:
    """The members of a case that make its definition, and its name in a row."""

    def __init__(self, name, **members):
        self.name = name
        self.members = {"flags": {}, **members}

    def case(self, *steps):
        """The case that makes this definition, and then these steps."""
        return {**self.members, "steps": [list(step) for step in steps]}


def from_text(rules):
    """Made of this rule text."""
    return Definition(rules, rules=rules)


def new_with_budget(rules, rows, work):
    """Made of this rule text by `new_with_budget`."""
    return Definition(rules, rules=rules, budget=[rows, work])


def with_budget(rules, rows, work):
    """Made of this rule text, and then again by `with_budget`."""
    return Definition(rules, rules=rules, again=[rows, work])


def from_rules(rules, initial):
    """Made of these rules by `from_rules`, with an inclusive state 0 or without any."""
    states = [[0, "INITIAL", False, [0, 0]]] if initial else []
    return Definition("from rules", from_rules={"states": states, "rules": rules})


def rule(token, name, place, length, pattern, target=None):
    """A rule that lists no start states, with the place of its name."""
    return {
        "tok_id": token,
        "name": name,
        "name_span": [place, place + length],
        "re_str": pattern,
        "start_states": [],
        "target": target,
    }
