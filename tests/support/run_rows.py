"""Rows on runs: how a definition is made, a text, its edits, and what the run after the last of them must be."""

from support import replay
from support.formatting import format_boundaries, format_items, format_lookahead, names_of

# Runs of more tiles answer counts alone.
MOST_TILES = 1_000


class Row:
    """How a definition is made, a text, its edits, and what must come of them, each by its name in `facts_of`."""

    def __init__(self, definition, text, edits=(), **wanted):
        self.definition, self.text, self.edits, self.wanted = definition, text, list(edits), wanted

    def case(self):
        """The case of this row."""
        return self.definition.case(["definition"], ["run", self.text, self.edits])

    def label(self):
        """What tells the row from the others."""
        text = self.text if len(self.text) < 100 else f"{self.text[:20]}.. ({len(self.text)} characters)"
        return {"definition": self.definition.name, "made": made_by(self.definition), "text": text, "edits": self.edits}


def made_by(definition):
    """The budgets that the definition is made with."""
    return {key: value for key, value in definition.members.items() if key in ("budget", "again")}


def facts_of(answers):
    """What is answered of the row's definition and of its last run, each by its name in a row.

    `at_most` is the most searches that a run may take; here it is how many there were.
    """
    tables, table_rows, without_table = answers.last("tables")
    tiles, count, peak, last, recut, searches = answers.last("run")
    facts = {"tables": tables, "table_rows": table_rows, "without_table": without_table}
    facts.update(tiles=tiles, count=count, peak=peak, last=last, recut=recut, searches=searches, at_most=searches)
    if tiles < MOST_TILES:
        names = names_of(answers.last("rules"))
        facts["items"] = format_items(answers.last("items"), names)
        facts["boundaries"] = format_boundaries(answers.last("boundaries"))
        facts["lookahead"] = format_lookahead(answers.last("ahead"))
    return facts


def check_row(test, row, answers):
    """Checks what came of a row."""
    test.assertEqual(len(answers.values("run")), len(row.edits) + 1, "runs")
    facts = facts_of(answers)
    for name, wanted in row.wanted.items():
        if name == "at_most":
            test.assertLessEqual(facts[name], wanted, name)
        else:
            test.assertEqual(facts[name], wanted, name)


def check_rows(test, rows):
    """Checks all these rows, by one run of the program."""
    for row, answers in zip(rows, replay.answers([row.case() for row in rows]), strict=True):
        with test.subTest(**row.label()):
            check_row(test, row, answers)
