"""How much was tried, and what differs."""

from collections import Counter


def shortened(value):
    """The value as it is printed, shortened where it is long."""
    text = repr(value)
    return text if len(text) <= 1500 else text[:1500] + ".."


class Tally:
    """How much was tried so far, and a line for each comparison that failed."""

    def __init__(self):
        self.counts, self.differences, self.at = Counter(), [], None

    def add(self, name, more=1):
        """Adds to a count."""
        self.counts[name] += more

    def law(self, law, holds, why=""):
        """Counts a comparison, and notes it where the law doesn't hold."""
        self.counts["compared"] += 1
        if not holds:
            self.counts["differ"] += 1
            self.differences.append(f"{law} (at {self.at}){why}")

    def same(self, law, want, got):
        """Compares what came with what must come."""
        self.law(law, want == got, "" if want == got else f": expected {shortened(want)}, got {shortened(got)}")


# The lines that say how much was tried.
SUMMARY = """\
cases: {cases}
rule texts: {accepted} accepted, {refused} refused with {faults} faults
rules: {rules}, in {tables} tables of {rows} rows
rules without a table: {untabled}, with a small budget {untabled_mixed}
rules that never win: {never}, with a small budget {never_mixed}; rules that won a text: {won}
runs: {runs}, of {tiles} tiles, {lexemes} lexemes, {errors} errors
places where tables and asking were compared: {places}
edits of documents: {edits}, and {unfit} that don't fit
tiles after edits: {tiles_after}, of which {tiles_recut} were cut anew
lines and columns counted by hand: {counted}
maps of token ids: {maps}, with {lacking} names that no rule has, without {unused} that one has
cases that both compilers' programs were given: {both}
{compared} comparisons: {differ} differ"""


def summary(counts):
    """How much was tried, and how much differs."""
    return SUMMARY.format_map(counts)
