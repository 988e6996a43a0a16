"""Runs of ./lrlex, as they are at the top of the repository. Their outputs are tests/cli/NAME.out and tests/cli/NAME.err."""

from typing import NamedTuple

from support import programs
from support.programs import Outcome

TOKENS = "examples/tokens.l examples/tokens.txt"


class Row(NamedTuple):
    """A run: its stored outputs, its status, its words, the file that is its standard input, and whether memory is refused to it."""

    name: str
    status: int
    words: str
    stdin: str = ""
    is_refused: bool = True

    def given(self):
        """The text of standard input."""
        return programs.read(self.stdin) if self.stdin else ""

    def wanted(self):
        """What must come of it."""
        out, err = (programs.read(f"tests/cli/{self.name}.{kind}") for kind in ("out", "err"))
        return Outcome(out, err, self.status)


ROWS = [
    Row("tokens", 0, TOKENS),
    Row("tokens", 0, "", "tests/cli/tokens.in"),
    Row("nested", 0, "--allow-wholeline-comments true tests/cli/nested.l tests/cli/nested.in"),
    Row("edited", 0, f"--from 0 --to 3 --put xyz {TOKENS}"),
    Row("bad_edit", 1, f"--from 2 --to 1 --put x {TOKENS}"),
    Row("stop", 1, "tests/cli/stop.l tests/cli/stop.in"),
    Row("faults", 1, "examples/faults.l examples/tokens.txt"),
    Row("tokens", 0, f"--size-limit 100000000 --dfa-size-limit 100000000 {TOKENS}"),
    Row("too_large", 1, f"--size-limit 10 {TOKENS}"),
    Row("missing", 1, "examples/tokens.l missing.txt"),
    # the example of docs/rules.md, whose tables take thousands of requests for memory
    Row("rules_example", 0, "rules/example.l tests/cli/rules_example.in", is_refused=False),
    # words that are refused share their outputs
    Row("usage", 1, f"--nonsense {TOKENS}"),
    Row("usage", 1, "-"),
    Row("usage", 1, "--help"),
    Row("usage", 1, "- - -"),
    Row("usage", 1, "--octal yes - -"),
    Row("usage", 1, "--octal - -"),
    Row("usage", 1, "--nest-limit 4294967296 - -"),
    Row("usage", 1, "--bad - -"),
    Row("usage", 1, "--octal true --octal true - -"),
    Row("usage", 1, "--from 0 --to 0 - -"),
    Row("usage", 1, "--put x - -"),
    Row("usage", 1, "--from 0 --to x --put x - -"),
]
