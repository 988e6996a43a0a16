"""A lexer for Pygments from any rule file.

    pygmentize -x -l lrlex/pygments.py -O rules=c.l,types=c.types -f html FILE

`types` is a file with a line for each kind of token: a rule's name, in which * and ? stand for any text and any character, and
a type of Pygments, such as

    K*      Keyword
    STRING  String.Double
    ;       Comment

The first line that fits decides. `;` is for pieces of rules without a name; those that are blank are always Whitespace. A name
that fits no line is Text. Without `types`, the file beside the rule file with the ending .types is read.
"""

from __future__ import annotations

import fnmatch
import os
from typing import Iterator

from lrlex import Definition
from pygments.lexer import Lexer
from pygments.token import Error, Text, Whitespace, string_to_tokentype

__all__ = ["CustomLexer", "RulesLexer", "read_types"]

# After so many places at which no rule matches, the rest of the text is shown as one error.
MOST_ERRORS = 1000


def read_types(path: str) -> list[tuple[str, object]]:
    """The lines of a file of types: a name and a type each."""
    with open(path, encoding="utf-8") as file:
        lines = [line.split() for line in file if line.strip() and not line.startswith("#")]
    return [(name, string_to_tokentype(kind)) for name, kind in lines]


class RulesLexer(Lexer):
    """Colours a text by a rule file."""

    name = "lrlex"
    aliases = ["lrlex"]
    url = ""

    def __init__(self, **options: object) -> None:
        """`rules` is the path of a rule file, and `types` that of a file of types."""
        super().__init__(**options)
        path = str(options["rules"])
        types = str(options.get("types") or f"{os.path.splitext(path)[0]}.types")
        with open(path, encoding="utf-8", newline="") as file:
            self.definition = Definition.from_str(file.read())
        self.types = read_types(types)
        self.known: dict[str, object] = {}

    def type_of(self, name: str) -> object:
        """The type of tokens of this name."""
        if name not in self.known:
            self.known[name] = next((kind for form, kind in self.types if fnmatch.fnmatchcase(name, form)), Text)
        return self.known[name]

    def get_tokens_unprocessed(self, text: str) -> Iterator[tuple[int, object, str]]:
        """Start, type and text of each piece."""
        at = 0
        for _ in range(MOST_ERRORS):
            pieces, error = self.definition.pieces(text[at:])
            for piece in pieces:
                blank = piece.name is None and piece.text.isspace()
                yield at + piece.start, Whitespace if blank else self.type_of(piece.name or ";"), piece.text
            if not error:
                return
            at += error.start
            yield at, Error, text[at]
            at += 1
        if at < len(text):
            yield at, Error, text[at:]


# The name that `pygmentize -x` looks for.
CustomLexer = RulesLexer
