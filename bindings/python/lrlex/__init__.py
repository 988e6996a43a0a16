"""Lexers from rule files (.l), by a library whose every call is proved.

    import lrlex

    definition = lrlex.Definition.from_str("%%\\n[0-9]+ 'INT'\\n[a-z]+ 'ID'\\n[ ] ;")
    for token in definition.lex("abc 123"):
        print(token.name, token.text)

A rule text with faults raises RulesError; a text that no rule matches raises LexError, after the tokens before that place. `check` gives
all faults of a rule text, or warnings of what is legal in it and hardly meant.
A Document keeps a text through edits, and lexes again only what each changes. A Scanner gives the tiles of a text as they are asked
for. Offsets are indices of the `str`.

A Definition, a Document and a Scanner may be used from any thread; calls of one of them wait for each other. They are freed once nothing
refers to them, or by close() and at the end of a `with` statement.
"""

from ._c import VERSION as __version__
from ._c import Error, FaultKind, SharedError
from ._checking import Finding, check, check_report
from ._lexing import Definition, Document, Entered, Fault, LexError, Piece, Place, RulesError, Scanner, Tile, Token, places

__all__ = [
    "Definition", "Document", "Entered", "Error", "Fault", "FaultKind", "Finding", "LexError", "Piece", "Place", "RulesError", "Scanner",
    "SharedError", "Tile", "Token", "__version__", "check", "check_report", "places",
]
