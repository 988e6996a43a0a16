"""./rolgumzai: what each command prints, its messages and its statuses, as both compilers build the program.

Expected texts are written by hand; tokens and winners are those of the replayed cases.
"""

import contextlib
import html
import html.entities
import json
import os
import random
import re
import shlex
import subprocess
import tempfile
import unittest

from support import programs, replay
from support.messages import (
    ACTION, BACKSLASH, BAR, BARE, BEFORE_RULES, BLANK, CARET, CLASS, CLASS_NAME, CODE, COMMENT, DEFINITION, DOT, IN_PATTERN, KINDS, LIST,
    LOOKS, LOST, MARGIN, NAME_IN_PATTERN, NEVER_ENTERED, NEVER_WINS, NO_MARK, NO_RULES, NO_TABLE, OPERATOR, OPTION, QUOTED, QUOTES,
    SHORTER, WORD,
)
from support.programs import Outcome

PROGRAM = "rolgumzai"

# Files in the folder of each row.
FILES = {
    "tokens.l": "%%\nif 'IF'\n[a-z]+ 'ID'\n[0-9]+ 'INT'\n\"[^\"]*\" 'STRING'\n[ \\n]+ ;\n",
    "states.l": "%x COMMENT TEXT\n%%\n"
    "/\\* <+COMMENT>;\n<COMMENT>/\\* <+COMMENT>;\n<COMMENT>\\*/ <-COMMENT>;\n<COMMENT>[^*/]+|[*/] ;\n"
    "' <+TEXT>;\n<TEXT>' <-TEXT>;\n<TEXT>[^']+ 'INSIDE'\n[a-z]+ 'ID'\n[ \\n]+ ;\n",
    "bad.l": "%%\na 'A'\nb 'A'\n( 'B'\n",
    "other.l": "%s k k\n%%\n",
    "three.l": "%%\n( 'A'\n) 'B'\n[a-z] C\n",
    "comments.l": "// c\n%%\na 'A'\n",
    "first.l": "%%\n<= 'LE'\na\\ 'A'\n// a comment\n  b 'B'\n[a-z]+ ID\n",
    "guesses.l": "%%\n[0-9]+x 'IN_TEXT'\n[0-9]+y 'string'\n[0-9]+z|comment 'COMMENT'\nfi 'Kfi'\n[0-9]+ 'INT'\n'[^']*' 'QUOTED'\n"
    "[+] 'PLUS'\n[a-z_]+ 'ID'\n#[^\\n]* ;\n[ \\n]+ ;\n",
    "empty": "",
    "latin": b"ab\n\xe9t\xe9",
    "input": "if ifs\n 12 \"a❤\t\"",
    "stop": "ab @",
    "open": "a /* b /* c */\nd",
    "quoted": "'x' 'y",
    "folder/input": "ab",
    "warned.l": "%x S\n%%\n[a-z]+ 'ID'\nif 'IF'\n",
    "bars.l": f"%%\n{'a|' * 2047}aa 'A'\n{'c|' * 2047}cdd 'C'\n",
    "initial.l": "%s INITIAL\n%%\né 'A'\nb 'A'\n",
    "long.l": f"%x S\n%%\n{'é' * 80} 'A'\n{'é' * 79}[b]\t<+S>'B'\na|\x1b  ;\n",
    "returns.l": "%%\r[a-z]+ 'ID'\x0b[0-9]+ 'INT'\u2028= '='\u2029== '=='\r\n",
    "ends.l": "%%\n\\r 'CR'\n\\n 'LF'\n",
}

LINES = (
    '1:1 0..2 IF "if"\n'
    '1:4 3..6 ID "ifs"\n'
    '2:2 8..10 INT "12"\n'
    '2:5 11..18 STRING "\\"a❤\\t\\""\n'
)

STOP = "stop:1:4: unexpected character '@'\n1 | ab @\n  |    ^\n"
BAD = (
    "bad.l:3:4: Rule name already exists\n3 | b 'A'\n  |    ^\n"
    "bad.l:2:4: first here\n2 | a 'A'\n  |    ^\n"
    f"bad.l:4:1: Invalid regular expression: unclosed group: {OPERATOR}\n4 | ( 'B'\n  | ^\n"
)
FIRST = (
    f"first.l:2:1: Invalid start state: {LIST}\n2 | <= 'LE'\n  | ^\n"
    f"first.l:3:1: Invalid regular expression: unclosed group: {BACKSLASH}\n3 | a\\ 'A'\n  | ^\n"
    f"first.l:4:6: Invalid rule name: {COMMENT}\n4 | // a comment\n  |      ^\n"
    f"first.l:5:1: Verbatim code not supported: {MARGIN}\n5 |   b 'B'\n  | ^^^^^^^\n"
    f"first.l:6:8: Invalid rule name: {QUOTES}\n6 | [a-z]+ ID\n  |        ^\n"
)
THREE = (
    f"three.l:2:1: Invalid regular expression: unclosed group: {OPERATOR}\n2 | ( 'A'\n  | ^\n"
    f"three.l:3:1: Invalid regular expression: unopened group: {OPERATOR}\n3 | ) 'B'\n  | ^\n"
    f"three.l:4:7: Invalid rule name: {QUOTES}\n4 | [a-z] C\n  |       ^\n"
)
# A file of flex, and what is shown of it.
FLEX = "%option noyywrap\n%{\n#include <stdio.h>\n%}\nDIGIT [0-9]\n%%\n{DIGIT}+ { return INT; }\n[ \\t] |\n\\n ;\n"
FLEX_TOLD = (
    f"stdin:1:1: Unknown declaration: {OPTION}\n1 | %option noyywrap\n  | ^\n"
    f"stdin:2:1: Unknown declaration: {CODE}\n2 | %{{\n  | ^\n"
    f"stdin:3:1: Unknown declaration: {BEFORE_RULES}\n3 | #include <stdio.h>\n  | ^\n"
    f"stdin:4:1: Unknown declaration: {CODE}\n4 | %}}\n  | ^\n"
    f"stdin:5:1: Unknown declaration: {DEFINITION}\n5 | DIGIT [0-9]\n  | ^\n"
    f"stdin:7:24: Invalid rule name: {ACTION}\n7 | {{DIGIT}}+ {{ return INT; }}\n  | {' ' * 23}^\n"
    f"stdin:8:7: Invalid rule name: {BAR}\n8 | [ \\t] |\n  |       ^\n"
)
OTHER = (
    "other.l:1:6: Start state already exists\n1 | %s k k\n  |      ^\n"
    "other.l:1:4: first here\n1 | %s k k\n  |    ^\n"
)
LATIN = "latin:2:1: not UTF-8, byte 0xE9 at offset 3\n2 | \n  | ^\n"
MISSING = "rolgumzai: none: No such file or directory (os error 2)\n"
FOLDER = "rolgumzai: folder: Is a directory (os error 21)\n"

# What names no place of `input`, which has 18 bytes, and lines of 6 and 9 characters.
NO_PLACE = "rolgumzai: input: there is no place {}; write a byte from 0 to 18, or LINE:COLUMN\n"
NO_PLACES = ["19", "x", "18446744073709551616", "1:8", "2:11", "3:1", "0:1", "1:0", "1:", ":1", "1:2:3", "1:x"]

TWICE = "rolgumzai: - is given twice, but standard input can be one file only\n"

NO_TYPE = "rolgumzai: --map {}: NAME=TOKENTYPE is wanted, with a type of the Language Server Protocol\n"

NO_KIND = "rolgumzai: --allow {}: no kind of warnings has this name\n"

# Words, standard input, and what comes of them.
ROWS = [
    ("tokens tokens.l input", "", Outcome(LINES)),
    ("tokens tokens.l -", "if 1", Outcome('1:1 0..2 IF "if"\n1:4 3..4 INT "1"\n')),
    ("tokens - input", FILES["tokens.l"], Outcome(LINES)),
    *((words, FILES["tokens.l"], Outcome("", TWICE, 2)) for words in ("tokens - -", "highlight - -", "explain - - 0", "check - -")),
    ("tokens tokens.l empty", "", Outcome()),
    ("tokens tokens.l stop", "", Outcome('1:1 0..2 ID "ab"\n', STOP, 1)),
    ("tokens --case-insensitive true tokens.l -", "IF", Outcome('1:1 0..2 IF "IF"\n')),
    # the dot matches no newline, and is lazy
    ("check --dot-matches-new-line false -", "%%\n#.* ;\n", Outcome()),
    ("check --swap-greed true -", "%%\n#.*e ;\n", Outcome()),
    # the blank after the start states does nothing
    ("check --ignore-whitespace true -", "%s S\n%%\na <+S>;\n<S> b 'B'\n", Outcome()),
    ("tokens bad.l input", "", Outcome("", BAD, 1)),
    ("tokens bad.l none", "", Outcome("", BAD, 1)),
    ("tokens tokens.l none", "", Outcome("", MISSING, 2)),
    ("tokens none input", "", Outcome("", MISSING, 2)),
    ("tokens tokens.l folder", "", Outcome("", FOLDER, 2)),
    ("tokens tokens.l latin", "", Outcome("", LATIN, 2)),
    ("tokens latin input", "", Outcome("", LATIN, 2)),
    ("tokens tokens.l -", b"a\xff", Outcome("", "stdin:1:2: not UTF-8, byte 0xFF at offset 1\n1 | a\n  |  ^\n", 2)),
    ("tokens tokens.l -", "a@", Outcome('1:1 0..1 ID "a"\n', "stdin:1:2: unexpected character '@'\n1 | a@\n  |  ^\n", 1)),
    (
        "tokens states.l open",
        "",
        Outcome(
            '1:1 0..1 ID "a"\n',
            "open:1:3: the text ends in start state COMMENT, which is entered here\n1 | a /* b /* c */\n  |   ^^\n",
        ),
    ),
    (
        "tokens states.l quoted",
        "",
        Outcome(
            '1:2 1..2 INSIDE "x"\n1:6 5..6 INSIDE "y"\n',
            "quoted:1:5: the text ends in start state TEXT, which is entered here\n1 | 'x' 'y\n  |     ^\n",
        ),
    ),
    ("check tokens.l states.l", "", Outcome()),
    ("check bad.l", "", Outcome(BAD, "", 1)),
    ("check tokens.l bad.l other.l", "", Outcome(BAD + OTHER, "", 1)),
    ("check bad.l none other.l", "", Outcome(BAD + OTHER, MISSING, 2)),
    (
        "check -",
        "a",
        Outcome(
            f"stdin:1:1: Unknown declaration: {BEFORE_RULES}\n1 | a\n  | ^\n"
            f"stdin:1:2: File ends prematurely: {NO_MARK}\n1 | a\n  |  ^\n",
            "",
            1,
        ),
    ),
    ("check empty", "", Outcome(f"empty:1:1: File ends prematurely: {NO_MARK}\n1 | \n  | ^\n", "", 1)),
    ("check three.l", "", Outcome(THREE, "", 1)),
    ("check latin folder", "", Outcome("", LATIN + FOLDER, 2)),
    ("check comments.l", "", Outcome(f"comments.l:1:1: Unknown declaration: {COMMENT}\n1 | // c\n  | ^\n", "", 1)),
    ("check first.l", "", Outcome(FIRST, "", 1)),
    ("check -", FLEX, Outcome(FLEX_TOLD, "", 1)),
    ("check --allow-wholeline-comments true comments.l", "", Outcome()),
    ("highlight tokens.l -", "if @", Outcome("\x1b[31mif\x1b[0m \x1b[41m@\x1b[0m", "", 1)),
    (
        "highlight --map ID=comment --map STRING= tokens.l input",
        "",
        Outcome('\x1b[31mif\x1b[0m \x1b[90mifs\x1b[0m\n \x1b[34m12\x1b[0m "a❤\t"'),
    ),
    (
        "highlight --map ID=class --map INT=method --map IF=variable tokens.l -",
        "if a 1",
        Outcome("\x1b[36mif\x1b[0m \x1b[33ma\x1b[0m \x1b[35m1\x1b[0m"),
    ),
    (
        "highlight guesses.l -",
        "1x 2y 3z comment fi 4 '5' + _a # 6",
        Outcome(
            "\x1b[32m1x\x1b[0m \x1b[32m2y\x1b[0m \x1b[90m3z\x1b[0m \x1b[31mcomment\x1b[0m \x1b[31mfi\x1b[0m \x1b[34m4\x1b[0m "
            "\x1b[32m'5'\x1b[0m + _a \x1b[90m# 6\x1b[0m"
        ),
    ),
    # control characters; ends of lines and tabs stay
    ("highlight tokens.l -", "if\x1b[2J\r\n", Outcome("\x1b[31mif\x1b[0m\x1b[41m\ufffd[2J\r\n\x1b[0m", "", 1)),
    ("highlight tokens.l -", '"a\r\n\tb\rc\x9b\r"', Outcome('\x1b[32m"a\r\n\tb\ufffdc\ufffd\ufffd"\x1b[0m')),
    ("highlight ends.l -", "\r\n\r\r\n\n\r", Outcome("\r\n\ufffd\r\n\n\ufffd")),
    # a name that has the sign
    ("highlight --map ===keyword --map ==string returns.l -", "===", Outcome("\x1b[31m==\x1b[0m\x1b[32m=\x1b[0m")),
    ("highlight tokens.l empty", "", Outcome()),
    ("highlight bad.l input", "", Outcome("", BAD, 1)),
    ("highlight tokens.l none", "", Outcome("", MISSING, 2)),
    ("highlight tokens.l latin", "", Outcome("", LATIN, 2)),
    ("highlight --map ID tokens.l input", "", Outcome("", "rolgumzai: --map ID: NAME=TOKENTYPE is wanted\n", 2)),
    ("highlight --map NO=class tokens.l input", "", Outcome("", "rolgumzai: --map NO=class: no rule has this name\n", 2)),
    (
        "highlight --map ID=Class tokens.l input",
        "",
        Outcome("", "rolgumzai: --map ID=Class: the Language Server Protocol has no such token type\n", 2),
    ),
    (
        "explain tokens.l input 1",
        "",
        Outcome(
            "input:1:1: IF of tokens.l:2 wins with 2 bytes: of the 2 rules that match as many, it is the first\n"
            "1 | if ifs\n  | ^^\n"
            "stack, from the bottom: INITIAL\n"
            "bytes  active rules\n"
            "    2* tokens.l:2: if 'IF'\n"
            "    2  tokens.l:3: [a-z]+ 'ID'\n"
            "    0  tokens.l:4: [0-9]+ 'INT'\n"
            "    0  tokens.l:5: \"[^\"]*\" 'STRING'\n"
            "    0  tokens.l:6: [ \\n]+ ;\n"
        ),
    ),
    (
        "explain tokens.l - 0",
        "1",
        Outcome(
            "stdin:1:1: INT of tokens.l:4 wins with 1 byte: no other rule matches\n"
            "1 | 1\n  | ^\n"
            "stack, from the bottom: INITIAL\n"
            "bytes  active rules\n"
            "    0  tokens.l:2: if 'IF'\n"
            "    0  tokens.l:3: [a-z]+ 'ID'\n"
            "    1* tokens.l:4: [0-9]+ 'INT'\n"
            "    0  tokens.l:5: \"[^\"]*\" 'STRING'\n"
            "    0  tokens.l:6: [ \\n]+ ;\n"
        ),
    ),
    (
        "explain states.l open 11",
        "",
        Outcome(
            "open:1:10: ; of states.l:6 wins with 3 bytes: no other rule matches\n"
            "1 | a /* b /* c */\n  |          ^^^\n"
            "stack, from the bottom: INITIAL COMMENT (2 times)\n"
            "bytes  active rules\n"
            "    0  states.l:4: <COMMENT>/\\* <+COMMENT>;\n"
            "    0  states.l:5: <COMMENT>\\*/ <-COMMENT>;\n"
            "    3* states.l:6: <COMMENT>[^*/]+|[*/] ;\n"
        ),
    ),
    (
        "explain tokens.l stop 3",
        "",
        Outcome(
            STOP + "stack, from the bottom: INITIAL\n"
            "bytes  active rules\n"
            "    0  tokens.l:2: if 'IF'\n"
            "    0  tokens.l:3: [a-z]+ 'ID'\n"
            "    0  tokens.l:4: [0-9]+ 'INT'\n"
            "    0  tokens.l:5: \"[^\"]*\" 'STRING'\n"
            "    0  tokens.l:6: [ \\n]+ ;\n",
            "",
            1,
        ),
    ),
    # each end of a line of a rule file; lines count by newlines alone
    (
        "explain returns.l - 0",
        "==",
        Outcome(
            "stdin:1:1: == of returns.l:1 wins with 2 bytes: no other rule matches as many\n"
            "1 | ==\n  | ^^\n"
            "stack, from the bottom: INITIAL\n"
            "bytes  active rules\n"
            "    0  returns.l:1: [a-z]+ 'ID'\n"
            "    0  returns.l:1: [0-9]+ 'INT'\n"
            "    1  returns.l:1: = '='\n"
            "    2* returns.l:1: == '=='\n"
        ),
    ),
    # 80 characters of a pattern, and no control characters
    (
        "explain long.l - 0",
        "a",
        Outcome(
            "stdin:1:1: ; of long.l:5 wins with 1 byte: no other rule matches\n"
            "1 | a\n  | ^\n"
            "stack, from the bottom: INITIAL\n"
            "bytes  active rules\n"
            f"    0  long.l:3: {'é' * 80} 'A'\n"
            f"    0  long.l:4: {'é' * 79}[...\t<+S>'B'\n"
            "    1* long.l:5: a|\ufffd  ;\n"
        ),
    ),
    *((f"explain tokens.l input {word}", "", Outcome("", NO_PLACE.format(word), 2)) for word in NO_PLACES),
    ("lsp --rules none", "", Outcome("", MISSING, 2)),
    ("lsp --rules -", FILES["tokens.l"], Outcome("", "rolgumzai: lsp: the rules can't come from standard input, which is the client's\n", 2)),
    ("lsp --rules latin", "", Outcome("", LATIN, 2)),
    ("lsp --map ID", "", Outcome("", NO_TYPE.format("ID"), 2)),
    ("lsp --map A=class --map ID=Class", "", Outcome("", NO_TYPE.format("ID=Class"), 2)),
    *((f"{words} --allow NoTable --allow {kind}", "", Outcome("", NO_KIND.format(kind), 2)) for words in ("check tokens.l", "lsp") for kind in ("notable", "Table")),
    ("lsp", "", Outcome("", "", 1)),
    ("lsp --rules bad.l --map ID=class --octal true --stdio", "", Outcome("", BAD, 1)),
    ("lsp --rules three.l", "", Outcome("", THREE, 1)),
    ("explain bad.l input 0", "", Outcome("", BAD, 1)),
    ("explain tokens.l none 0", "", Outcome("", MISSING, 2)),
]

# Rule texts, and their warnings: line, column, how many characters are underlined, and the message.
WARNED = [
    ("%%\nif 'IF'\n[a-z]+ 'ID'\n", []),
    ("%%\n[a-z]+ 'ID'\nif 'IF'\n", [(3, 1, 2, NEVER_WINS)]),
    ("%%\n[a-z]+ 'ID'\r\nif ;\r\n", [(3, 1, 2, NEVER_WINS)]),
    ("%%\n[a-z]+ 'ID'\nx* 'X'\n", [(3, 1, 2, NEVER_WINS)]),
    ("%s S\n%%\na <+S>;\n<S>a <-S>;\n", [(4, 1, 4, NEVER_WINS)]),
    ("%%\na$ 'A'\n[a-z]+ 'ID'\n", [(2, 1, 2, LOOKS)]),
    ("%%\na\\b 'A'\n", [(2, 1, 3, LOOKS)]),
    ("%%\n[ab]{3000} 'A'\n", [(2, 1, 10, NO_TABLE)]),
    ("%%\n[$]{3000} 'A'\n\\${3000} 'B'\n", [(2, 1, 9, NO_TABLE), (3, 1, 8, NO_TABLE)]),
    # one such rule has a table of 1,903 rows, and of eight the first three: half of 14,000 rows are for tables of one rule
    ("%%\n[a-z]{1900}0 'N0'\n", []),
    (
        "%%\n" + "".join(f"[a-z]{{1900}}{k} 'N{k}'\n" for k in range(8)),
        [(line, 1, 12, NO_TABLE) for line in range(5, 10)],
    ),
    # a class within a class, and `]` as the first character of one
    ("%%\n[[:alpha:]$]{3000} 'A'\n[]$]{3000} 'B'\n[^]$]{3000} 'C'\n", [(2, 1, 18, NO_TABLE), (3, 1, 10, NO_TABLE), (4, 1, 11, NO_TABLE)]),
    ("%%\n[^^]a$ 'A'\n[[b]]b$ 'B'\n", [(2, 1, 6, LOOKS), (3, 1, 7, LOOKS), (3, 1, 7, CLASS)]),
    # behind a `[` that ends a range, a hyphen that ends a class, and a class in a class
    ("%%\n[+-[]$ 'A'\n", [(2, 1, 6, LOOKS)]),
    ("%%\na[^#-[]$ 'A'\nb[-]$ 'B'\nc[+-]$ 'C'\nd[[:alpha:]_]$ 'D'\n", [(line, 1, len_, LOOKS) for line, len_ in [(2, 8), (3, 5), (4, 6), (5, 14)]]),
    ("%%\na[b-z&&[^c]]$ 'A'\n", [(2, 1, 13, LOOKS)]),
    ("%%\n[#-[$]{3000} 'A'\n[a-z$&&[$]]{3000} 'B'\n", [(2, 1, 12, NO_TABLE), (3, 1, 17, NO_TABLE)]),
    ("%%\na^b 'A'\n^a 'B'\n(^c|^d)e 'C'\n", [(2, 1, 3, LOOKS), (3, 1, 2, CARET)]),
    # with a list, and an operator's character
    ("%s S\n%%\n^a <+S>;\n<S>^=$ 'B'\n\\^ 'C'\n[^d] 'D'\n", [(3, 1, 2, CARET), (4, 1, 6, LOOKS), (4, 1, 6, CARET)]),
    # lazily, in a class, as a character, repeated otherwise, and with flags of its own
    ("%%\n#.* ;\n//.+ ;\na(.*)b 'B'\n(?:c|d).*e 'C'\n", [(2, 1, 3, DOT), (3, 1, 4, DOT), (4, 1, 6, DOT), (5, 1, 10, DOT)]),
    ("%%\n#.*?e 'A'\n//.+?$ 'B'\n[.*]+ 'C'\n\\.*d 'D'\n.{2} 'E'\n(?-s)f.* 'F'\n(?s)g.* 'G'\n[^]].*?] 'H'\n", [(3, 1, 6, LOOKS)]),
    # behind a `[` that ends a range, and in a class around another
    ("%%\na[+-[].* 'A'\nb[^\\]#-[]c.+ 'B'\n[[:digit:].*]+ 'C'\n", [(2, 1, 8, DOT), (3, 1, 12, DOT)]),
    (
        "%x COMMENT\n%%\n/\\* <+COMMENT> ;\n<COMMENT>\\*/ <-COMMENT>;\n",
        [(1, 4, 7, NEVER_ENTERED), (3, 1, 14, IN_PATTERN)],
    ),
    ("%s S\n%%\na<S> 'A'\nb <+S>'B'\n", [(3, 1, 4, IN_PATTERN)]),
    ("%s S\n%%\na\\<S> 'A'\nb<T> 'B'\nc <S>'C'\n", []),
    ("%s S\n%%\na <+S>;\n<S> b 'B'\n", [(4, 1, 5, BLANK)]),
    ("%s S\n%%\na <+S>;\n<S>[ ]b 'B'\nc b 'C'\n", []),
    ("%%\n\\x{41} 'A'\n", [(2, 1, 6, LOST)]),
    ("%%\na\\u{41}b 'A'\n\\q 'Q'\n", [(2, 1, 8, LOST), (3, 1, 2, LOST)]),
    ("%%\n\\x41\\u0042\\n\\\\x\\\" 'A'\n\\< 'LT'\n", []),
    ("%s S\n%%\na <+S>;\n<S>\\< 'LT'\n", [(4, 1, 5, LOOKS), (4, 1, 5, WORD)]),
    ("%%\nint|integer 'INT'\n", [(2, 1, 11, SHORTER)]),
    ("%%\n(a|b|ab) 'X'\n(?:=|==|!=) ;\n", [(2, 1, 8, SHORTER), (3, 1, 11, SHORTER)]),
    ("%s S\n%%\na <+S>;\n<S>\\+|\\+= 'P'\nä|ä 'Ä'\n", [(4, 1, 9, SHORTER), (5, 1, 3, SHORTER)]),
    ("%%\nint|integer|in 'INT'\n", [(2, 1, 14, SHORTER)]),
    # a group with flags, and ones with a name
    ("%%\n(?i:in|int) 'A'\n(?s-i:x|xy) 'B'\n(?P<n>c:d|de) 'C'\n(?P<m>f|g|gh) 'D'\n", [(2, 1, 11, SHORTER), (3, 1, 11, SHORTER)]),
    # the longer one first, a letter after a backslash, a class, more than a group
    ("%%\ninteger|int 'INT'\na|\\d 'A'\n[b]|bc 'B'\n(g|gh)i 'G'\n(j)|(jk) 'J'\n(k)m|(k)mn 'K'\n", []),
    # a repetition at the end of an alternative, and further in one
    ("%%\n[0-9]+|[0-9]+\\.[0-9]+ 'NUMBER'\n[a-z]|[a-z]+ 'ID'\n=|=>* 'E'\n", [(2, 1, 21, SHORTER), (3, 1, 12, SHORTER), (4, 1, 5, SHORTER)]),
    ("%%\n(?:[0-9]+|[0-9]+e[0-9]+) 'NUMBER'\n[A-Z]{2}x*|[A-Z]{2}x*y 'ID'\n", [(2, 1, 24, SHORTER), (3, 1, 22, SHORTER)]),
    ("%%\n[0-9]+\\.[0-9]+|[0-9]+ 'NUMBER'\na|ba 'A'\nc|c?d 'C'\ne|e* 'E'\nf|f{2}g 'F'\n[a-z]*h|[a-z]h 'H'\n", []),
    # a dot, an escape, bytes beyond ASCII, and a `$`
    ("%%\n\\.|\\.\\. 'DOTS'\n\\n|\\n\\r 'NL'\n.|.x 'X'\n[^ä]ü|[^ä]üö 'U'\n", [(2, 1, 7, SHORTER), (3, 1, 7, SHORTER), (4, 1, 4, SHORTER), (5, 1, 12, SHORTER)]),
    ("%%\na|a$ 'A'\n", [(2, 1, 4, LOOKS), (2, 1, 4, SHORTER)]),
    # `|`, `(` and `)` in a class, and behind a backslash
    ("%%\n[|]|[|]= 'A'\n[]|]|[]|]b 'B'\n[[:alpha:]|]c|[[:alpha:]|]cd 'C'\n", [(2, 1, 8, SHORTER), (3, 1, 10, SHORTER), (4, 1, 28, SHORTER)]),
    ("%%\n\\(|\\(\\* 'A'\n\\)|\\)\\|e 'B'\n[();]|[();]= 'C'\n", [(2, 1, 7, SHORTER), (3, 1, 8, SHORTER), (4, 1, 12, SHORTER)]),
    ("%%\n[a|ab] 'A'\n\\|c|d 'C'\ne\\|ef 'E'\n\\\\|\\|g 'G'\n", []),
    # a digit behind a backslash may take those behind it: these are U+0001 and U+000A
    ("%%\n\\1|\\12 'A'\n[\\2]|[\\2]3 'B'\n", [(3, 1, 10, SHORTER)]),
    ("%%\n|a|ab 'A'\n(|b|bc) 'B'\na||ab 'C'\n", [(2, 1, 5, NEVER_WINS), (3, 1, 7, NEVER_WINS), (4, 1, 5, SHORTER)]),
    ("%%\n| 'A'\n|| 'B'\n^ 'C'\n", [(line, 1, len_, it) for line, len_ in [(2, 1), (3, 2), (4, 1)] for it in (NEVER_WINS, BARE)]),
    ("%%\n$ 'A'\n", [(2, 1, 1, LOOKS), (2, 1, 1, BARE)]),
    ("%%\n\\| 'A'\n[|][|] 'B'\na| 'C'\n", []),
    ("%%\n[a-z]+ 'ID' ;\na \"B\" ''\n", [(2, 1, 11, NAME_IN_PATTERN), (3, 1, 5, NAME_IN_PATTERN)]),
    ("%s S\n%%\na <+S>;\n<S>b 'B' <-S>;\n", [(4, 1, 8, NAME_IN_PATTERN)]),
    # a name, one word alone, a pattern for texts in quotes, and a blank in a class
    ("%%\na 'A' 'B'\n\"[^\"]*\" ;\na '[^']*' ;\n[ ]'b' ;\n", []),
    ("%%\n\"if\" 'A'\n\"+\" 'B'\n'a' 'C'\n\"<=\" 'D'\n", [(line, 1, len_, QUOTED) for line, len_ in [(2, 4), (3, 3), (4, 3), (5, 4)]]),
    ("%s S\n%%\na <+S>;\n<S>\"b\" 'B'\n", [(4, 1, 6, QUOTED)]),
    # a pattern for texts in quotes, one quote or two of them, and different ones
    ("%%\n\"\\w+\" 'A'\n'[a-z]' 'B'\n\"[^\"]*\" 'C'\n\".*\" 'D'\n", [(5, 1, 4, DOT)]),
    ("%%\n\" 'A'\n\"\" 'B'\n'a\" 'C'\n'b'c 'D'\n", []),
    # a part in quotes, as flex has it, also with operators in it
    ('%%\n"0x"[0-9a-f]+ ;\n"/*"[^*]* ;\n"(a|b)*" ;\n', [(2, 1, 13, QUOTED), (3, 1, 9, QUOTED), (4, 1, 8, QUOTED)]),
    ('%%\n[+-]?"e"[0-9]+ ;\nb\\[a"c" ;\n["]"d" ;\n', [(2, 1, 14, QUOTED), (3, 1, 7, QUOTED), (4, 1, 6, QUOTED)]),
    ('%s S\n%%\na <+S>;\n<S>"b"+ ;\n"c d"e ;\n<S>f\\"g\\"h ;\n', [(4, 1, 7, QUOTED), (5, 1, 6, QUOTED)]),
    # patterns for texts in quotes, also with two quotes for one, quotes in a class, escaped ones, and one alone
    ('%%\n"([^"\\\\]|\\\\.)*" ;\n', []),
    ('%%\n"""[^"]*""" ;\n', []),
    ('%%\nf"[^"]*" ;\ng"([^"]|"")*" ;\nh"(""|[^"])*" ;\ni"([^"]|\\\\")*" ;\n', []),
    ('%%\n["\'] ;\na\\"b\\"c ;\nd"e ;\n["f"] ;\n', []),
    ("%%\n[+--/] 'A'\n[ab&&b] 'B'\n[c~~d] 'C'\n[[e]f] 'D'\n", [(2, 1, 6, CLASS), (3, 1, 7, CLASS), (4, 1, 6, CLASS), (5, 1, 6, CLASS)]),
    ("%s S\n%%\na <+S>;\n<S>x[^]\\]y[z]] 'X'\n", [(4, 1, 14, CLASS)]),
    # behind a range, and behind a character that is none of one
    ("%%\n[a-z--b] 'A'\n[0-9-[.]] 'B'\n", [(2, 1, 8, CLASS), (3, 1, 9, CLASS)]),
    # an operation whose right side is a class in brackets is meant
    ("%%\n[a-z&&[^aeiou]] 'A'\n[0-9--[5]]+ 'B'\n[A-C~~[B-D]] 'C'\n", []),
    ("%%\n[a-c&&[a-b]&&[b-c]] 'A'\n[[d]&&[c-d]] 'B'\n", [(3, 1, 12, CLASS)]),
    # an operator behind one, in a class on its right side, and in a class that begins with `]`
    ("%%\n[a-z&&[^b]--c] 'A'\n[0-9--[1&&[^2]3--4]] 'B'\n[]-[+]] 'C'\n", [(2, 1, 14, CLASS), (3, 1, 20, CLASS), (4, 1, 7, CLASS)]),
    # a class with a name on its right side, and behind a class in brackets a character outside all classes
    ("%%\n[a-z&&[:alpha:]] 'A'\n[0-9&&[^4]]&& 'B'\n[*-[]&& 'C'\n", []),
    # the end of a range is a character
    ("%%\n[#-[\\]-~]+ 'A'\n[ -~~]+ 'B'\n", []),
    # so are hyphens at the front of a class; classes with names, escapes and what is outside a class are no operators
    ("%%\n[[:digit:]] 'A'\n[--/] 'B'\n[]\\[\\-\\-&\\&~] 'C'\n[^--a[:space:]]+ 'D'\n--&& 'E'\n", []),
    # a class with a name outside a class, and with names that `regex` doesn't know: in a class, behind others and `^`, on a right side
    ("%%\n[:alpha:]+ 'A'\n[[:dgit:]]+ 'B'\n[^0-9[:^Digit:]] 'C'\n", [(2, 1, 10, CLASS_NAME), (3, 1, 11, CLASS_NAME), (4, 1, 16, CLASS_NAME)]),
    ("%s S\n%%\na <+S>;\n<S>[b-z&&[:alpah:]] 'B'\n", [(4, 1, 19, CLASS_NAME)]),
    # names that it knows, a `[` that ends a range, an escaped one, a name with a digit, and none
    ("%%\n[[:^word:][:xdigit:]] 'A'\n[#-[:alpah:] 'B'\n\\[:alpah:] 'C'\n[[:a1:]]{2} 'D'\nx[[::]] 'E'\n", []),
    ("%x S T\n%%\na <S>'A'\n", [(1, 4, 1, NO_RULES), (1, 6, 1, NEVER_ENTERED), (1, 6, 1, NO_RULES)]),
    ("%s S\n%%\na <-S>'A'\n", [(1, 4, 1, NEVER_ENTERED)]),
    ("%%\n", [(1, 1, 1, NO_RULES)]),
]

# Words, and how many warnings of `warned.l` are shown, with the status.
ALLOWED = [
    ("check", ["NeverEntered", "NoRules", "NeverWins"], 0),
    ("check --deny-warnings", ["NeverEntered", "NoRules", "NeverWins"], 1),
    ("check --allow NeverWins", ["NeverEntered", "NoRules"], 0),
    ("check --deny-warnings --allow NoRules --allow NeverEntered --allow NoTable", ["NeverWins"], 1),
    ("check --deny-warnings --allow NoRules --allow NeverEntered --allow NeverWins", [], 0),
]

# Words, and the findings that they give: file, severity, kind, message, place and first place, as bytes, lines and columns.
FOUND = [
    ("check --json tokens.l", [], 0),
    (
        "check --json bad.l",
        [
            ("bad.l", "fault", "DuplicateName", "Rule name already exists", (12, 13, 3, 4, 3, 5), (6, 7, 2, 4, 2, 5)),
            ("bad.l", "fault", "RegexError", f"Invalid regular expression: unclosed group: {OPERATOR}", (15, 16, 4, 1, 4, 2), None),
        ],
        1,
    ),
    (
        "check --json warned.l other.l",
        [
            ("warned.l", "warning", "NeverEntered", NEVER_ENTERED, (3, 4, 1, 4, 1, 5), None),
            ("warned.l", "warning", "NoRules", NO_RULES, (3, 4, 1, 4, 1, 5), None),
            ("warned.l", "warning", "NeverWins", NEVER_WINS, (20, 22, 4, 1, 4, 3), None),
            ("other.l", "fault", "DuplicateStartState", "Start state already exists", (5, 6, 1, 6, 1, 7), (3, 4, 1, 4, 1, 5)),
        ],
        1,
    ),
    # of a pattern of 4,096 bytes, and not of a longer one
    ("check --json bars.l", [("bars.l", "warning", "LostAlternative", SHORTER, (3, 4099, 2, 1, 2, 4097), None)], 0),
    # no text declares INITIAL; bytes aren't characters
    (
        "check --json --deny-warnings initial.l",
        [
            ("initial.l", "fault", "DuplicateStartState", "Start state already exists", (3, 10, 1, 4, 1, 11), None),
            ("initial.l", "fault", "DuplicateName", "Rule name already exists", (24, 25, 4, 4, 4, 5), (18, 19, 3, 4, 3, 5)),
        ],
        1,
    ),
]

# How many of the replayed cases are tried: the worked ones, which come first.
MANY = 302

# Words that are refused: each with a part of what is said.
REFUSED = [
    ("", "Usage: rolgumzai"),
    ("none", "none"),
    ("tokens", "<RULES>"),
    ("tokens tokens.l", "<INPUT>"),
    ("tokens tokens.l input more", "more"),
    ("tokens --yaml tokens.l input", "--yaml"),
    ("tokens --octal yes tokens.l input", "yes"),
    ("tokens --octal true --octal true tokens.l input", "--octal"),
    ("tokens --nest-limit 4294967296 tokens.l input", "4294967296"),
    ("tokens --size-limit=-1 tokens.l input", "-1"),
    ("check", "<RULES>"),
    ("highlight --page tokens.l input", "--page"),
    ("explain tokens.l input", "<PLACE>"),
]

COMMANDS = ["check", "tokens", "highlight", "explain", "lsp"]
FLAGS = [
    "dot-matches-new-line", "multi-line", "octal", "posix-escapes", "allow-wholeline-comments", "case-insensitive", "swap-greed",
    "ignore-whitespace", "unicode", "size-limit", "dfa-size-limit", "nest-limit",
]


def replayed():
    """The replayed cases that the program can be given: rules as a text, ids as they come."""
    return [it for it in replay.stored() if "from_rules" not in it and "ids" not in it and it["storage"] == "u32"]


def words_of(flags):
    """The flags of a case as words."""
    return [f"--{name.replace('_', '-')}={str(value).lower()}" for name, value in flags.items()]


def place_of(text, byte):
    """Line and column of a byte, from 1, in characters."""
    before = text.encode()[:byte].decode()
    return before.count("\n") + 1, len(before) - before.rfind("\n")


def names_of(case):
    """The name of each rule of a case, by its token id."""
    return {it["tok_id"]: it["name"] for it in case["expected"]["rules"] if it["name"] is not None}


def wanted_tokens(case):
    """The tokens that must come of a case, as lines of JSON have them."""
    data, names, found = case["input"].encode(), names_of(case), []
    for item, ((line, column), (end_line, end_column)) in zip(case["expected"]["items"], case["expected"]["linecols"]):
        if item[0] == "lex":
            _, number, start, length = item
            token = {"name": names[number], "text": data[start:start + length].decode(), "start": start, "end": start + length}
            found.append({**token, "line": line, "column": column, "end_line": end_line, "end_column": end_column})
    return found


def shown_warning(text, line, column, length, message):
    """A warning about the text of standard input, as it is shown."""
    return (
        f"stdin:{line}:{column}: Warning: {message} [{KINDS[message]}]\n"
        f"{line} | {text.splitlines()[line - 1]}\n"
        f"{' ' * len(str(line))} | {' ' * (column - 1)}{'^' * length}\n"
    )


@contextlib.contextmanager
def gone():
    """A stream to write to whose reader has gone."""
    reader, writer = os.pipe()
    os.close(reader)
    try:
        yield writer
    finally:
        os.close(writer)


def shown_state(line, start, message):
    """What is shown of a name of seven characters at this byte of the first line of `states`, which has more than 200."""
    front = line[max(0, start - 80):start]
    rest = line[start:start + 80]
    shown = f"{'...' if start > 80 else ''}{front}"
    return (
        f"states:1:{start + 1}: {message}\n1 | {shown}{rest}{'...' if start + 80 < len(line) else ''}\n"
        f"  | {' ' * len(shown)}^^^^^^^\n"
    )


class Rolgumzai(unittest.TestCase):
    """What comes of each command."""

    def setUp(self):
        programs.need(PROGRAM)
        folder = tempfile.TemporaryDirectory()
        self.addCleanup(folder.cleanup)
        self.folder = folder.name
        programs.fill(self.folder, FILES)

    def each(self, rows):
        """Each program with each of the rows."""
        return [(program, row) for program in programs.by_each_compiler(PROGRAM) for row in rows]

    def run_in_folder(self, program, words, stdin=""):
        """The outcome of these words in the folder of the files."""
        return programs.run([program, *words], stdin, cwd=self.folder)

    def test_rows(self):
        for program, (words, stdin, wanted) in self.each(ROWS):
            with self.subTest(words=words, program=program):
                self.assertEqual(self.run_in_folder(program, words.split(), stdin), wanted)

    def test_warnings(self):
        for program, (text, warnings) in self.each(WARNED):
            with self.subTest(text=text, program=program):
                wanted = "".join(shown_warning(text, *warning) for warning in warnings)
                self.assertEqual(self.run_in_folder(program, ["check", "-"], text), Outcome(wanted))

    def test_tables_of_many_keywords(self):
        # HTML's names of characters, of 6.6 letters on average, and then the same with two digits
        names = random.Random(1).sample(sorted({it.rstrip(";") for it in html.entities.html5}), 2_000)
        names += [f"{name}99" for name in names]
        for program, (count, is_warned) in self.each([(1_000, False), (1_500, False), (4_000, True)]):
            with self.subTest(count=count, program=program):
                rules = "".join(f"{name} '{name}'\n" for name in names[:count])
                outcome = self.run_in_folder(program, ["check", "-"], f"%%\n{rules}[A-Za-z0-9]+ 'word'\n")
                self.assertEqual(("[NoTable]" in outcome.out, outcome.err, outcome.status), (is_warned, "", 0))

    def test_allowed_warnings(self):
        for program, (words, wanted, status) in self.each(ALLOWED):
            with self.subTest(words=words, program=program):
                came = self.run_in_folder(program, [*words.split(), "warned.l"])
                self.assertEqual((re.findall(r" \[(\w+)\]$", came.out, re.MULTILINE), came.err, came.status), (wanted, "", status))

    def test_findings_as_json(self):
        names = ["start", "end", "line", "column", "end_line", "end_column"]
        for program, (words, wanted, status) in self.each(FOUND):
            with self.subTest(words=words, program=program):
                came = self.run_in_folder(program, words.split())
                rows = [
                    {
                        "file": file, "severity": severity, "kind": kind, "message": message, "place": dict(zip(names, place)),
                        "first": dict(zip(names, first)) if first else None,
                    }
                    for file, severity, kind, message, place, first in wanted
                ]
                self.assertEqual(([json.loads(line) for line in came.out.splitlines()], came.err, came.status), (rows, "", status))

    def test_words_that_are_refused(self):
        for program, (words, part) in self.each(REFUSED):
            with self.subTest(words=words, program=program):
                out, err, status = self.run_in_folder(program, words.split())
                self.assertEqual((out, status), ("", 2))
                self.assertIn(part, err)

    def test_words_that_are_not_utf_8(self):
        for program in programs.by_each_compiler(PROGRAM):
            ended = subprocess.run([program, "check", b"\xff.l"], capture_output=True, check=False, cwd=self.folder)
            self.assertEqual((ended.stdout, ended.returncode), (b"", 2))
            self.assertTrue(ended.stderr.startswith(b"rolgumzai: "), ended.stderr)

    def test_a_working_folder_that_is_not_utf_8(self):
        folder = os.fsencode(self.folder) + b"/\xff"
        os.mkdir(folder)
        with open(folder + b"/rules.l", "w", encoding="utf-8") as file:
            file.write(FILES["tokens.l"])
        for program in programs.by_each_compiler(PROGRAM):
            ended = subprocess.run([program, "lsp", "--rules", "rules.l"], input=b"", capture_output=True, cwd=folder, check=False)
            told = b"rolgumzai: the working folder: invalid filename\n"
            self.assertEqual((ended.stdout, ended.stderr, ended.returncode), (b"", told, 2))

    def test_a_place_by_its_byte_and_by_line_and_column(self):
        rows = [("0", "1:1"), ("6", "1:7"), ("7", "2:1"), ("13", "2:7"), ("16", "2:8"), ("18", "2:10")]
        for program, (byte, place) in self.each(rows):
            with self.subTest(byte=byte, program=program):
                wanted = self.run_in_folder(program, ["explain", "tokens.l", "input", byte])
                self.assertEqual((wanted.err, wanted.status), ("", 0))
                self.assertEqual(self.run_in_folder(program, ["explain", "tokens.l", "input", place]), wanted)

    def test_help(self):
        for program in programs.by_each_compiler(PROGRAM):
            out, err, status = self.run_in_folder(program, ["--help"])
            self.assertEqual((err, status), ("", 0))
            for command in COMMANDS:
                self.assertIn(f"  {command} ", out)
        for program, command in self.each(COMMANDS):
            with self.subTest(command=command, program=program):
                out, err, status = self.run_in_folder(program, [command, "--help"])
                self.assertEqual((err, status), ("", 0))
                self.assertIn(f"Usage: {os.path.basename(program)} {command}", out)
                for flag in FLAGS:
                    self.assertIn(f"--{flag} <", out)

    def test_version(self):
        newest = re.search(r"^## (\d+\.\d+\.\d+)", programs.read("CHANGELOG.md"), re.M)[1]
        for program in programs.by_each_compiler(PROGRAM):
            self.assertEqual(self.run_in_folder(program, ["--version"]), Outcome(f"rolgumzai {newest}\n"))

    def test_the_script_at_the_top(self):
        if not os.path.exists(f"{programs.TOP}/crates/{PROGRAM}/out/{PROGRAM}"):
            self.skipTest("it would build the program")
        words = [f"{programs.TOP}/{PROGRAM}", "tokens", "tokens.l", "input"]
        programs.run(words, cwd=self.folder, timeout=None)
        self.assertEqual(programs.run(words, cwd=self.folder), Outcome(LINES))

    def test_a_reader_that_has_gone(self):
        programs.fill(self.folder, {"long": "if ifs 12\n" * 100_000, "many.l": "%%\n" + "a 'A'\n" * 2_000})
        rows = ["tokens tokens.l long", "tokens --json tokens.l long", "highlight tokens.l long", "check many.l"]
        for program, words in self.each(rows):
            with self.subTest(words=words, program=program):
                with subprocess.Popen(
                    [program, *words.split()], stdout=subprocess.PIPE, stderr=subprocess.PIPE, cwd=self.folder
                ) as child:
                    self.assertTrue(child.stdout.readline())
                    child.stdout.close()
                    self.assertEqual((child.stderr.read(), child.wait()), (b"", 0))

    def test_a_reader_of_standard_error_that_has_gone(self):
        rows = [(words, stdin, wanted.out, wanted.status) for words, stdin, wanted in ROWS if wanted.err]
        rows += [(words, "", "", 2) for words, _ in REFUSED]
        for program, (words, stdin, out, status) in self.each(rows):
            with self.subTest(words=words, program=program), gone() as writer:
                ended = subprocess.run(
                    [program, *words.split()], input=programs.as_bytes(stdin), stdout=subprocess.PIPE, stderr=writer,
                    cwd=self.folder, check=False,
                )
                self.assertEqual((programs.as_text(ended.stdout), ended.returncode), (out, status))

    def test_a_client_that_reads_no_more(self):
        body = json.dumps({"jsonrpc": "2.0", "method": "initialize", "id": 1, "params": {}})
        given = f"Content-Length: {len(body)}\r\n\r\n{body}".encode()
        for program in programs.by_each_compiler(PROGRAM):
            with gone() as writer:
                ended = subprocess.run([program, "lsp"], input=given, stdout=writer, stderr=subprocess.PIPE, check=False)
                self.assertEqual((ended.stderr, ended.returncode), (b"", 1))

    def test_a_session_of_a_client(self):
        wanted = [{"method": "initialize", "id": 1, "params": {}}, {"method": "initialized", "params": {}}]
        wanted += [{"method": "shutdown", "id": 2}, {"method": "exit"}]
        bodies = [json.dumps({"jsonrpc": "2.0", **it}) for it in wanted]
        given = "".join(f"Content-Length: {len(it)}\r\n\r\n{it}" for it in bodies)
        for program, words in self.each(["lsp", "lsp --rules tokens.l --map ID=variable --stdio"]):
            with self.subTest(words=words, program=program):
                out, err, status = self.run_in_folder(program, words.split(), given)
                self.assertEqual((err, status), ("", 0))
                answers = [json.loads(it) for it in re.split(r"Content-Length: \d+\r\n\r\n", out)[1:]]
                self.assertEqual([it["id"] for it in answers], [1, 2])
                self.assertIn("capabilities", answers[0]["result"])

    def test_hostile_inputs(self):
        deep = "/*" * 200_000
        many = "%%\n" + "".join(f"a{it} 'R{it}'\n" for it in range(2_000))
        programs.fill(self.folder, {"deep": deep, "nul": "a\0", "many.l": many})
        for program in programs.by_each_compiler(PROGRAM):
            out, err, status = self.run_in_folder(program, ["tokens", "states.l", "deep"])
            self.assertEqual((out, status), ("", 0))
            told = "deep:1:399999: the text ends in start state COMMENT, which is entered here"
            self.assertEqual(err, f"{told}\n1 | ...{'/*' * 41}\n  |    {' ' * 80}^^\n")
            out, err, status = self.run_in_folder(program, ["explain", "states.l", "deep", "400000"])
            self.assertEqual((err, status), ("", 0))
            self.assertIn("stack, from the bottom: INITIAL COMMENT (200000 times)\n", out)
            nul = "nul:1:2: unexpected character '\\u{0}'\n1 | a\ufffd\n  |  ^\n"
            self.assertEqual(self.run_in_folder(program, ["tokens", "tokens.l", "nul"]), Outcome('1:1 0..1 ID "a"\n', nul, 1))
            out, err, status = self.run_in_folder(program, ["explain", "many.l", "-", "0"], "a1999")
            self.assertIn("R1999 of many.l:2001 wins with 5 bytes: no other rule matches as many\n", out)
            self.assertEqual((len(out.splitlines()), err, status), (2_005, "", 0))

    def test_tokens_of_a_long_line(self):
        # some minutes if each token's column were counted from the beginning of the line
        text = "é ab " * 100_000
        rules = "%%\n[a-z]+ 'ID'\n[\\p{L}]+ 'WORD'\n[ ] ;\n"
        programs.fill(self.folder, {"long.l": rules, "line": text})
        for program in programs.by_each_compiler(PROGRAM):
            out, err, status = self.run_in_folder(program, ["tokens", "long.l", "line"])
            self.assertEqual((err, status), ("", 0))
            lines = out.splitlines()
            self.assertEqual((len(lines), lines[0], lines[1]), (200_000, '1:1 0..2 WORD "é"', '1:3 3..5 ID "ab"'))
            self.assertEqual(lines[-1], '1:499998 599997..599999 ID "ab"')

    def test_faults_of_a_long_line(self):
        # 40,000 places of a line of 320 kB: a minute or more if each of them looked at all of the line
        line = "%s" + "".join(f" n{it}" for it in range(100_000, 120_000)) * 2
        wanted = ""
        for start in range(3, 160_003, 8):
            wanted += shown_state(line, start + 160_000, "Start state already exists") + shown_state(line, start, "first here")
        programs.fill(self.folder, {"states": f"{line}\n%%\n"})
        for program in programs.by_each_compiler(PROGRAM):
            came = programs.run([program, "check", "states"], cwd=self.folder, timeout=20)
            self.assertEqual((came.err, came.status), ("", 1))
            self.assertTrue(came.out == wanted)

    def test_standard_output_that_fails(self):
        rows = ["tokens tokens.l input", "highlight tokens.l input", "check bad.l", "explain tokens.l input 0"]
        for program, words in self.each(rows):
            with self.subTest(words=words, program=program):
                with open("/dev/full", "wb") as full:
                    ended = subprocess.run(
                        [program, *words.split()], stdout=full, stderr=subprocess.PIPE, cwd=self.folder, check=False
                    )
                self.assertEqual((ended.stderr, ended.returncode), (b"rolgumzai: No space left on device (os error 28)\n", 2))


class Replayed(unittest.TestCase):
    """The commands over replayed cases."""

    def setUp(self):
        programs.need(PROGRAM)
        folder = tempfile.TemporaryDirectory()
        self.addCleanup(folder.cleanup)
        self.folder = folder.name

    def run_in_folder(self, program, *words):
        """The outcome of these words in the folder of the cases."""
        return programs.run([program, *words], cwd=self.folder)

    def check_each(self, kind, least, check):
        """Checks each program on each of the first cases of this kind. There are at least so many."""
        cases = [it for it in replayed()[:MANY] if kind in it["expected"]]
        self.assertGreaterEqual(len(cases), least)
        for number, case in enumerate(cases):
            programs.fill(self.folder, {f"{number}.l": case["rules"], f"{number}.txt": case["input"]})
            words = [*words_of(case["flags"]), f"{number}.l", f"{number}.txt"]
            for program in programs.by_each_compiler(PROGRAM):
                with self.subTest(case=case["id"], program=program):
                    check(program, case, words)

    def check_tokens(self, program, case, words):
        """The lines of JSON are the items, and standard error has the place of a stop."""
        out, err, status = self.run_in_folder(program, "tokens", "--json", *words)
        self.assertEqual([json.loads(line) for line in out.splitlines()], wanted_tokens(case))
        stops = [it for it in case["expected"]["items"] if it[0] == "err"]
        self.assertEqual(status, 1 if stops else 0)
        if stops:
            line, column = case["expected"]["linecols"][-1][0]
            self.assertIn(f".txt:{line}:{column}: ", err)

    def check_faults(self, program, case, words):
        """A place of each fault is shown, and the others begin as `check` does."""
        out, err, status = self.run_in_folder(program, "check", *words[:-1])
        self.assertEqual((err, status), ("", 1))
        for fault in case["expected"]["faults"]:
            line, column = place_of(case["rules"], fault["spans"][-1][0])
            self.assertRegex(out, rf"(?m)^\d+\.l:{line}:{column}: ")
        # `check` goes on below a fault at which reading ends
        came = self.run_in_folder(program, "tokens", *words)
        self.assertEqual((came.out, came.status), ("", 1))
        self.assertTrue(came.err and out.startswith(came.err), (came.err, out))

    def check_winners(self, program, case, words):
        """The rule of each of the first lexemes wins at its last byte."""
        for item in case["expected"]["items"][:2]:
            if item[0] == "lex":
                _, number, start, length = item
                out, err, status = self.run_in_folder(program, "explain", *words, str(start + length - 1))
                self.assertEqual((err, status), ("", 0))
                name = re.escape(names_of(case)[number])
                self.assertRegex(out, rf"^\d+\.txt:\d+:\d+: {name} of \d+\.l:\d+ wins with {length} bytes?: ")
                self.assertEqual(len(re.findall(rf"^ *{length}\* ", out, re.M)), 1)

    def test_tokens_as_json(self):
        self.check_each("items", 100, self.check_tokens)

    def test_faults(self):
        self.check_each("faults", 50, self.check_faults)

    def test_winners(self):
        self.check_each("items", 100, self.check_winners)


class Page(unittest.TestCase):
    """What docs/rolgumzai.md shows."""

    def setUp(self):
        programs.need(PROGRAM)

    def test_each_output_is_real(self):
        page = programs.read("docs/rolgumzai.md")
        blocks = re.findall(r"^```\n\$ (.*\./rolgumzai .*)\n((?:(?!```).*\n)*)```", page, re.M)
        self.assertGreaterEqual(len(blocks), 8)
        for program in programs.by_each_compiler(PROGRAM):
            for line, shown in blocks:
                with self.subTest(line=line, program=program):
                    came = programs.run(["sh", "-c", line.replace("./rolgumzai", shlex.quote(program))])
                    self.assertEqual(came.out + came.err, shown)


# Texts that are highlighted, each by a rule file.
SHOWN = [
    ("rules/c.l", "examples/sorted.c"),
    ("rules/py.l", "tests/support/replay.py"),
    ("rules/json.l", "tests/examples/json_check.in"),
    ("rules/conf.l", "tests/examples/conf.in"),
    ("rules/c.l", "tests/examples/conf.in"),
]


def text_of_page(page):
    """The text of a page's element pre, without tags and with characters read back. As a browser does, it leaves out a first newline."""
    found = re.fullmatch(r"<!DOCTYPE html>.*?<pre>\n?(.*)</pre>\n", page, re.S)
    if not found:
        raise AssertionError(f"no page: {page[:200]!r}")
    return html.unescape(re.sub(r"</?span[^>]*>", "", found.group(1)))


class Highlighted(unittest.TestCase):
    """Texts of the repository in colours."""

    def setUp(self):
        programs.need(PROGRAM)

    def check_each(self, mark, text_of, *words):
        """Each text is coloured, and is all that is shown."""
        for program in programs.by_each_compiler(PROGRAM):
            for rules, path in SHOWN:
                with self.subTest(rules=rules, path=path, program=program):
                    out, err, status = programs.run([program, "highlight", *words, rules, path])
                    self.assertIn(mark, out, "no colour")
                    self.assertEqual((text_of(out), err, status), (programs.read(path), "", 0))

    def test_for_a_terminal(self):
        self.check_each("\x1b[", lambda out: re.sub(r"\x1b\[\d+m", "", out))

    def test_as_a_page(self):
        self.check_each("<span class=", text_of_page, "--html")

    def test_a_page_of_a_text_that_begins_with_a_newline(self):
        for program in programs.by_each_compiler(PROGRAM):
            for text in ["\n", "\n1", "\n\n1"]:
                out, err, status = programs.run([program, "highlight", "--html", "rules/json.l", "-"], text)
                self.assertEqual((text_of_page(out), err, status), (text, "", 0))

    def test_control_characters_of_a_page(self):
        for program in programs.by_each_compiler(PROGRAM):
            out, err, status = programs.run([program, "highlight", "--html", "rules/json.l", "-"], '"a\t\0\x7f\r\n\r"')
            self.assertEqual((text_of_page(out), err, status), ('"a\t\ufffd\ufffd\r\n\ufffd"', "", 0))

    def test_a_token_type_for_each_class(self):
        kinds = "class method variable keyword comment string number".split()
        classes = "type function name keyword comment text number".split()
        for program in programs.by_each_compiler(PROGRAM):
            for kind, wanted in zip(kinds, classes):
                words = ["highlight", "--html", "--map", f"ID={kind}", "examples/tokens.l", "-"]
                out, err, status = programs.run([program, *words], "ab")
                self.assertEqual((err, status), ("", 0))
                self.assertIn(f'<pre>\n<span class="{wanted}">ab</span></pre>', out)

    def test_names_in_either_case(self):
        for program in programs.by_each_compiler(PROGRAM):
            for form in [str.upper, str.lower]:
                names = [form(name) for name in ["STRING", "IN_TEXT", "ESC", "ESCAPE", "COMMENT", "OTHER"]]
                rules = f"{programs.scratch().name}/names.l"
                with open(rules, "w", encoding="utf-8") as file:
                    file.write("%%\n" + "".join(f"{it} '{name}'\n" for it, name in zip("uvwxyz", names)))
                out, err, status = programs.run([program, "highlight", "--html", rules, "-"], "uvwxyz")
                texts = "".join(f'<span class="text">{it}</span>' for it in "uvwx")
                self.assertEqual((err, status), ("", 0))
                self.assertIn(f'<pre>\n{texts}<span class="comment">y</span>z</pre>', out)


if __name__ == "__main__":
    unittest.main()
