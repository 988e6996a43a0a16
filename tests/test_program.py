"""The program over rows: its words, the files and standard streams that it reads, what it writes, its messages and statuses."""

import unittest
from typing import NamedTuple

from support import programs
from support.program_rows import (
    BAD_EDIT, BOTH, LINES, MANY_FAULTS, MANY_REPORTED, NO_PATTERN, PROGRAM, RULES, SHORT, USAGE, Row, check_rows,
)
from support.programs import Outcome
from support.rule_texts import WORDS

NO_DECLARATION = "1:1: Unknown declaration\n"
NO_TEXT = "File bad is not UTF-8\n"
MISSING = "Can't open file none\n"

HEARTS = "%%\n[-a-z❤]+ 'ID'\n[ ] ;"
STARS = "%%\n\\052 'STAR'\na 'A'"

# These are in the folder of each row.
FILES = {
    "rules": RULES,
    "words": WORDS,
    "hearts": HEARTS,
    "stars": STARS,
    "faulty": "%%\n( 'A'",
    "input": "abc 123",
    "bad": b"\xff",
    "sub/rules": RULES,
    "sub/❤ input": "abc 123",
}


def stopped(out, at):
    """What comes of an input that isn't lexed from this byte on."""
    return Outcome(f"{out}Couldn't lex input starting at byte {at}\n", "", 1)


def failed(err):
    """What comes of a run that says no more than this."""
    return Outcome("", err, 1)


# Words that are refused, whatever the files and standard input hold: here they would be lexed.
REFUSED = {
    "one path": "rules",
    "one path, standard input": "-",
    "three paths": "rules input x",
    "short help": "-h",
    "help": "--help",
    "help after the paths": "rules input --help",
    "version": "-V rules input",
    "no truth value": "--octal yes rules input",
    "a path for a truth value": "--octal rules input",
    "a truth value that begins with a hyphen": "--octal -true rules input",
    "an option without its value": "rules input --octal",
    "a level above u32": "--nest-limit 4294967296 rules input",
    "a level below 0": "--nest-limit -1 rules input",
    "a size above usize": "--size-limit 18446744073709551616 rules input",
    "a size with a minus": "--size-limit=-0 rules input",
    "a size in letters": "--size-limit x rules input",
    "a second size above usize": "--dfa-size-limit 18446744073709551616 rules input",
    "an option twice": "--octal true --octal true rules input",
    "an option's beginning": "--oct true rules input",
    "an unknown option": "--nonsense rules input",
    "an unknown short option": "-r input",
    "from alone": "--from 0 rules input",
    "from alone, standard input": "--from 0 - -",
    "to alone": "--to 0 rules input",
    "put alone": "--put x rules input",
    "an empty put alone": "--put '' rules input",
    "no put": "--from 0 --to 0 rules input",
    "no to": "--from 0 --put x rules input",
    "no from": "--to 0 --put x rules input",
    "a from above usize": "--from 18446744073709551616 --to 0 --put x rules input",
    "a to above usize": "--from 0 --to 18446744073709551616 --put x rules input",
    "a to below 0": "--from 0 --to -1 --put x rules input",
    "a from in hexadecimal": "--from 0x0 --to 1 --put x rules input",
    "a put that begins with a hyphen": "--from 0 --to 1 --put -x rules input",
}


def refused_rows():
    """Each of these words, on a standard input that would be lexed without them."""
    return [Row(name, words, failed(USAGE), BOTH) for name, words in REFUSED.items()]


# Words in each form and order that is taken.
FORMS = [
    Row("no option", "rules -", Outcome(LINES), "abc 123"),
    Row("a value after =", "rules --octal=true - --nest-limit 4294967295", Outcome(LINES), "abc 123"),
    Row("a value after =, between the paths", "stars --octal=false -", failed(NO_PATTERN), "*"),
    Row("an option after the paths", "stars - --octal false", failed(NO_PATTERN), "*"),
    Row("paths after --", "--octal=true --nest-limit=+4294967295 -- rules -", Outcome(LINES), "abc 123"),
    Row("an option's value before --", "--octal=false -- stars -", failed(NO_PATTERN), "*"),
    Row("three limits", "--nest-limit=-0 rules --size-limit=0 --dfa-size-limit=+07 -", failed(NO_PATTERN), "abc 123"),
    Row("a level of 0", "--nest-limit 0 rules input", failed(NO_PATTERN)),
    Row("a level of -0", "--nest-limit=-0 rules input", failed(NO_PATTERN)),
    Row("a size of 0", "--size-limit=0 rules input", failed(NO_PATTERN)),
    Row("a size of 7", "--size-limit 7 rules input", failed(NO_PATTERN)),
    Row("the greatest size", "rules --size-limit 18446744073709551615 -", Outcome(LINES), "abc 123"),
    Row("a second size of 7", "--dfa-size-limit 7 rules input", Outcome(LINES)),
    Row("a second size with a sign", "--dfa-size-limit=+07 rules input", Outcome(LINES)),
    Row("an edit before the paths", "--from 0 --to 2 --put xyz words -", Outcome("ID xyz\nID cd\n"), "ab cd"),
    Row("an edit among the paths", "hearts --put '❤ b' - --to=6 --from=3", Outcome("ID abc❤\nID b\nID g\n"), "abcdef g"),
    Row("an edit from after its end", "hearts --put '❤ b' - --to=1 --from=7", failed(BAD_EDIT), "abcdef g"),
    Row("an empty put", "words - --from 3 --to 4 --put ''", Outcome("ID abcdef\n"), "abc def"),
    Row("an empty put after =", "words - --from 3 --to 4 --put=", Outcome("ID abcdef\n"), "abc def"),
    Row("signs, zeros and hyphens", "hearts - --from=+3 --to 0004 --put=--from", Outcome("ID abc--fromdef\n"), "abc def"),
    Row(
        "the greatest places",
        "--from 18446744073709551615 --to 18446744073709551615 --put true -- words -",
        failed(BAD_EDIT),
        "abc def",
    ),
]


class Flag(NamedTuple):
    """An option of one truth value: rules and an input of which it decides what comes, and which value it has where unset."""

    option: str
    rules: str
    text: str
    true: Outcome
    false: Outcome
    unset: bool


FLAGS = [
    Flag("dot-matches-new-line", "%%\n.+ 'X'", "a\nb", Outcome("X a\nb\n"), stopped("X a\n", 1), True),
    Flag("multi-line", "%%\na$ 'A'\n[\\n] ;", "a\n", Outcome("A a\n"), stopped("", 0), True),
    Flag("octal", STARS, "*", Outcome("STAR *\n"), failed(NO_PATTERN), True),
    Flag("posix-escapes", "%%\na\\b 'A'", "a\b", Outcome("A a\b\n"), stopped("A a\n", 1), False),
    Flag("allow-wholeline-comments", "// c\n%%\na 'A'", "a", Outcome("A a\n"), failed(NO_DECLARATION), False),
    Flag("case-insensitive", "%%\na 'A'", "A", Outcome("A A\n"), stopped("", 0), False),
    Flag("swap-greed", "%%\na+ 'A'", "aa", Outcome("A a\nA a\n"), Outcome("A aa\n"), False),
    Flag("ignore-whitespace", "%%\na b 'X'", "ab", Outcome("X ab\n"), stopped("", 0), False),
    Flag("unicode", "%%\n\\d 'D'", "١", Outcome("D ١\n"), stopped("", 0), True),
]


def flag_rows():
    """Each flag unset, and with either value in either form."""
    for flag in FLAGS:
        files = {"own": flag.rules, "text": flag.text}
        yield Row(f"{flag.option}, unset", "own text", flag.true if flag.unset else flag.false, "", files)
        for value, wanted in [("true", flag.true), ("false", flag.false)]:
            for words in [f"--{flag.option} {value} own text", f"own text --{flag.option}={value}"]:
                yield Row(words, words, wanted, "", files)


def nested(levels):
    """A rule whose pattern has so many brackets, one in the other."""
    return f"%%\n{'(' * levels}a{')' * levels} 'A'"


# Options, how many brackets, and whether they are too many.
LEVELS = [
    ("", 248, False),
    ("", 249, True),
    ("--nest-limit 7", 5, False),
    ("--nest-limit 7", 6, True),
    ("--nest-limit 250", 200, False),
    ("--nest-limit 250", 248, False),
    ("--nest-limit 250", 249, True),
    ("--nest-limit 250", 300, True),
    ("--nest-limit 4294967295", 900, False),
    ("--nest-limit=+4294967295", 900, False),
    ("--nest-limit 4294967295", 1_100, True),
    ("--nest-limit 4294967295", 9_000, True),
]

# Its compiled pattern takes more than the limit where that is unset.
GREAT = "%%\n\\w{1000} 'A'"

SIZES = [
    Row("too small", "--size-limit 10 - -", failed(NO_PATTERN), RULES),
    Row("great", "--size-limit 100000000 --dfa-size-limit 100000000 - -", Outcome(), RULES),
    Row("too small, an input", "--size-limit 10 rules input", failed(NO_PATTERN)),
    Row("great, an input", "--size-limit 100000000 --dfa-size-limit 100000000 rules input", Outcome(LINES)),
    Row("a great pattern", "- -", failed(NO_PATTERN), GREAT),
    Row("a great pattern, the second size alone", "--dfa-size-limit 100000000 - -", failed(NO_PATTERN), GREAT),
    Row("a great pattern and size", "--size-limit 100000000 - -", Outcome(), GREAT),
    Row("a great pattern, the greatest size", "--size-limit 18446744073709551615 - -", Outcome(), GREAT),
]


def limit_rows():
    """Each number of levels with no input, and with one."""
    for options, levels, many in LEVELS:
        name, rules = f"{levels} levels {options}", nested(levels)
        none, one = (failed(NO_PATTERN), failed(NO_PATTERN)) if many else (Outcome(), Outcome("A a\n"))
        yield Row(name, f"{options} - -", none, rules)
        yield Row(f"{name}, an input", f"{options} own input", one, "", {"own": rules, "input": "a"})
    yield from SIZES


STATES = (
    "%x c\n%%\n\\( <+c>'OPEN'\n<c>\\( <+c>'OPEN2'\n<c>\\) <-c>'CLOSE'\n<c>[a-z]+ 'IN'\n[a-z]+ 'OUT'"
)

# Rules and an input, and what is written: a line an item.
LEXED = [
    ("a lexeme a line", RULES, "abc 123", Outcome(LINES)),
    ("the first branch that matches", "%%\na|ab 'X'", "ab", stopped("X a\n", 1)),
    ("no rule, no input", "%%", "", Outcome()),
    ("no rule", "%%", "a", stopped("", 0)),
    ("names in both quotes", "%%\na 'A'\n\nb \"B\"", "ba", Outcome("B b\nA a\n")),
    ("a pattern that is refused", "%%\n( 'A'", "a", failed(NO_PATTERN)),
    ("a bracket that is escaped", "%%\n\\( 'A'", "(", Outcome("A (\n")),
    ("an empty rule text", "", "a", failed(SHORT)),
    ("more than one fault", MANY_FAULTS, "a", failed(MANY_REPORTED)),
    ("states on a stack", STATES, "a(b)c", Outcome("OUT a\nOPEN (\nIN b\nCLOSE )\nOUT c\n")),
]

# Rule texts with faults, and how they are reported: a line a fault, with lines and columns.
FAULTS = [
    ("an empty text", "", SHORT),
    ("two kinds", MANY_FAULTS, MANY_REPORTED),
    ("a state that is always there", "%s INITIAL\n%%", "1:1: Start state already exists, again at 1:4\n"),
    (
        "a name three times",
        "%%\n x\na 'A'\nb 'A'\nc 'A'",
        "2:1: Verbatim code not supported\n3:4: Rule name already exists, again at 4:4, 5:4\n",
    ),
    ("a pattern", "%%\n( 'A'", NO_PATTERN),
    ("a line separator", "%S X\u2028", "1:6: File ends prematurely\n"),
    ("columns are characters", "%%\n❤❤ x", "2:4: Invalid rule name\n"),
    (
        "all kinds in order",
        "%s a b a b\n%%\n x\n❤ 'É'\nc 'É'\n❤❤❤ d",
        "1:4: Start state already exists, again at 1:8\n1:6: Start state already exists, again at 1:10\n"
        "3:1: Verbatim code not supported\n4:4: Rule name already exists, again at 5:4\n6:5: Invalid rule name\n",
    ),
]


def lexed_rows():
    """Each rule text with its input in files; those with faults also on an input and after an edit, which change nothing."""
    for name, rules, text, wanted in LEXED:
        yield Row(name, "own text", wanted, "", {"own": rules, "text": text})
    for name, rules, err in FAULTS:
        files = {"own": rules, "text": "ab"}
        yield Row(f"{name}, reported", "own text", failed(err), "", files)
        yield Row(f"{name}, reported after an edit", "--from 0 --to 1 --put x own text", failed(err), "", files)


# Rules, an input, the edit (from where, to where, what is put there), and what comes of the edited text.
EDITED = [
    ("in place of a word", WORDS, "ab cd ef", (0, 2, "xyz"), Outcome("ID xyz\nID cd\nID ef\n")),
    ("a blank is taken away", WORDS, "ab cd ef", (2, 3, ""), Outcome("ID abcd\nID ef\n")),
    ("after the end", WORDS, "ab", (2, 2, "c"), Outcome("ID abc\n")),
    ("nothing in place of nothing", WORDS, "ab", (0, 0, ""), Outcome("ID ab\n")),
    ("in place of what stopped it", WORDS, "ab !", (3, 4, "c"), Outcome("ID ab\nID c\n")),
    ("after a tile that looked ahead", "%%\na+b|a 'X'", "aac", (2, 3, "b"), Outcome("X aab\n")),
    ("before what stops it", WORDS, "ab !", (0, 2, "xyz"), stopped("ID xyz\n", 4)),
    ("a pattern that is refused", "%%\n( 'A'", "ab", (0, 1, "x"), failed(NO_PATTERN)),
    ("it ends before it begins", WORDS, "❤", (2, 1, "x"), failed(BAD_EDIT)),
    ("it ends after the input", WORDS, "❤", (0, 4, "x"), failed(BAD_EDIT)),
    ("it begins within a character", WORDS, "❤", (1, 3, "x"), failed(BAD_EDIT)),
    ("it begins and ends within a character", WORDS, "❤", (1, 2, "x"), failed(BAD_EDIT)),
    ("a character gives way", WORDS, "❤", (0, 3, "x"), Outcome("ID x\n")),
    ("a bad one, before the rules are built", "%%\n( 'A'", "", (2, 1, "x"), failed(BAD_EDIT)),
    ("a good one, before the rules are built", "%%\n( 'A'", "a", (0, 1, "x"), failed(NO_PATTERN)),
]

# Both files are read before the edit is looked at.
EDITED_FILES = [
    Row("a missing input and a bad edit", "--from 2 --to 1 --put x words none", failed(MISSING)),
    Row("missing rules and a bad edit", "--from 2 --to 1 --put x none words", failed(MISSING)),
    Row("an input of other bytes and a bad edit", "--from 2 --to 1 --put x words bad", failed(NO_TEXT)),
]


def edited_rows():
    """Each edit of an input in a file, and of one in standard input."""
    for name, rules, text, (start, end, put), wanted in EDITED:
        words = f"--from {start} --to {end} --put '{put}' own"
        yield Row(name, f"{words} text", wanted, "", {"own": rules, "text": text})
        yield Row(f"{name}, standard input", f"{words} -", wanted, text, {"own": rules})
    yield from EDITED_FILES


VERBATIM_AT = "{}:1: Verbatim code not supported\n".format

# Without a word standard input has both texts, with a line `----` between them.
STANDARD_INPUT = [
    Row("both texts", "", Outcome(LINES), BOTH),
    Row("nothing", "", failed(SHORT)),
    Row("no line between", "", Outcome(), RULES),
    Row("the line at the end", "", Outcome(), "%%\na 'A'\n----"),
    Row("one byte after the line", "", Outcome("A a\n"), "%%\na 'A'\n----\na"),
    Row("such a line in the input", "", Outcome("A a\n----\na\n"), "%%\n[a\\-\\n]+ 'A'\n----\na\n----\na"),
    Row("an input that stops", "", stopped("A a\n", 1), "%%\na 'A'\n----\nab"),
    Row("the line at the begin", "", failed(SHORT), "----\nab"),
    Row("faults", "", failed(MANY_REPORTED), MANY_FAULTS + "\n----\na"),
    Row("other bytes", "", failed("File - is not UTF-8\n"), b"%%\n\xff"),
    Row("other bytes after the line", "", failed("File - is not UTF-8\n"), b"%%\na 'A'\n----\n\xff"),
    Row("a lexeme of 5 MB", "", Outcome(f"A {'a' * 5_000_000}\n"), f"%%\na+ 'A'\n----\n{'a' * 5_000_000}"),
    Row("300 faults", "", failed("".join(map(VERBATIM_AT, range(2, 302)))), "%%\n" + " x\n" * 300 + "----\na"),
]

# A byte order mark is a character.
MARKS = [
    Row("before %%", "", failed(NO_DECLARATION), "\ufeff%%"),
    Row("alone", "", failed(NO_DECLARATION), "\ufeff"),
    Row("before a declaration", "", failed(NO_DECLARATION), "\ufeff%x S\n%%"),
    Row("before the input", "", stopped("", 0), "%%\na 'A'\n----\n\ufeffa"),
    Row("before the input, and a rule for it", "", Outcome("A a\n"), "%%\n\\uFEFF ;\na 'A'\n----\n\ufeffa"),
]

# Which texts are read, in which order: the first fault decides. The first `-` takes all of standard input.
TEXTS = [
    Row("both in files", "rules input", Outcome(LINES)),
    Row("the input in standard input", "rules -", Outcome(LINES), "abc 123"),
    Row("the rules in standard input", "- input", Outcome(LINES), RULES),
    Row("standard input twice", "- -", Outcome(), RULES),
    Row("standard input twice, with faults", "- -", failed(NO_DECLARATION), "// c\n%%\na 'A'"),
    Row("standard input twice, with comments", "--allow-wholeline-comments true - -", Outcome(), "// c\n%%\na 'A'"),
    Row("in another folder", "sub/rules 'sub/❤ input'", Outcome(LINES)),
    Row("rules that are no text", "bad input", failed(NO_TEXT)),
    Row("rules that are no text, no input", "bad none", failed(NO_TEXT)),
    Row("neither is a text", "bad bad", failed(NO_TEXT)),
    Row("an input that is no text", "rules bad", failed(NO_TEXT)),
    Row("an input that is no text, rules in standard input", "- bad", failed(NO_TEXT), RULES),
    Row("an input that is no text, nothing in standard input", "- bad", failed(NO_TEXT)),
    Row("no rules, an input that is no text", "none bad", failed(MISSING)),
    Row("no input", "rules none", failed(MISSING)),
    Row("no input, faulty rules", "faulty none", failed(MISSING)),
    Row("no input, rules in standard input", "- none", failed(MISSING), RULES),
    Row("a folder for the rules", "sub input", failed("Can't open file sub\n")),
    Row("a folder for the input", "rules sub", failed("Can't open file sub\n")),
    Row("an empty path", "'' input", failed("Can't open file \n")),
]


# How long words are, whose lines fill the 65,536 bytes that wait to be written, nearly or more. A line has four bytes more.
LENGTHS = [[65_531], [65_532], [65_533], [1, 65_527], [1, 65_528], [1, 70_000, 1], [40_000, 40_000], [9] * 20_000]


def long_rows():
    """Words of each of these lengths, and the same before what stops lexing."""
    for lengths in LENGTHS:
        name, text = f"{len(lengths)} words, {sum(lengths)} bytes", " ".join("a" * it for it in lengths)
        lines = "".join(f"ID {it}\n" for it in text.split())
        yield Row(name, "words -", Outcome(lines), text)
        yield Row(f"{name}, and a stop", "words -", stopped(lines, len(text) + 1), f"{text} !")


class Program(unittest.TestCase):
    """What the program does with its words, its files and its standard input."""

    def test_words_that_are_refused(self):
        check_rows(self, refused_rows(), FILES)

    def test_words_that_are_not_utf_8(self):
        programs.need(PROGRAM)
        for program in programs.by_each_compiler(PROGRAM):
            for words in [[b"\xff", b"input"], [b"rules", b"\xff"], [b"\xff"]]:
                with self.subTest(program=program, words=words):
                    self.assertEqual(failed(USAGE), programs.run([program, *words], BOTH))

    def test_forms_of_words(self):
        check_rows(self, FORMS, FILES)

    def test_flags(self):
        check_rows(self, flag_rows(), FILES)

    def test_limits(self):
        check_rows(self, limit_rows(), FILES)

    def test_lexemes_and_faults(self):
        check_rows(self, lexed_rows(), FILES)

    def test_edits(self):
        check_rows(self, edited_rows(), FILES)

    def test_lines_past_what_waits(self):
        check_rows(self, long_rows(), FILES)

    def test_both_texts_in_standard_input(self):
        check_rows(self, STANDARD_INPUT, FILES)

    def test_byte_order_marks(self):
        check_rows(self, MARKS, FILES)

    def test_which_texts_are_read(self):
        check_rows(self, TEXTS, FILES)


if __name__ == "__main__":
    unittest.main()
