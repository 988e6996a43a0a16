"""What people are shown of faults and of errors, against worked answers."""

import re
import unittest

from support import replay
from support.definitions import from_text
from support.messages import (
    ACTION, BACKSLASH, BAR, BEFORE_RULES, BRACES, CODE, COMMENT, DECLARE, DECLARE_LIST, DEFINITION, IN_CLASS, IN_QUOTES, LIST, MARGIN,
    NO_END, NO_MARK, NUMBER, OPERATOR, OPTION, QUOTES, ROUTINES, RULE, STATE_NAME,
)

# Rule texts, and what is shown of their faults.
FAULTS = [
    (
        "%%\nab 'A'\nc 'C'\na+b 'A'\n",
        "tokens.l:4:6: Rule name already exists\n4 | a+b 'A'\n  |      ^\n"
        "tokens.l:2:5: first here\n2 | ab 'A'\n  |     ^\n",
    ),
    (
        "%%\r\n漢 'AB'\r\nb\t'AB'\r\n😀c 'AB'",
        "tokens.l:3:4: Rule name already exists\n3 | b\t'AB'\n  |  \t ^^\n"
        "tokens.l:4:5: Rule name already exists\n4 | 😀c 'AB'\n  |      ^^\n"
        "tokens.l:2:4: first here\n2 | 漢 'AB'\n  |     ^^\n",
    ),
    ("", f"tokens.l:1:1: File ends prematurely: {NO_MARK}\n1 | \n  | ^\n"),
    ("%x A\n", f"tokens.l:2:1: File ends prematurely: {NO_MARK}\n2 | \n  | ^\n"),
    ("%x INITIAL\n%%\n", "tokens.l:1:4: Start state already exists\n1 | %x INITIAL\n  |    ^^^^^^^\n"),
    ("%%\na) 'A'\n", "tokens.l:2:1: Invalid regular expression: unopened group\n2 | a) 'A'\n  | ^\n"),
    ("x\n%%\n", f"tokens.l:1:1: Unknown declaration: {BEFORE_RULES}\n1 | x\n  | ^\n"),
    (
        "\ufeff%%\na 'A'\n",
        "tokens.l:1:1: Unknown declaration: the text begins with a byte order mark (U+FEFF)\n1 | \ufeff%%\n  | ^\n",
    ),
    ("\n\ufeff%%\na 'A'\n", f"tokens.l:2:1: Unknown declaration: {BEFORE_RULES}\n2 | \ufeff%%\n  | ^\n"),
]

# The rules by which inputs are lexed.
RULES = "%x TEXT\n%%\n[a漢語\\t\\n]+ 'A'\n\\[ <+TEXT>;\n<TEXT>b 'B'\n<TEXT>\\] <-TEXT>;\n"

# Inputs, and what is shown of where lexing them stops.
STOPS = [
    ("aa[b]a", ""),
    ("x", "input.txt:1:1: unexpected character 'x'\n1 | x\n  | ^\n"),
    (
        "a\n漢\ta語\x07a\n",
        "input.txt:2:5: unexpected character '\\u{7}'\n2 | 漢\ta語\ufffda\n  |   \t   ^\n",
    ),
    ("a\na\r\n", "input.txt:2:2: unexpected character '\\r'\n2 | a\n  |  ^\n"),
    ("aa[bba", "input.txt:1:6: unexpected character 'a' in start state TEXT\n1 | aa[bba\n  |      ^\n"),
    (
        "\ufeffa",
        "input.txt:1:1: unexpected character '\\u{feff}': the text begins with a byte order mark (U+FEFF)\n1 | \ufeffa\n  | ^\n",
    ),
    ("a\ufeff", "input.txt:1:2: unexpected character '\\u{feff}'\n1 | a\ufeff\n  |  ^\n"),
    # white space and other characters that nobody sees; the space is shown
    ("a a", "input.txt:1:2: unexpected character ' '\n1 | a a\n  |  ^\n"),
    ("a\xa0", "input.txt:1:2: unexpected character '\\u{a0}'\n1 | a\xa0\n  |  ^\n"),
    ("a\u3000a", "input.txt:1:2: unexpected character '\\u{3000}'\n1 | a\u3000a\n  |  ^\n"),
    ("a\u2028a", "input.txt:1:2: unexpected character '\\u{2028}'\n1 | a\u2028a\n  |  ^\n"),
    ("a\u200ba", "input.txt:1:2: unexpected character '\\u{200b}'\n1 | a\u200ba\n  |  ^\n"),
    ("a\u202ea", "input.txt:1:2: unexpected character '\\u{202e}'\n1 | a\u202ea\n  |  ^\n"),
    ("a\u0301a", "input.txt:1:2: unexpected character '\\u{301}'\n1 | a\u0301a\n  |  ^\n"),
    ("é", "input.txt:1:1: unexpected character 'é'\n1 | é\n  | ^\n"),
    # lines of 200 characters, and longer ones: what is before the place is cut, what is behind it, both
    ("a" * 199 + "x\r\n", f"input.txt:1:200: unexpected character 'x'\n1 | {'a' * 199}x\n  | {' ' * 199}^\n"),
    ("x" + "a" * 199, f"input.txt:1:1: unexpected character 'x'\n1 | x{'a' * 199}\n  | ^\n"),
    ("a" * 200 + "x", f"input.txt:1:201: unexpected character 'x'\n1 | ...{'a' * 80}x\n  |    {' ' * 80}^\n"),
    ("x" + "a" * 200, f"input.txt:1:1: unexpected character 'x'\n1 | x{'a' * 79}...\n  | ^\n"),
    (
        "a\n" + "a" * 100 + "x" + "a" * 100 + "\n",
        f"input.txt:2:101: unexpected character 'x'\n2 | ...{'a' * 80}x{'a' * 79}...\n  |    {' ' * 80}^\n",
    ),
    # characters of three bytes, each of two columns, in a long line that isn't the first
    (
        "漢a\n" + "漢" * 300 + "x\n漢",
        f"input.txt:2:301: unexpected character 'x'\n2 | ...{'漢' * 80}x\n  |    {' ' * 160}^\n",
    ),
    # no more than is shown before the place, and from there on
    (
        "a" * 80 + "x" + "a" * 120,
        f"input.txt:1:81: unexpected character 'x'\n1 | {'a' * 80}x{'a' * 79}...\n  | {' ' * 80}^\n",
    ),
    (
        "a" * 121 + "x" + "a" * 79,
        f"input.txt:1:122: unexpected character 'x'\n1 | ...{'a' * 80}x{'a' * 79}\n  |    {' ' * 80}^\n",
    ),
    # wide characters and tabs before the place
    (
        "漢\t" * 150 + "x",
        "input.txt:1:301: unexpected character 'x'\n1 | ..." + "漢\t" * 40 + "x\n  |    " + "  \t" * 40 + "^\n",
    ),
]

# Rule files, and what is shown of the bytes that aren't text or of the faults.
FILES = [
    (b"\xff", "tokens.l:1:1: not UTF-8, byte 0xFF at offset 0\n1 | \n  | ^\n"),
    (b"%%\na 'A'\n\xe6\xbc", "tokens.l:3:1: not UTF-8, byte 0xE6 at offset 9\n3 | \n  | ^\n"),
    (b"a\xc0\xaf 'A'\n", "tokens.l:1:2: not UTF-8, byte 0xC0 at offset 1\n1 | a\n  |  ^\n"),
    (b"\xe6\xbc\xa2\xed\xa0\x80", "tokens.l:1:2: not UTF-8, byte 0xED at offset 3\n1 | 漢\n  |   ^\n"),
    (b"%%\n\ta\x80b\n\xff\n", "tokens.l:2:3: not UTF-8, byte 0x80 at offset 5\n2 | \ta\n  | \t ^\n"),
    (b"", f"tokens.l:1:1: File ends prematurely: {NO_MARK}\n1 | \n  | ^\n"),
    (b"%%\n\xe6\xbc\xa2 'A'\n", ""),
]

TEN_LINES = "1\n2\n3\n4\n5\n6\n7\n8\n9\n漢字 x\n"

# Spans of the ten lines, and what is shown of them.
SPANS = [
    ([18, 21], "f:10:1: m\n10 | 漢字 x\n   | ^^\n"),
    ([19, 20], "f:10:1: m\n10 | 漢字 x\n   | ^\n"),
    ([21, 99], "f:10:2: m\n10 | 漢字 x\n   |   ^^^^\n"),
    ([99, 99], "f:11:1: m\n11 | \n   | ^\n"),
    ([0, 99], "f:1:1: m\n1 | 1\n  | ^\n"),
]

# 100 characters and 200 others, in one line.
LONG_LINE = "b" * 100 + "語" * 200

# Texts, spans, and what is shown of them: carets under what is shown of a long line, at least one; the end of a line.
LONG_SPANS = [
    (LONG_LINE, [100, 700], f"f:1:101: m\n1 | ...{'b' * 80}{'語' * 80}...\n  |    {' ' * 80}{'^' * 160}\n"),
    (LONG_LINE, [99, 103], f"f:1:100: m\n1 | ...{'b' * 80}b{'語' * 79}...\n  |    {' ' * 80}^^^\n"),
    (LONG_LINE, [700, 700], f"f:1:301: m\n1 | ...{'語' * 80}\n  |    {' ' * 160}^\n"),
    ("a\r\n", [1, 1], "f:1:2: m\n1 | a\n  |  ^\n"),
    ("a\r\n", [2, 3], "f:1:3: m\n1 | a\n  |  ^\n"),
]

# Rule texts, the text of the first fault alone, and what is shown of it.
FIRST = [
    ("%%\na 'A'\nb\n<c>d ;\n", "Rule is missing a space", f"tokens.l:3:1: Rule is missing a space: {RULE}\n3 | b\n  | ^\n"),
    ("%%\na 'A'\n", "", ""),
]


NEWLINE = "\n"

# Rule texts, with what an editor underlines between « and », and the message.
MARKS = [
    ("«»", f"File ends prematurely: {NO_MARK}"),
    ("%x A\n«»", f"File ends prematurely: {NO_MARK}"),
    ("%%\na 'A'\n«%%  int x;»  \n", f"Routines not currently supported: {ROUTINES}"),
    ("«%option yylineno» \n%%\n", f"Unknown declaration: {OPTION}"),
    (" «%option\tcase-insensitive»\n%%\n", f"Unknown declaration: {OPTION}"),
    ("«%pointer»\n%%\n", f"Unknown declaration: {BEFORE_RULES}"),
    ("«% option a»\n%%\n", f"Unknown declaration: {BEFORE_RULES}"),
    ("«%{»\n%%\n", f"Unknown declaration: {CODE}"),
    ("%x A\n «%{ int n;»\r\n%%\n", f"Unknown declaration: {CODE}"),
    ("«%}»\n%%\n", f"Unknown declaration: {CODE}"),
    ("«%top{»\n%%\n", f"Unknown declaration: {CODE}"),
    ("«{»\n%%\n", f"Unknown declaration: {BEFORE_RULES}"),
    ("«DIGIT [0-9]»\n%%\n", f"Unknown declaration: {DEFINITION}"),
    ("\t«_d\t[0-9]+» \r\n%%\n", f"Unknown declaration: {DEFINITION}"),
    ("«Z \"a\"|b»\n%%\n", f"Unknown declaration: {DEFINITION}"),
    # one word, a rule, a line of code, and lines that begin with a digit, a bracket and a letter beyond ASCII
    ("«DIGIT» \n%%\n", f"Unknown declaration: {BEFORE_RULES}"),
    ("«if 'IF'» \n%%\n", f"Unknown declaration: {BEFORE_RULES}"),
    ("«if \"IF\"»\n%%\n", f"Unknown declaration: {BEFORE_RULES}"),
    ("«int n;»\n%%\n", f"Unknown declaration: {BEFORE_RULES}"),
    ("«1 a»\n%%\n", f"Unknown declaration: {BEFORE_RULES}"),
    ("«[a-z]+ b»\n%%\n", f"Unknown declaration: {BEFORE_RULES}"),
    ("«é a»\n%%\n", f"Unknown declaration: {BEFORE_RULES}"),
    ("  «%s»\t\n%%\n", f"Unknown declaration: {BEFORE_RULES}"),
    (" «// a comment»\n%%\n", f"Unknown declaration: {COMMENT}"),
    ("«/* a comment */»\n%%\n", f"Unknown declaration: {COMMENT}"),
    ("«# a comment»\n%%\n", f"Unknown declaration: {BEFORE_RULES}"),
    ("«\ufeff%%»\na 'A'\n", "Unknown declaration: the text begins with a byte order mark (U+FEFF)"),
    ("%%\n«漢語» \na 'A'\n", f"Rule is missing a space: {RULE}"),
    ("%%\n«//comment»\n", f"Rule is missing a space: {COMMENT}"),
    ("%%\na 'A'\r\n// a «comment»\r\n", f"Invalid rule name: {COMMENT}"),
    ("%%\n/* a comment «*/»\n", f"Invalid rule name: {COMMENT}"),
    ("%%\n# a «comment»\n", f"Invalid rule name: {QUOTES}"),
    ("%%\n[a-z]+ «ID»\n", f"Invalid rule name: {QUOTES}"),
    ("%%\n[a-z]+ «'ID»\t\r\n", f"Invalid rule name: {QUOTES}"),
    ("%%\na «|»\nb 'B'\n", f"Invalid rule name: {BAR}"),
    ("%%\n[ \\t]\t«|» \r\n\\n ;\n", f"Invalid rule name: {BAR}"),
    ("%%\na «||»\n", f"Invalid rule name: {QUOTES}"),
    ("%%\na «|b»\n", f"Invalid rule name: {QUOTES}"),
    ("%%\n[0-9]+ { return INT; «}» \n", f"Invalid rule name: {ACTION}"),
    ("%%\n[0-9]+ «{»\n", f"Invalid rule name: {ACTION}"),
    ("%%\n[0-9]+ «{INT»\n", f"Invalid rule name: {ACTION}"),
    ("%%\n[0-9]+ return «INT;»\t\r\n", f"Invalid rule name: {ACTION}"),
    ("%%\na «<INITIAL>BEGIN(0);»\n", f"Invalid rule name: {ACTION}"),
    ("%%\na «'A';»\n", f"Invalid rule name: {ACTION}"),
    ("%%\na «;A»\n", f"Invalid rule name: {QUOTES}"),
    # an action in a comment
    ("%%\n// a «}»\n", f"Invalid rule name: {COMMENT}"),
    ("%%\n/* a «|»\n", f"Invalid rule name: {COMMENT}"),
    ("%x A\n%%\nb «<+B>»'ID'\n", f"Start state not known: {DECLARE}"),
    ("%x A\n%%\n«<A, B>»b c 'ID'\n", f"Start state not known (B): {DECLARE_LIST}"),
    ("%x A\n%%\n«<A,B>»c <A>;\n", f"Start state not known (B): {DECLARE_LIST}"),
    # the first of several; a word of a pattern and a part of a declared name declare nothing
    ("%x AB A\n%s C\n%%\nB 'B'\n«<A, INITIAL,\tB ,D,C>»b 'ID'\n", f"Start state not known (B): {DECLARE_LIST}"),
    ("%x A\n%%\n«<*,A>»b 'ID'\n", f"Start state not known (*): {DECLARE_LIST}"),
    # a control character, a long name, an empty one, and lists of one name, of eight and of nine
    ("%x A\n%%\n«<A,\x07>»b 'ID'\n", f"Start state not known (\ufffd): {DECLARE_LIST}"),
    (f"%x A\n%%\n«<A,{'漢' * 81}>»b 'ID'\n", f"Start state not known ({'漢' * 80}...): {DECLARE_LIST}"),
    ("%x A\n%%\n«<A,,B>»b 'ID'\n", f"Start state not known: {DECLARE_LIST}"),
    ("%x A\n%%\n«<B>»b 'ID'\n", f"Start state not known: {DECLARE_LIST}"),
    (f"%x A\n%%\n«<{'A,' * 7}B>»b 'ID'\n", f"Start state not known (B): {DECLARE_LIST}"),
    (f"%x A\n%%\n«<{'A,' * 8}B>»b 'ID'\n", f"Start state not known: {DECLARE_LIST}"),
    # the `%%` within the first 2,048 bytes, and a byte further on
    (f"%x A{NEWLINE * 2042}%%\n«<A,B>»b 'ID'\n", f"Start state not known (B): {DECLARE_LIST}"),
    (f"%x A{NEWLINE * 2043}%%\n«<A,B>»b 'ID'\n", f"Start state not known: {DECLARE_LIST}"),
    ("%%\n«<->» 'ARROW'\n", f"Start state not known: {DECLARE_LIST}"),
    ("%%\n«<<EOF>»> ;\n", f"Start state not known: {NO_END}"),
    ("%%\n«<=\t'LE'»\n", f"Invalid start state: {LIST}"),
    # a list that doesn't end
    ("%%\nb« <+INITIAL'ID'» \n", "Invalid start state"),
    ("%%\n«<INITIAL b 'ID'»\n", f"Invalid start state: {LIST}"),
    ("%x A «1B» C\n%%\n", f"Invalid start state name: {STATE_NAME}"),
    ("%x «A,» B\n%%\n", f"Invalid start state name: {STATE_NAME}"),
    ("%x A «漢語»\n%%\n", f"Invalid start state name: {STATE_NAME}"),
    # an empty name between two blanks
    ("%x A « »B\n%%\n", f"Invalid start state name: {STATE_NAME}"),
    ("%x AB «AB» CD AB\n%%\n", "Start state already exists"),
    ("%x «INITIAL»\n%%\n", "Start state already exists"),
    ("%%\na 'AB'\nb '«AB»'\n", "Rule name already exists"),
    ("%%\n« int x; »\na 'A'\n", f"Verbatim code not supported: {MARGIN}"),
    ("%%\n«\t»\na 'A'\n", f"Verbatim code not supported: {MARGIN}"),
    ("%%\n«(b c»  'A'\n", "Invalid regular expression: unclosed group"),
    ("%x S\n%%\n«<S>a)»\t'A'\n", "Invalid regular expression: unopened group"),
    ("%%\n«a\\» 'A'\n", f"Invalid regular expression: unclosed group: {BACKSLASH}"),
    ("%s S\n%%\n«<S>[a\\\\\\»\t'A'  \n", f"Invalid regular expression: unclosed character class: {BACKSLASH}"),
    ("%%\n«(a\\\\» 'A'\n", "Invalid regular expression: unclosed group"),
    ("%%\n«(a\\» ;\n", f"Invalid regular expression: unclosed group: {BACKSLASH}"),
    ("%%\n«(» 'A'\n", f"Invalid regular expression: unclosed group: {OPERATOR}"),
    ("%%\n«\"(\"» 'A'\n", f"Invalid regular expression: unclosed group: {IN_QUOTES}"),
    ("%%\n«\"[\"» 'A'\n", f"Invalid regular expression: unclosed character class: {IN_QUOTES}"),
    ("%%\n«\"(\"[a-z]*» 'A'\n", f"Invalid regular expression: unclosed group: {IN_QUOTES}"),
    ("%x S\n%%\n«<S>\")\"» ;\n", f"Invalid regular expression: unopened group: {IN_QUOTES}"),
    ("%%\n«\"(a» 'A'\n", "Invalid regular expression: unclosed group"),
    ("%%\n«\"(a\"» 'A'\n", "Invalid regular expression: unclosed group"),
    ("%%\n«)» 'A'\n", f"Invalid regular expression: unopened group: {OPERATOR}"),
    ("%x S\n%%\n«<S,INITIAL>[»\t;\n", f"Invalid regular expression: unclosed character class: {OPERATOR}"),
    ("%x S\n%%\n«<S>+=»\t<S>'A'\n", f"Invalid regular expression: repetition operator missing expression: {OPERATOR}"),
    ("%%\n«*a b»\t'A'\n", f"Invalid regular expression: repetition operator missing expression: {OPERATOR}"),
    ("%%\n«?» ;\n", f"Invalid regular expression: repetition operator missing expression: {OPERATOR}"),
    ("%%\n«{» ;\n", f"Invalid regular expression: repetition operator missing expression: {OPERATOR}"),
    ("%%\n«{D}+» 'A'\n", f"Invalid regular expression: repetition operator missing expression: {BRACES}"),
    ("%%\n«-?[0-9]{Digits}» 'A'\n", f"Invalid regular expression: repetition quantifier expects a valid decimal: {BRACES}"),
    ("%x S\n%%\n«<S>{D}» 'A'\n", f"Invalid regular expression: repetition operator missing expression: {BRACES}"),
    # a `[` in a class, also where the pattern is operators alone, and after an escape
    ("%%\n«[a-z[]» 'A'\n", f"Invalid regular expression: unclosed character class: {IN_CLASS}"),
    ("%%\n«[^[]+» 'A'\n", f"Invalid regular expression: unclosed character class: {IN_CLASS}"),
    ("%x S\n%%\n«<S>\\[[b[]» 'A'\n", f"Invalid regular expression: unclosed character class: {IN_CLASS}"),
    ("%%\n«[a\\[» 'A'\n", "Invalid regular expression: unclosed character class"),
    # a number in braces whose backslash is dropped, one behind two backslashes, and one in a rule with a list
    ("%%\n«\\u{1F600}» 'A'\n", f"Invalid regular expression: unclosed counted repetition: {NUMBER}"),
    ("%%\n«a\\x{BF}» 'A'\n", f"Invalid regular expression: repetition quantifier expects a valid decimal: {NUMBER}"),
    ("%%\n«\\\\u{1F600}» 'A'\n", "Invalid regular expression: unclosed counted repetition"),
    ("%x S\n%%\n«<S>(\\u{1F600}» 'A'\n", "Invalid regular expression: unclosed group"),
    # a brace behind a letter or a backslash, and one without a letter
    ("%%\n«a{b}» 'A'\n", "Invalid regular expression: repetition quantifier expects a valid decimal"),
    ("%%\n«(\\{b» 'A'\n", "Invalid regular expression: unclosed group"),
    ("%%\n«.{}» 'A'\n", "Invalid regular expression: repetition quantifier expects a valid decimal"),
    ("%%\na 'A'\n«%% 'B'»\n", f"Routines not currently supported: {ROUTINES}"),
]

# Patterns that `regex` refuses, after a list of start states, and why, in its words: one for each kind of error that a rule can
# have under the default flags.
REFUSED = [
    (r"[\A]", "invalid escape sequence found in character class"),
    ("[z-a]", "invalid character class range, the start must be <= the end"),
    (r"[a-\d]", "invalid range boundary, must be a literal"),
    ("[a", "unclosed character class"),
    ("a{99999999999}", "decimal literal invalid"),
    (r"\x{}", "hexadecimal literal empty"),
    (r"\x{D800}", "hexadecimal literal is not a Unicode scalar value"),
    (r"\x{G}", "invalid hexadecimal digit"),
    (r"\p{L", "incomplete escape sequence, reached end of pattern prematurely"),
    (r"\y", "unrecognized escape sequence"),
    ("(?i-)", "dangling flag negation operator"),
    ("(?ii)", "duplicate flag"),
    ("(?i--s)", "flag negation operator repeated"),
    ("(?z)", "unrecognized flag"),
    ("(?P<a>a)(?P<a>b)", "duplicate capture group name"),
    ("(?P<>a)", "empty capture group name"),
    ("(?P<1>a)", "invalid capture group character"),
    ("(a", "unclosed group"),
    ("a)", "unopened group"),
    (r"(?-u:\xFF)", "pattern can match invalid UTF-8"),
    ("(" * 251 + "a" + ")" * 251, "groups, classes or repetitions nest deeper than the nesting limit allows"),
    ("a{}", "repetition quantifier expects a valid decimal"),
    ("a{2,1}", "invalid repetition count range, the start must be <= the end"),
    ("a{2", "unclosed counted repetition"),
    ("*", "repetition operator missing expression"),
    (r"\b{a", "special word boundary assertion is either unclosed or contains an invalid character"),
    (
        r"\b{a}",
        "unrecognized special word boundary assertion, valid choices are: start, end, start-half or end-half",
    ),
    (r"(?-u)\pL", "Unicode not allowed here"),
    (r"\p{foo}", "Unicode property not found"),
    (r"\p{Script=foo}", "Unicode property value not found"),
    ("(?=a)", "look-around, including look-ahead and look-behind, is not supported"),
]

TOO_LARGE = "the compiled pattern exceeds the size limit, which `RegexBuilder::size_limit` sets"


def unmarked(text):
    """A text without its marks, and the bytes between which they were."""
    before, rest = text.split("«")
    inside, after = rest.split("»")
    start = len(before.encode())
    return before + inside + after, f"{start}..{start + len(inside.encode())}"


def shown(step):
    """What is shown by the step."""
    return replay.answer(from_text("%%\n").case(step)).last("shown")


class Reports(replay.TestCase):
    """Faults of rule texts and files, and where lexing stopped, as people are shown them."""

    def check_shown(self, rows):
        """Each step shows what it must."""
        cases = [from_text("%%\n").case(step) for step, _ in rows]
        for (step, wanted), answers in zip(rows, replay.answers(cases), strict=True):
            with self.subTest(step=step):
                self.assertEqual(answers.last("shown"), wanted)

    def test_faults_of_a_rule_text(self):
        self.check_shown([(["complaints", list(rules.encode()), ""], wanted) for rules, wanted in FAULTS])

    def test_where_lexing_stopped(self):
        self.check_shown([(["complaints", list(RULES.encode()), text], wanted) for text, wanted in STOPS])

    def test_the_first_fault_alone(self):
        self.check_shown([(["first_fault", rules], f"{text}\n{place}" if text else "") for rules, text, place in FIRST])

    def test_what_an_editor_underlines(self):
        rows = [(*unmarked(text), message) for text, message in MARKS]
        self.check_shown([(["diagnostics", rules], f"{span} {message}\n") for rules, span, message in rows])

    def test_why_lexing_stops_in_one_line(self):
        for text, wanted in STOPS:
            line = wanted.split("\n", 1)[0]
            reason = line.split(": ", 1)[1] if line else ""
            with self.subTest(text=text):
                answered = shown(["stop", RULES, text])
                self.assertEqual(answered.rstrip("\n").split(" ", 1)[1:], [reason] if reason else [])

    def texts_of(self, patterns):
        """What the fault of each of these patterns displays, and what is shown of it."""
        cases = [from_text("%%\n").case(["first_fault", f"%%\n<*>{pattern} 'A'\n"]) for pattern in patterns]
        return [answers.last("shown").split("\n", 1) for answers in replay.answers(cases)]

    def test_a_refused_pattern_has_the_reason_of_regex(self):
        for (pattern, reason), (displayed, text) in zip(REFUSED, self.texts_of([it for it, _ in REFUSED]), strict=True):
            with self.subTest(pattern=pattern):
                found = re.fullmatch(r"Invalid regular expression: regex parse error at (\d+)\.\.(\d+): (.*)", displayed)
                self.assertTrue(found, displayed)
                start, end = int(found[1]), int(found[2])
                self.assertTrue(start <= end <= len(rf"\A(?:{pattern})"), displayed)
                self.assertEqual(found[3], reason)
                note = f": {OPERATOR}" if pattern == "*" else ""
                line = f"<*>{pattern} 'A'"
                shown_line = line if len(line) <= 200 else f"{line[:80]}..."
                self.assertEqual(text, f"tokens.l:2:1: Invalid regular expression: {reason}{note}\n2 | {shown_line}\n  | ^\n")

    def test_a_pattern_that_is_too_large_has_this_reason(self):
        pattern = "((a{100}){100}){100}"
        [(displayed, text)] = self.texts_of([pattern])
        self.assertEqual(displayed, f"Invalid regular expression: {TOO_LARGE}")
        self.assertEqual(text, f"tokens.l:2:1: Invalid regular expression: {TOO_LARGE}\n2 | <*>{pattern} 'A'\n  | ^\n")

    def test_bytes_that_are_not_utf_8(self):
        self.check_shown([(["complaints", list(data), ""], wanted) for data, wanted in FILES])

    def test_any_span(self):
        self.check_shown([(["place_text", TEN_LINES, span, "m"], wanted) for span, wanted in SPANS])

    def test_spans_of_long_lines(self):
        self.check_shown([(["place_text", text, span, "m"], wanted) for text, span, wanted in LONG_SPANS])

    def test_a_stop_past_the_end(self):
        wanted = "f:2:1: unexpected end of the text\n2 | \n  | ^\n"
        self.assertEqual(shown(["stop_text", "a\r\n", 9, 7]), wanted)


if __name__ == "__main__":
    unittest.main()
