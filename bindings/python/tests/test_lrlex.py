"""The package over the C library: tokens, faults, documents, the command line, and Pygments where it is installed."""

from __future__ import annotations

import concurrent.futures
import copy
import gc
import importlib.util
import io
import itertools
import json
import os
import pickle
import re
import subprocess
import sys
import tempfile
import types
import typing
import unittest
from contextlib import redirect_stderr
from unittest import mock

import lrlex
from lrlex import __main__ as program
from lrlex import _c

WORDS = "%%\n[0-9]+ 'INT'\n[a-zé😀]+ 'ID'\n[ ]+ ;\n"


# Comments that nest. Of one, `*` and `/` alone have no rule.
NESTED = "%x C\n%%\n[a-zé]+ 'ID'\n[ ]+ ;\n<INITIAL,C>/\\* <+C>;\n<C>\\*/ <-C>;\n<C>[^*/]+ ;\n"


# What the messages of `./rolgumzai check` end with, and one of warnings.
BEFORE_RULES = "a line before %% is %s or %x with names of start states; rules come after it"
OPERATOR = "write a backslash before each operator to match its character, as \\+ or \\("
QUOTES = "write it in quotes and without blanks, or ; for no name; no action or comment follows it"
NEVER_WINS = "this rule never wins: it matches no byte, or other rules match as much or more; put it before them, or make them match less"

# Rule texts, and the kinds of their warnings in order, by the rows of `./rolgumzai check`.
WARNED = [
    ("%%\nif 'IF'\n[a-z]+ 'ID'\n", []),
    ("%%\n[a-z]+ 'ID'\nif 'IF'\n", ["NeverWins"]),
    ("%%\na\\b 'A'\n", ["LooksAround"]),
    ("%%\n[ab]{3000} 'A'\n", ["NoTable"]),
    ("%s S\n%%\na<S> 'A'\nb <+S>'B'\n", ["TargetInPattern"]),
    ("%s S\n%%\na <+S>;\n<S> b 'B'\n", ["BlankAfterStates"]),
    ("%%\n\\x{41} 'A'\n", ["LostEscape"]),
    ("%s S\n%%\na <+S>;\n<S>\\< 'LT'\n", ["LooksAround", "EscapeAfterStates"]),
    ("%%\nint|integer 'INT'\n", ["LostAlternative"]),
    ("%%\n[a-z]+ 'ID' ;\na \"B\" ''\n", ["NameInPattern", "NameInPattern"]),
    ("%s S\n%%\na <+S>;\n<S>\"b\" 'B'\n", ["QuotedPattern"]),
    ("%%\n$ 'A'\n", ["LooksAround", "BareOperator"]),
    ("%%\na^b 'A'\n^a 'B'\n(^c|^d)e 'C'\n", ["LooksAround", "LostCaret"]),
    ("%%\n#.* ;\n//.+ ;\na(.*)b 'B'\n(?:c|d).*e 'C'\n", ["GreedyDot"] * 4),
    ("%s S\n%%\na <+S>;\n<S>x[^]\\]y[z]] 'X'\n", ["ClassOperator"]),
    ("%s S\n%%\na <+S>;\n<S>[b-z&&[:alpah:]] 'B'\n", ["UnknownClass"]),
    ("%s S\n%%\na <-S>'A'\n", ["NeverEntered"]),
    ("%%\n", ["NoRules"]),
]


def pairs(tokens):
    """Name and text of each token."""
    return [(token.name, token.text) for token in tokens]


def error_of(call):
    """The error of this package that a call raises."""
    try:
        call()
    except lrlex.Error as error:
        return error
    raise AssertionError("nothing is raised")


class Interrupted(BaseException):
    """What a signal's handler raises, as that of Ctrl-C raises KeyboardInterrupt."""


def interrupt():
    """A signal's handler that raises."""
    raise Interrupted


def had_step(number, handler, call):
    """Calls, and has a handler called before this step in the package, as if a signal came. Whether the call has so many steps.

    Where the handler raises, each instruction of the interpreter is a step, and else each line.
    """
    steps, kind = 0, "opcode" if handler is interrupt else "line"

    def trace(frame, event, _):
        nonlocal steps
        if not frame.f_code.co_filename.startswith(os.path.dirname(lrlex.__file__)):
            return None
        frame.f_trace_opcodes = kind == "opcode"
        steps += event == kind
        if event == kind and steps == number:
            handler()
        return trace

    # Python 3.12 tells of instructions only where a frame asked for them before.
    sys._getframe().f_trace_opcodes = kind == "opcode"  # pylint: disable=protected-access
    sys.settrace(trace)
    try:
        call()
    except Interrupted as raised:
        kept = raised  # noqa: F841  a cycle of garbage, with all that the frames have
    finally:
        sys.settrace(None)
    return steps >= number


def lex_what_stops():
    """Raises LexError."""
    lrlex.Definition(WORDS).spans("?")


def read_what_is_refused():
    """Raises RulesError."""
    lrlex.Definition("%%\n( 'A'")


class Tokens(unittest.TestCase):
    """Definitions and what they lex."""

    def test_a_first_text(self):
        definition = lrlex.Definition.from_str(WORDS)
        self.assertEqual(pairs(definition.lex("abc 123")), [("ID", "abc"), ("INT", "123")])
        self.assertEqual(definition.spans("abc 123"), [(1, 0, 3), (0, 4, 7)])
        self.assertEqual(list(definition.lex("")), [])

    def test_offsets_are_indices_of_the_str(self):
        text = "é 1 😀😀  2"
        tokens = list(lrlex.Definition(WORDS).lex(text))
        self.assertEqual(pairs(tokens), [("ID", "é"), ("INT", "1"), ("ID", "😀😀"), ("INT", "2")])
        self.assertEqual([text[it.start:it.end] for it in tokens], [it.text for it in tokens])

    def test_more_tokens_than_half_of_the_text(self):
        self.assertEqual(len(lrlex.Definition("%%\na 'A'").spans("a" * 1000)), 1000)

    def test_lexing_stops_where_no_rule_matches(self):
        tokens = lrlex.Definition(WORDS).lex("é 1\n?")
        self.assertEqual(next(tokens).text, "é")
        self.assertEqual(next(tokens).text, "1")
        with self.assertRaises(lrlex.LexError) as raised:
            next(tokens)
        stop = raised.exception
        self.assertEqual((stop.start, stop.byte, stop.line, stop.column, stop.state), (3, 4, 1, 4, 0))
        self.assertEqual(str(stop), "1:4: no token begins here")
        with self.assertRaises(lrlex.LexError):
            lrlex.Definition(WORDS).spans("?")

    def test_a_refused_rule_text_raises_all_its_faults(self):
        with self.assertRaises(lrlex.RulesError) as raised:
            lrlex.Definition.from_str("%x A A\n%%\na+b 'A'\nb 'A'\nc( 'C'\n")
        faults = raised.exception.faults
        self.assertEqual([it.places[0][:2] for it in faults], [(1, 4), (3, 6), (5, 1)])
        self.assertEqual([it.kind.name for it in faults], ["DUPLICATE_START_STATE", "DUPLICATE_NAME", "REGEX_ERROR"])
        self.assertEqual(faults[0].message, "Start state already exists")
        self.assertEqual([(it.start, it.end) for it in faults[0].places], [(3, 4), (5, 6)])
        self.assertTrue(str(raised.exception).startswith("1:4: Start state already exists, again at 1:6\n3:6: "))
        self.assertTrue(raised.exception.report("words.l").startswith("words.l:1:6: Start state already exists\n1 | %x A A\n"))

    def test_errors_are_copied_and_pickled(self):
        stop = error_of(lambda: lrlex.Definition(WORDS).spans("é ?"))
        # It is refused by this setting alone.
        refused = error_of(lambda: lrlex.Definition("%%\n\\052 'A'", octal=False))
        for copied in [copy.copy, copy.deepcopy, lambda it: pickle.loads(pickle.dumps(it))]:
            its_stop, its_refused = copied(stop), copied(refused)
            self.assertEqual((type(its_stop), vars(its_stop), str(its_stop)), (lrlex.LexError, vars(stop), str(stop)))
            self.assertEqual((type(its_refused), its_refused.faults, str(its_refused)), (lrlex.RulesError, refused.faults, str(refused)))
            self.assertEqual(its_refused.report("words.l"), refused.report("words.l"))
            self.assertTrue(its_refused.report("words.l").startswith("words.l:2:1: "))
        self.assertEqual(lrlex.RulesError(refused.faults).report("words.l"), str(refused))

    def test_errors_come_back_from_other_processes(self):
        with concurrent.futures.ProcessPoolExecutor(1) as pool:
            for kind, function in [(lrlex.LexError, lex_what_stops), (lrlex.RulesError, read_what_is_refused)]:
                with self.subTest(kind=kind), self.assertRaises(kind):
                    pool.submit(function).result(60)

    def test_ids_by_names(self):
        definition = lrlex.Definition(WORDS)
        self.assertEqual(definition.set_rule_ids({"ID": 70, "WORD": 8}), ({"WORD"}, {"INT"}))
        self.assertEqual(definition.spans("é"), [(70, 0, 1)])
        self.assertEqual((definition.name(70), definition.name(0)), ("ID", ""))
        with self.assertRaises(lrlex.LexError) as raised:
            definition.spans("1")
        self.assertIsNone(raised.exception.state)
        with self.assertRaises(OverflowError):
            definition.set_rule_ids({"ID": 1 << 32})
        document = lrlex.Document(definition, "a")
        with self.assertRaises(lrlex.SharedError):
            definition.set_rule_ids({})
        self.assertEqual([it.id for it in document.lex()], [70])
        del document
        gc.collect()
        self.assertEqual(definition.set_rule_ids({"INT": 0, "ID": 1}), (set(), set()))
        self.assertEqual(definition.spans("a1"), [(1, 0, 1), (0, 1, 2)])

    def test_flags(self):
        self.assertEqual(pairs(lrlex.Definition.from_str(WORDS, case_insensitive=True).lex("ABC")), [("ID", "ABC")])
        with self.assertRaises(TypeError):
            lrlex.Definition.from_str(WORDS, no_such_flag=True)

    def test_none_of_a_setting_is_the_default(self):
        settings = dict.fromkeys(["size_limit", "nest_limit", "budget", *_c.FLAGS])
        # By default classes are Unicode's, a dot matches a newline, and `\\052` is an octal escape.
        rules = "%%\n\\w 'W'\n\\052 'STAR'\n. 'ANY'\n"
        for given in [settings, dict.fromkeys(["size_limit", "nest_limit"], 0), {}]:
            definition = lrlex.Definition(rules, **given)
            self.assertEqual([it.name for it in definition.lex("é*\n")], ["W", "STAR", "ANY"])

    def test_numbers_that_do_not_fit(self):
        definition = lrlex.Definition(WORDS)
        documents = [lrlex.Document(definition, text) for text in ["abc 12", "abé 12"]]
        numbers = [-1, 7, 99, -1 << 64, 1 << 32, 1 << 64, (1 << 64) + 1]
        for document, number in itertools.product(documents, numbers):
            for call in [document.place, document.position, lambda it: document.position(it, "utf-8"), lambda it: document.edit(0, it, "")]:
                with self.subTest(text=document.text, number=number), self.assertRaises(IndexError):
                    call(number)
        for number in numbers:
            with self.subTest(number=number), self.assertRaises(IndexError):
                definition.rule_name(number)
            self.assertIsNone(definition.state_name(number))
        for number in [-1, 1 << 32, 1 << 64]:
            calls = [
                lambda it: lrlex.Definition(WORDS, nest_limit=it), lambda it: definition.set_rule_ids({"INT": it}), definition.name,
                lambda it: lrlex.Definition(WORDS, size_limit=it << 32), lambda it: lrlex.Definition(WORDS, budget=(it << 32, 0)),
                lambda it: lrlex.Definition(WORDS, budget=(0, it << 32)),
            ]
            for at, call in enumerate(calls):
                with self.subTest(number=number, call=at), self.assertRaises(OverflowError):
                    call(number)
        self.assertEqual(definition.name((1 << 32) - 1), "")

    def test_pieces_are_the_whole_text(self):
        pieces, stop = lrlex.Definition(WORDS).pieces("é  1?")
        self.assertEqual([(it.name, it.text) for it in pieces], [("ID", "é"), (None, "  "), ("INT", "1")])
        self.assertEqual(stop.start, 4)

    def test_where_a_text_enters_a_start_state(self):
        definition = lrlex.Definition(NESTED)
        rows = [
            ("é /* b /* c */ d", (2, 4, 1)), ("é /* 😀 /* c", (7, 9, 1)), ("a /* b * c", (2, 4, 1)),
            ("é /* b */ c", None), ("", None), ("a ? /*", None),
        ]
        for text, wanted in rows:
            with self.subTest(text=text):
                self.assertEqual(definition.entered_by(text), wanted)
                self.assertEqual(lrlex.Document(definition, text).entered_by(), wanted)
        self.assertEqual(definition.entered_by("/*"), lrlex.Entered(start=0, end=2, state=1))
        self.assertEqual(definition.state_name(1), "C")

    def test_names_and_reports(self):
        definition = lrlex.Definition(WORDS)
        self.assertEqual([definition.rule_name(it) for it in range(definition.rule_count)], ["INT", "ID", None])
        self.assertEqual((definition.state_name(0), definition.state_name(1), definition.name(9)), ("INITIAL", None, ""))
        self.assertTrue(definition.stop_report("a ?", "text").startswith("text:1:3: "))
        self.assertIsNone(definition.stop_report("a", "text"))

    def test_a_budget_changes_no_answer(self):
        self.assertEqual(lrlex.Definition(WORDS, budget=(0, 0)).spans("a 1"), [(1, 0, 1), (0, 2, 3)])

    def test_what_is_not_a_text(self):
        with self.assertRaises(UnicodeEncodeError):
            lrlex.Definition(WORDS).lex("\ud800")


class Checking(unittest.TestCase):
    """What is wrong with a rule text, or hardly meant in it."""

    def test_faults_below_the_first(self):
        rows = [
            ("word\n%s 1\n%%\na 'A'\n", [("UnknownDeclaration", [(1, 1, 0, 0)]), ("InvalidStartStateName", [(2, 4, 8, 8)])]),
            ("word\n%%\n( 'A'\n", [("UnknownDeclaration", [(1, 1, 0, 0)]), ("RegexError", [(3, 1, 8, 8)])]),
        ]
        for rules, wanted in rows:
            with self.subTest(rules=rules):
                found = lrlex.check(rules)
                self.assertEqual([(it.kind, it.places, it.is_fault) for it in found], [(*it, True) for it in wanted])
                refused = error_of(lambda: lrlex.Definition(rules))  # pylint: disable=cell-var-from-loop
                self.assertEqual([(it.places, it.kind.name) for it in refused.faults], [(found[0].places, "UNKNOWN_DECLARATION")])
                self.assertEqual(str(found[0]), f"1:1: Unknown declaration: {BEFORE_RULES}")
        rows = [("%%\nc( 'C'\n", "unclosed group"), ("%%\n( 'C'\n", f"unclosed group: {OPERATOR}")]
        for rules, message in rows:
            self.assertEqual([str(it) for it in lrlex.check(rules)], [f"2:1: Invalid regular expression: {message}"])

    def test_faults_with_more_than_one_place(self):
        found = lrlex.check("%s INITIAL\n%%\né 'A'\nb 'A'\n( 'B'\nc 'A'\n")
        self.assertEqual([it.kind for it in found], ["DuplicateStartState", "DuplicateName", "RegexError", "DuplicateName"])
        self.assertEqual(found[1].places, [(3, 4, 17, 18), (4, 4, 23, 24)])
        self.assertEqual(str(found[3]), "3:4: Rule name already exists, again at 6:4")

    def test_names_of_faults(self):
        rows = [
            ("", "PrematureEnd"), ("%%\n%%\nmore", "RoutinesNotSupported"), ("word\n%%\n", "UnknownDeclaration"),
            ("%%\na\n", "MissingSpace"), ("%%\nb 'B\n", "InvalidName"), ("%%\n<B>b 'B'\n", "UnknownStartState"),
            ("%x A A\n%%\n<A>a 'A'\n", "DuplicateStartState"), ("%%\n<c 'D'\n", "InvalidStartState"),
            ("%s 1\n%%\n", "InvalidStartStateName"), ("%%\na 'A'\nb 'A'\n", "DuplicateName"), ("%%\n( 'A'\n", "RegexError"),
            ("%%\n code\n", "VerbatimNotSupported"),
        ]
        for rules, kind in rows:
            with self.subTest(rules=rules):
                self.assertEqual([it.kind for it in lrlex.check(rules)], [kind])

    def test_warnings(self):
        for rules, kinds in WARNED:
            with self.subTest(rules=rules):
                found = lrlex.check(rules)
                self.assertEqual([it.kind for it in found], kinds)
                self.assertEqual([it for it in found if it.is_fault or not it.message], [])
        found = lrlex.check("%x S\n%%\n[a-z]+ 'ID'\nif 'IF'\n")
        self.assertEqual([it.kind for it in found], ["NeverEntered", "NoRules", "NeverWins"])
        self.assertEqual([it.places for it in found], [[(1, 4, 3, 4)], [(1, 4, 3, 4)], [(4, 1, 20, 22)]])
        self.assertEqual((found[2].message, str(found[2])), (NEVER_WINS, f"4:1: Warning: {NEVER_WINS} [NeverWins]"))
        self.assertEqual(found[2], ("NeverWins", NEVER_WINS, [lrlex.Place(line=4, column=1, start=20, end=22)], False))

    def test_places_are_indices_of_the_str(self):
        rules = "%%\né😀 'E'\n[a-z]+ 'ID'\nif 'IF'\n"
        [found] = lrlex.check(rules)
        [place] = found.places
        self.assertEqual((place, rules[place.start:place.end]), ((4, 1, 22, 24), "if"))
        [found] = lrlex.check("%%\nä|äö 'Ä'\n")
        self.assertEqual((found.kind, found.places), ("LostAlternative", [(2, 1, 3, 7)]))

    def test_many_findings(self):
        found = lrlex.check("%%\n" + "| ;\n" * 100)
        self.assertEqual([it.kind for it in found], ["NeverWins", "BareOperator"] * 100)
        self.assertEqual([it.places[0].start for it in found], [3 + it // 2 * 4 for it in range(200)])
        self.assertEqual(len(lrlex.check("%%\n" + "( ;\n" * 100)), 100)

    def test_settings(self):
        self.assertEqual([it.kind for it in lrlex.check("%%\n#.* ;\n")], ["GreedyDot"])
        self.assertEqual(lrlex.check("%%\n#.* ;\n", dot_matches_new_line=False), [])
        self.assertEqual(lrlex.check_report("%%\n#.* ;\n", "a.l", dot_matches_new_line=False), "")
        comments = "// c\n%%\na 'A'\n"
        self.assertEqual([it.kind for it in lrlex.check(comments)], ["UnknownDeclaration"])
        self.assertEqual(lrlex.check(comments, allow_wholeline_comments=True, octal=None), [])
        self.assertEqual([it.kind for it in lrlex.check("%%\n((a)) 'A'\n", nest_limit=1)], ["RegexError"])
        with self.assertRaises(TypeError):
            lrlex.check(WORDS, no_such_flag=True)
        with self.assertRaises(OverflowError):
            lrlex.check_report(WORDS, "a.l", size_limit=-1)
        with self.assertRaises(UnicodeEncodeError):
            lrlex.check("\ud800")

    def test_reports(self):
        rows = [
            ("%%\nif 'IF'\n[a-z]+ 'ID'\n", ""),
            ("%%\n[a-z]+ 'ID'\nif 'IF'\n", f"a.l:3:1: Warning: {NEVER_WINS} [NeverWins]\n3 | if 'IF'\n  | ^^\n"),
            (
                "%s k k\n%%\n",
                "a.l:1:6: Start state already exists\n1 | %s k k\n  |      ^\n"
                "a.l:1:4: first here\n1 | %s k k\n  |    ^\n",
            ),
            (
                "%%\n( 'A'\n) 'B'\n[a-z] C\n",
                f"a.l:2:1: Invalid regular expression: unclosed group: {OPERATOR}\n2 | ( 'A'\n  | ^\n"
                f"a.l:3:1: Invalid regular expression: unopened group: {OPERATOR}\n3 | ) 'B'\n  | ^\n"
                f"a.l:4:7: Invalid rule name: {QUOTES}\n4 | [a-z] C\n  |       ^\n",
            ),
        ]
        for rules, report in rows:
            with self.subTest(rules=rules):
                self.assertEqual(lrlex.check_report(rules, "a.l"), report)
        self.assertEqual(lrlex.check_report(rows[1][0], "é\udcff.l"), rows[1][1].replace("a.l", "é?.l"))

    def test_memory_that_has_run_out(self):
        for name in ["lrlex_check", "lrlex_warnings", "lrlex_warning_text"]:
            with mock.patch.object(_c.LIB, name, return_value=_c.NOMEM), self.assertRaises(MemoryError):
                lrlex.check("%%\n")
        for rules, name in [("%%\n", "lrlex_warning_report"), ("", "lrlex_fault_report"), ("", "lrlex_check")]:
            with mock.patch.object(_c.LIB, name, return_value=_c.NOMEM), self.assertRaises(MemoryError):
                lrlex.check_report(rules, "a.l")


class Threads(unittest.TestCase):
    """Definitions, documents and scanners that more than one thread uses."""

    def setUp(self):
        self.addCleanup(sys.setswitchinterval, sys.getswitchinterval())
        sys.setswitchinterval(1e-6)
        self.definition = lrlex.Definition(WORDS)

    def in_threads(self, function, rows):
        """What the function gives for each of the rows, on eight threads."""
        with concurrent.futures.ThreadPoolExecutor(8) as pool:
            return list(pool.map(function, rows))

    def test_threads_get_what_one_thread_gets(self):
        def work(text):
            document = lrlex.Document(self.definition, text)
            document.edit(0, 0, "é 1 ")
            edited = (document.text, pairs(document.lex()), document.position(2), document.offset_at(0, 2))
            return self.definition.spans(text), pairs(self.definition.lex(text)), list(self.definition.scanner(text)), edited

        texts = [f"a{number} é" * number for number in range(100)]
        self.assertEqual(self.in_threads(work, texts), [work(text) for text in texts])

    def test_one_scanner(self):
        text = "ab 12 é " * 500
        scanner = self.definition.scanner(text)
        parts = self.in_threads(lambda _: list(scanner), range(8))
        self.assertEqual(sorted((it for part in parts for it in part), key=lambda it: it.start), list(self.definition.scanner(text)))

    def test_one_document(self):
        document = lrlex.Document(self.definition, "é")

        def work(_):
            document.edit(0, 0, "1 ")
            text, lexed, (pieces, _) = document.text, list(document.lex()), document.pieces()
            return text[-1], lexed[-1].text, pieces[-1].text, document.place(1)

        self.assertEqual(set(self.in_threads(work, range(200))), {("é", "é", "é", (1, 2))})
        self.assertEqual(document.text, "1 " * 200 + "é")

    def test_ids_change_between_two_calls(self):
        def work(number):
            if number % 2:
                return self.definition.set_rule_ids({"INT": number, "ID": number + 1})
            return pairs(self.definition.lex("a 1"))

        found = self.in_threads(work, range(400))
        self.assertEqual([it for it in found if it not in ([("ID", "a"), ("INT", "1")], (set(), set()))], [])

    def test_what_nothing_refers_to_is_freed_without_a_lock(self):
        document = lrlex.Document(self.definition, "a")
        # pylint: disable-next=protected-access
        lock, cycle = document._held.lock, [document]
        cycle.append(cycle)
        del cycle, document
        with concurrent.futures.ThreadPoolExecutor(1) as pool, lock:
            pool.submit(gc.collect).result(60)
        self.assertEqual(self.definition.set_rule_ids({"INT": 0, "ID": 1}), (set(), set()))

    def test_nothing_is_freed_at_the_end(self):
        words = f"""if True:
            import lrlex
            lrlex._c.LIB.lrlex_free = print
            definition = lrlex.Definition({WORDS!r})
            document, scanner = lrlex.Document(definition, "a"), definition.scanner("a")
        """
        environment = {**os.environ, "PYTHONPATH": os.pathsep.join(sys.path)}
        came = subprocess.run([sys.executable, "-c", words], env=environment, capture_output=True, check=True)
        self.assertEqual((came.stdout, came.stderr), (b"", b""))


class Documents(unittest.TestCase):
    """Texts that are edited."""

    def test_a_document_through_edits(self):
        definition = lrlex.Definition(WORDS)
        document = lrlex.Document(definition, "é 1")
        document.edit(1, 2, "b ")
        self.assertEqual((document.text, pairs(document.lex())), ("éb 1", [("ID", "éb"), ("INT", "1")]))
        for start, end in [(3, 2), (0, 99), (-1, 0)]:
            with self.assertRaises(IndexError):
                document.edit(start, end, "")
        self.assertEqual(document.pieces()[1], None)
        document.edit(4, 4, "?")
        with self.assertRaises(lrlex.LexError) as raised:
            list(document.lex())
        for start in [0, 3, 9]:
            self.assertEqual(vars(document.pieces(start)[1]), vars(raised.exception))
        document.edit(4, 5, "😀")
        self.assertEqual(pairs(document.lex()), pairs(definition.lex("éb 1😀")))
        self.assertEqual([it.text for it in document.pieces(1, 3)[0]], ["éb", " "])
        self.assertEqual(document.pieces(), definition.pieces("éb 1😀"))
        self.assertEqual((document.place(5), document.position(5)), ((1, 6), (0, 6)))

    def test_edits_of_where_a_start_state_is_entered(self):
        document = lrlex.Document(lrlex.Definition(NESTED), "é /* b /* c */ d")
        document.edit(12, 14, "")
        self.assertEqual(document.entered_by(), (7, 9, 1))
        document.edit(7, 9, "*/")
        self.assertIsNone(document.entered_by())

    def test_places_of_a_text(self):
        text = "é\nb 😀c\n\nd"
        document = lrlex.Document(lrlex.Definition(WORDS), text)
        for indices in [range(len(text) + 1), [9, 0, 3, 3, 1], iter([4]), []]:
            indices = list(indices)
            with self.subTest(indices=indices):
                self.assertEqual(lrlex.places(text, iter(indices)), [document.place(it) for it in indices])
        self.assertEqual(lrlex.places("ab\nc", [3, 0, 4]), [(2, 1), (1, 1), (2, 2)])
        for text, index in [("é", 2), ("a", 2), ("", 1), ("ab", -1)]:
            with self.assertRaises(IndexError):
                lrlex.places(text, [0, index])
        long = "é b" * 100_000
        self.assertEqual(lrlex.places(long, range(len(long)))[-1], (1, 300_000))

    def test_indices_of_positions(self):
        document = lrlex.Document(lrlex.Definition(WORDS), "a😀b\né1")
        self.assertEqual((document.position(2), document.position(2, "utf-8")), ((0, 3), (0, 5)))
        rows = [
            ((0, 3), 2), ((0, 5, "utf-8"), 2),
            # between a pair of surrogates, and inside a character
            ((0, 2), 1), ((0, 3, "utf-8"), 1),
            # past a line's end, and past the last line
            ((0, 99), 3), ((1, 1 << 70), 6), ((2, 0, "utf-8"), 6),
        ]
        for position, index in rows:
            with self.subTest(position=position):
                self.assertEqual(document.offset_at(*position), index)
        self.assertEqual(lrlex.Document(document.definition, "").offset_at(0, 0), 0)
        for position in [(0, 0, "utf-32"), (-1, 0)]:
            with self.subTest(position=position), self.assertRaises(ValueError):
                document.offset_at(*position)

    def test_the_definition_may_go_first(self):
        document = lrlex.Document(lrlex.Definition(WORDS), "a b")
        gc.collect()
        self.assertEqual(len(list(document.lex())), 2)


class Scanners(unittest.TestCase):
    """Texts whose tiles are pulled."""

    def test_tiles_and_where_lexing_stops(self):
        scanner = lrlex.Definition(WORDS).scanner("é  1?")
        gc.collect()
        self.assertEqual([next(scanner) for _ in range(3)], [("ID", "é", 0, 1, 1, 1), (None, "  ", 1, 3, 2, None), ("INT", "1", 3, 4, 0, 0)])
        for _ in range(2):
            with self.assertRaises(lrlex.LexError) as raised:
                next(scanner)
            stop = raised.exception
            self.assertEqual((stop.start, stop.byte, stop.line, stop.column, stop.state), (4, 5, 1, 5, 0))
        self.assertEqual(list(lrlex.Scanner(lrlex.Definition(WORDS), "")), [])

    def test_what_a_scanner_gives_is_what_lexing_gives(self):
        definition = lrlex.Definition(WORDS)
        for text in ["ab 12 " * 5000, "é 😀1 " * 2000]:
            tiles = list(definition.scanner(text))
            self.assertEqual([(it.id, it.start, it.end) for it in tiles if it.id is not None], definition.spans(text))
            self.assertEqual("".join(it.text for it in tiles), text)

    def test_memory_that_has_run_out(self):
        definition = lrlex.Definition(WORDS)
        scanner, document = definition.scanner("é 1"), lrlex.Document(definition, "é 1")

        def out_of_memory(_handle, _tiles, _room, scanned):
            # What is written then is anything.
            scanned._obj.count = scanned._obj.place = 7  # pylint: disable=protected-access
            return _c.NOMEM

        with mock.patch.object(_c.LIB, "lrlex_scanner_next", out_of_memory), self.assertRaises(MemoryError):
            next(scanner)
        self.assertEqual(list(itertools.islice(scanner, 9)), list(definition.scanner("é 1")))
        with mock.patch.object(_c.LIB, "lrlex_document_edit", return_value=_c.NOMEM), self.assertRaises(MemoryError):
            document.edit(0, 1, "b")
        self.assertEqual((document.text, pairs(document.lex())), ("é 1", [("ID", "é"), ("INT", "1")]))
        document.edit(0, 1, "b")
        self.assertEqual((document.text, pairs(document.lex())), ("b 1", [("ID", "b"), ("INT", "1")]))
        refused = error_of(lambda: lrlex.Definition("%%\n( 'A'"))
        with mock.patch.object(_c.LIB, "lrlex_definition_new", return_value=_c.NOMEM), self.assertRaises(MemoryError):
            refused.report("words.l")

    def test_a_scanner_is_an_owner(self):
        definition = lrlex.Definition(WORDS)
        scanner = definition.scanner("a")
        with self.assertRaises(lrlex.SharedError):
            definition.set_rule_ids({})
        del scanner
        gc.collect()
        definition.set_rule_ids({})
        with self.assertRaises(lrlex.LexError) as raised:
            next(definition.scanner("a"))
        self.assertIsNone(raised.exception.state)


class Closing(unittest.TestCase):
    """What is closed, as files are."""

    def test_what_is_closed_is_not_used(self):
        open_one = lrlex.Definition(WORDS)
        rows = [
            (lrlex.Definition(WORDS), [
                lambda it: it.lex("a"), lambda it: it.spans("a"), lambda it: it.pieces("a"), lambda it: it.scanner("a"),
                lambda it: lrlex.Document(it, "a"), lambda it: it.name(0), lambda it: it.rule_name(0), lambda it: it.rule_count,
                lambda it: it.state_name(0), lambda it: it.set_rule_ids({}), lambda it: it.stop_report("?", "a"),
                lambda it: it.entered_by("a"),
            ]),
            (lrlex.Document(open_one, "a 1"), [
                lambda it: it.lex(), lambda it: it.pieces(), lambda it: it.text, lambda it: it.edit(0, 0, "b"), lambda it: it.place(0),
                lambda it: it.position(0), lambda it: it.offset_at(0, 0), lambda it: it.entered_by(),
            ]),
            (open_one.scanner("a 1"), [next, list]),
        ]
        for it, uses in rows:
            self.assertFalse(it.closed)
            with it as entered:
                self.assertIs(entered, it)
                # A scanner has made tiles before it is closed.
                uses[0](it)
            self.assertTrue(it.closed)
            it.close()
            for number, use in enumerate([*uses, lambda it: it.__enter__()]):
                with self.subTest(kind=type(it), use=number):
                    with self.assertRaises(ValueError) as raised:
                        use(it)
                    self.assertEqual(str(raised.exception), f"the {type(it).__name__} is closed")

    def test_an_exception_closes(self):
        with self.assertRaises(LookupError), lrlex.Document(lrlex.Definition(WORDS), "a") as document:
            raise LookupError
        self.assertTrue(document.closed)

    def test_no_collection_is_needed_to_set_ids(self):
        definition = lrlex.Definition(WORDS)
        for make in [lambda: lrlex.Document(definition, "a"), lambda: definition.scanner("a")]:
            with make() as it:
                with self.assertRaises(lrlex.SharedError):
                    definition.set_rule_ids({"ID": 7})
            self.assertEqual(definition.set_rule_ids({"ID": 7}), (set(), {"INT"}))
            self.assertTrue(it.closed)

    def test_a_closed_definition_leaves_its_documents(self):
        with lrlex.Definition(WORDS) as definition:
            document, scanner = lrlex.Document(definition, "a"), definition.scanner("a 1")
        document.edit(1, 1, " 1")
        self.assertEqual(pairs(document.lex()), [("ID", "a"), ("INT", "1")])
        self.assertEqual(pairs(scanner), [("ID", "a"), (None, " "), ("INT", "1")])

    def test_what_has_a_handle_is_not_copied(self):
        definition = lrlex.Definition(WORDS)
        for it in [definition, lrlex.Document(definition, "a"), definition.scanner("a")]:
            for copied in [copy.copy, copy.deepcopy, pickle.dumps]:
                with self.subTest(kind=type(it)), self.assertRaises(TypeError) as raised:
                    copied(it)
                self.assertEqual(str(raised.exception), f"a {type(it).__name__} can't be copied or pickled")


class Names(unittest.TestCase):
    """What the package shows of itself."""

    def test_what_each_object_is(self):
        definition = lrlex.Definition(WORDS)
        document, scanner = lrlex.Document(definition, "é 1"), definition.scanner("é 1")
        self.assertEqual(repr(definition), "<lrlex.Definition of 3 rules>")
        self.assertEqual([repr(document), repr(scanner)], ["<lrlex.Document of 3 characters>", "<lrlex.Scanner of 3 characters>"])
        for it in [definition, document, scanner]:
            it.close()
            self.assertEqual(repr(it), f"<lrlex.{type(it).__name__} that is closed>")
        stop = lrlex.LexError(3, 4, 1, 4, None)
        self.assertEqual(repr(stop), "LexError(start=3, byte=4, line=1, column=4, state=None)")
        fault = lrlex.Fault("Invalid name", [lrlex.Place(2, 1, 3, 4)], lrlex.FaultKind.INVALID_NAME)
        self.assertEqual(repr(lrlex.RulesError([fault], "%%", {})), f"RulesError([{fault!r}])")
        self.assertEqual(str(fault), "2:1: Invalid name")

    def test_all_names_are_there(self):
        for module in [lrlex, *([importlib.import_module("lrlex.pygments")] if importlib.util.find_spec("pygments") else [])]:
            self.assertEqual([name for name in module.__all__ if not hasattr(module, name)], [])
        shown = {name for name, it in vars(lrlex).items() if callable(it) and not name.startswith("_")}
        self.assertEqual(shown, {name for name in lrlex.__all__ if name != "__version__"})

    def test_all_is_typed(self):
        """Each function says what it takes and gives, and each type that it names is there."""
        for module in [importlib.import_module(name) for name in ["lrlex._c", "lrlex._lexing", "lrlex._checking", "lrlex.__main__"]]:
            for owner in [module, *(it for it in vars(module).values() if isinstance(it, type) and it.__module__ == module.__name__)]:
                for name, it in vars(owner).items():
                    it = getattr(it, "fget", None) or getattr(it, "__func__", it)
                    if not isinstance(it, types.FunctionType) or it.__module__ != module.__name__:
                        continue
                    taken = it.__code__.co_varnames[:it.__code__.co_argcount + it.__code__.co_kwonlyargcount]
                    with self.subTest(function=f"{owner.__name__}.{name}"):
                        hints = typing.get_type_hints(it)
                        self.assertLessEqual({*taken, "return"} - {"self", "cls"}, hints.keys())


class Signals(unittest.TestCase):
    """Handlers of signals between any two steps of a call: those that raise, and those that call."""

    def setUp(self):
        self.definition = lrlex.Definition(WORDS)
        room = mock.patch.object(lrlex.Scanner, "_ROOM", 2)
        room.start()
        self.addCleanup(room.stop)

    def each_step(self, make):
        """For each step of a call, `make` gives the handler, the call, and what tests the outcome."""
        for number in itertools.count(1):
            handler, call, test = make()
            if not had_step(number, handler, call):
                break
            with self.subTest(step=number):
                test()
        gc.collect()
        self.assertGreater(number, 10)

    def test_a_scanner_goes_on_where_it_was(self):
        for text in ["é 1 a", "e 1"]:
            wanted = list(self.definition.scanner(text))

            def make():
                scanner, got = self.definition.scanner(text), []

                def test():
                    got.extend(scanner)
                    self.assertEqual(got, [it for it in wanted if it in got])
                    # The tile that was on its way is lost, if it was made.
                    self.assertLessEqual(len(wanted) - len(got), 1)

                return interrupt, lambda: got.extend(it for it in scanner), test

            self.each_step(make)

    def test_a_scanner_in_its_own_call(self):
        text = "é 1 ab 2"
        wanted = set(self.definition.scanner(text))

        def make():
            scanner, got = self.definition.scanner(text), []
            return lambda: got.extend(scanner), lambda: got.extend(it for it in scanner), lambda: self.assertEqual(set(got), wanted)

        self.each_step(make)

    def check_text(self, document, texts):
        """The document has one of these texts, and its tokens and places are those of the text."""
        text = document.text
        self.assertIn(text, texts)
        self.assertEqual(pairs(document.lex()), pairs(self.definition.lex(text)))
        document.edit(len(text), len(text), "é")
        self.assertEqual(document.text, f"{text}é")
        self.assertEqual(document.place(len(text)), (1, len(text) + 1))

    def test_an_edit_is_made_or_not(self):
        def make():
            document = lrlex.Document(self.definition, "é 1")
            return interrupt, lambda: document.edit(1, 2, "b 😀"), lambda: self.check_text(document, ["é 1", "éb 😀1"])

        self.each_step(make)

    def test_a_document_in_its_own_edit(self):
        def make():
            document = lrlex.Document(self.definition, "é 1")

            def handler():
                self.check_text(document, ["é 1", "éb 😀1"])

            # The other edit is made before this one or after it.
            return handler, lambda: document.edit(1, 2, "b 😀"), lambda: self.check_text(document, ["éb 😀1é"])

        self.each_step(make)

    def test_ids_are_set_or_not(self):
        def make():
            definition = lrlex.Definition(WORDS)
            definition.name(0)

            def test():
                self.assertEqual([it.name for it in definition.lex("a 1")], ["ID", "INT"])
                self.assertIn([definition.name(it) for it in [0, 1, 7]], [["INT", "ID", ""], ["INT", "", "ID"]])

            return interrupt, lambda: definition.set_rule_ids({"INT": 0, "ID": 7}), test

        self.each_step(make)

    def test_a_definition_in_its_own_call(self):
        def make():
            definition = lrlex.Definition(WORDS)
            test = lambda: self.assertEqual(pairs(definition.lex("a 1")), [("ID", "a"), ("INT", "1")])  # noqa: E731
            return test, lambda: definition.set_rule_ids({"INT": 0, "ID": 7}), test

        self.each_step(make)

    def test_garbage_of_interrupted_calls(self):
        document = lrlex.Document(self.definition, "é 1")
        for call in [lambda: self.definition.spans("é 1"), document.lex, document.pieces, lambda: self.definition.pieces("é 1")]:
            self.each_step(lambda: (interrupt, call, lambda: None))  # pylint: disable=cell-var-from-loop


class Loading(unittest.TestCase):
    """Which library is loaded."""

    def refused(self, path):
        """With what words the library at this path is refused."""
        with mock.patch.dict(os.environ, LRLEX_LIBRARY=path), self.assertRaises(ImportError) as raised:
            _c.load()
        self.assertIn(f"set LRLEX_LIBRARY to the path of {_c.NAME}", str(raised.exception))
        return str(raised.exception).partition(":")[0]

    def test_what_is_no_library_of_lrlex(self):
        self.assertEqual(self.refused("/no/such/file"), "/no/such/file can't be loaded")
        self.assertEqual(self.refused(__file__), f"{__file__} can't be loaded")
        self.assertEqual(self.refused("libc.so.6"), "libc.so.6 isn't the C library of lrlex")

    def test_other_versions_are_refused(self):
        rows = [(99, "0.0"), (200, "0.2"), (10100, "1.1"), (1020304, "102.3")]
        for number, version in rows:
            library = types.SimpleNamespace(lrlex_version=lambda number=number: number)
            with self.subTest(version=version), mock.patch("ctypes.CDLL", return_value=library):
                self.assertEqual(self.refused("a.so"), f"a.so has version {version}, and this package needs 0.1")
        _c.check_version("a.so", 199)

    def test_the_name_is_left_to_the_loader(self):
        with mock.patch.dict(os.environ), mock.patch("subprocess.Popen", side_effect=AssertionError("a process is started")):
            os.environ.pop("LRLEX_LIBRARY", None)
            self.assertEqual(_c.find(), "liblrlex.so.0.1")
            with mock.patch("os.path.exists", return_value=True):
                self.assertEqual(os.path.split(_c.find()), (os.path.dirname(_c.__file__), "liblrlex.so.0.1"))

    def test_what_the_header_declares(self):
        path = os.path.join(os.path.dirname(__file__), "..", "..", "..", "include", "lrlex.h")
        if not os.path.exists(path):
            raise unittest.SkipTest("the header isn't there")
        with open(path, encoding="utf-8") as file:
            header = file.read()
        numbers = {name: int(number) for name, number in re.findall(r"\bLRLEX_([A-Z0-9_]+) = (\d+)\b", header)}
        for names in [lrlex.FaultKind.__members__, {name.upper(): bit for name, bit in _c.FLAGS.items()}]:
            self.assertEqual({name: numbers.get(name) for name in names}, dict(names))
        for first, name_of, count in [("PREMATURE_END", _c.LIB.lrlex_fault_name, 13), ("NEVER_WINS", _c.LIB.lrlex_warning_name, 18)]:
            kinds = re.findall(r"LRLEX_(\w+) = (\d+)", re.search(f"LRLEX_{first}.*?}}", header, re.S)[0])
            self.assertEqual([int(number) for _, number in kinds], list(range(count)))
            named = [_c.text_by(name_of, it) for it in range(count + 1)]
            self.assertEqual(named, [*(name.title().replace("_", "") for name, _ in kinds), None])
        self.assertEqual(len(lrlex.FaultKind), 13)
        called = set(re.findall(r"^\w[\w *]*?\b(lrlex_\w+)\(", header, re.M))
        self.assertLessEqual(_c.FUNCTIONS.keys(), called)

    def test_one_version(self):
        with open(os.path.join(os.path.dirname(os.path.dirname(__file__)), "pyproject.toml"), encoding="utf-8") as file:
            self.assertIn(f'version = "{lrlex.__version__}"\n', file.read())
        self.assertEqual(_c.NAME, f"liblrlex.so.{lrlex.__version__.rpartition('.')[0]}")


class Program(unittest.TestCase):
    """python3 -m lrlex"""

    def setUp(self):
        folder = tempfile.TemporaryDirectory()
        self.addCleanup(folder.cleanup)
        self.folder = folder.name

    def file(self, name, content):
        """The path of a file that has this content."""
        path = os.path.join(os.fsencode(self.folder), os.fsencode(name))
        with open(path, "wb") as file:
            file.write(content if isinstance(content, bytes) else content.encode())
        return os.fsdecode(path)

    def run_on(self, rules, text, *words, name="text"):
        """The status, and the texts of standard output and standard error."""
        words = [self.file("rules", rules), self.file(name, text), *words]
        with mock.patch("sys.stdout", io.TextIOWrapper(io.BytesIO())) as out, redirect_stderr(io.StringIO()) as err:
            return program.main(words), out.buffer.getvalue().decode(), err.getvalue()

    def run_alone(self, *words, **how):
        """The status, and the texts of standard output and standard error, in a process of its own."""
        environment = {**os.environ, "PYTHONPATH": os.pathsep.join(sys.path), "PYTHONIOENCODING": "ascii"}
        how = {"stdout": subprocess.PIPE, **how}
        came = subprocess.run([sys.executable, "-m", "lrlex", *words], env=environment, stderr=subprocess.PIPE, check=False, **how)
        return came.returncode, (came.stdout or b"").decode(), came.stderr.decode()

    def test_tokens_as_text_and_as_json(self):
        self.assertEqual(self.run_on(WORDS, "é 1"), (0, "ID é\nINT 1\n", ""))
        status, out, err = self.run_on(WORDS, "é 1", "--json")
        self.assertEqual((status, err), (0, ""))
        self.assertEqual([json.loads(line)["text"] for line in out.splitlines()], ["é", "1"])

    def test_what_is_refused(self):
        self.assertEqual(self.run_on(WORDS, "a ?"), (1, "ID a\nCouldn't lex input starting at byte 2\n", ""))
        status, out, err = self.run_on("%%\n( 'A'", "")
        self.assertEqual((status, out), (1, ""))
        self.assertRegex(err, r"\A\d+:\d+: .+\n\Z")
        path = os.path.join(self.folder, "text")
        self.assertEqual(self.run_on(WORDS, b"a \xff"), (1, "", f"File {path} is not UTF-8\n"))
        rules = os.path.join(self.folder, "rules")
        for words, missing in [([self.folder, rules], self.folder), ([rules, f"{path}.no"], f"{path}.no")]:
            with redirect_stderr(io.StringIO()) as err:
                self.assertEqual(program.main(words), 1)
            self.assertEqual(err.getvalue(), f"Can't open file {missing}\n")

    def test_the_name_of_a_file_is_any_bytes(self):
        status, out, err = self.run_on(WORDS, "a ?", "--json", name=b"\xff.txt")
        self.assertEqual((status, len(out.splitlines())), (1, 1))
        self.assertTrue(err.startswith(f"{self.folder}/?.txt:1:3: "), err)
        name = os.fsdecode(b"\xff.txt")
        self.assertTrue(lrlex.Definition(WORDS).stop_report("?", name).startswith("?.txt:1:1: "))
        self.assertTrue(error_of(lambda: lrlex.Definition("%%\n( 'A'")).report(name).startswith("?.txt:"))
        rules, missing = self.file("rules", WORDS), os.path.join(self.folder, name)
        self.assertEqual(self.run_alone(rules, f"{missing}.no"), (1, "", f"Can't open file {self.folder}/\\udcff.txt.no\n"))

    def test_words_that_are_wrong(self):
        for words, message in [
            (["-", "-"], "RULES and INPUT can't both be standard input"), (["rules"], "the following arguments are required: INPUT"),
            (["rules", "text", "--unicode", "maybe"], "argument --unicode: invalid choice"),
            (["--check"], "the following arguments are required: RULES"), (["--check", "rules", "text"], "--check takes no INPUT"),
            (["--check", "rules", "--json"], "argument --json: not allowed with argument --check"),
        ]:
            with self.subTest(words=words), redirect_stderr(io.StringIO()) as err:
                with self.assertRaises(SystemExit) as raised:
                    program.main(words)
                self.assertEqual(raised.exception.code, 1)
                self.assertIn(f"python3 -m lrlex: error: {message}", err.getvalue())

    def run_check(self, rules, *words):
        """The status, and the texts of standard output and standard error, of --check on a file `rules` that has this content."""
        words = ["--check", self.file("rules", rules), *words]
        with mock.patch("sys.stdout", io.TextIOWrapper(io.BytesIO())) as out, redirect_stderr(io.StringIO()) as err:
            status = program.main(words)
        return status, out.buffer.getvalue().decode().replace(f"{self.folder}/", ""), err.getvalue()

    def test_what_is_found_in_rules(self):
        warned = f"rules:3:1: Warning: {NEVER_WINS} [NeverWins]\n3 | if 'IF'\n  | ^^\n"
        self.assertEqual(self.run_check("%%\n[a-z]+ 'ID'\nif 'IF'\n"), (0, warned, ""))
        self.assertEqual(self.run_check("%%\nif 'IF'\n[a-z]+ 'ID'\n"), (0, "", ""))
        told = (
            f"rules:1:1: Unknown declaration: {BEFORE_RULES}\n1 | a\n  | ^\n"
            "rules:1:2: File ends prematurely: no line begins with %%; write one before the rules\n1 | a\n  |  ^\n"
        )
        self.assertEqual(self.run_check("a"), (1, told, ""))
        self.assertEqual(self.run_check("%%\n#.* ;\n", "--dot-matches-new-line", "false"), (0, "", ""))
        self.assertEqual(self.run_check(b"\xff"), (1, "", f"File {self.folder}/rules is not UTF-8\n"))
        self.assertEqual(self.run_alone("--check", "-", input=b"a"), (1, told.replace("rules:", "stdin:"), ""))
        with open("/dev/full", "wb") as full:
            self.assertEqual(self.run_alone("--check", self.file("rules", "a"), stdout=full), (1, "", "Can't write\n"))

    def test_standard_streams(self):
        rules, text = self.file("rules", WORDS), self.file("text", "é 1")
        self.assertEqual(self.run_alone(rules, "-", input="é 1".encode()), (0, "ID é\nINT 1\n", ""))
        self.assertEqual(self.run_alone("-", text, input=WORDS.encode()), (0, "ID é\nINT 1\n", ""))
        with open("/dev/full", "wb") as full:
            self.assertEqual(self.run_alone(rules, text, stdout=full), (1, "", "Can't write\n"))

    def test_memory_that_has_run_out(self):
        with mock.patch.object(program, "Definition") as definition:
            definition.from_str.side_effect = MemoryError
            self.assertEqual(self.run_on(WORDS, ""), (1, "", "Out of memory\n"))


class Pygments(unittest.TestCase):
    """A lexer of Pygments from a rule file."""

    def test_the_types_of_a_text(self):
        try:
            from lrlex.pygments import RulesLexer
            from pygments.token import Comment, Error, Name, Number, Text, Whitespace
        except ImportError as why:
            raise unittest.SkipTest("Pygments isn't installed") from why
        with tempfile.TemporaryDirectory() as folder:
            rules, types = os.path.join(folder, "words.l"), os.path.join(folder, "words.types")
            with open(rules, "w", encoding="utf-8") as file:
                file.write(WORDS + "\\n ;\n#[^\\n]* ;\n= 'IS'\n")
            with open(types, "w", encoding="utf-8") as file:
                file.write("# of words.l\nINT Number.Integer\nI? Name\n; Comment\n")
            lexer = RulesLexer(rules=rules)
            found = list(lexer.get_tokens("é = 1! #é"))
        self.assertEqual("".join(text for _, text in found), "é = 1! #é\n")
        kinds = [kind for kind, text in found if text.strip()]
        self.assertEqual(kinds, [Name, Name, Number.Integer, Error, Comment])
        self.assertIn((Whitespace, " "), found)
        self.assertNotIn(Text, kinds)


if __name__ == "__main__":
    unittest.main()
