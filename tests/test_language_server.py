"""The language server, from outside: what a client is told and answered."""

import json
import os
import tempfile
import unittest

from language_server import dialogues, mutated, refused
from language_server.client import REFRESH, SHOWING, Client, applied, decoded, notification, ranged, rules_file, spot
from support import programs
from support.messages import (
    DECLARE_LIST, KINDS, LIST, LOOKS, LOST, MARGIN, NEVER_ENTERED, NEVER_WINS, NO_MARK, OPERATOR, QUOTES, RULE, STATE_NAME,
)

URI, TEXT = "file:///texts/rules.l", "file:///texts/a.txt"

RULES = """%%
let 'LET'
[a-z]+ 'NAME'
[0-9]+ 'NUMBER'
"[^"]*" 'STRING'
[=+;] 'SIGN'
#[^\\n]* ;
[ \\n]+ ;
"""

# U+000D and U+000A in tokens of their own.
LINES = """%%
[a-z]+ 'NAME'
"[^"]*" 'STRING'
\\r ;
\\n ;
"""

# What a piece is guessed to be, by its rule's name and its text.
GUESSES = """%%
[0-9]+x 'IN_TEXT'
[0-9]+y 'string'
[0-9]+z|comment 'COMMENT'
fi 'Kfi'
[0-9]+ 'INT'
'[^']*' 'QUOTED'
[+] 'PLUS'
[a-z_]+ 'ID'
#[^\\n]* ;
[ \\n]+ ;
"""

FAULTS = "%s here here\n%%\n[a-z]+ 'ID'\n[A-Z] 'ID'\n 'indented'\n( 'OPEN'\n"

# Rules with start states.
STATES = """%x COMMENT STRING
%%
[a-z]+ 'ID'
[ \\n]+ ;
/\\* <+COMMENT>;
" <STRING>'OPEN'
<COMMENT>/\\* <+COMMENT>;
<COMMENT>\\*/ <-COMMENT>;
<COMMENT>.|\\n ;
<STRING>" <INITIAL>'CLOSE'
<STRING>[^"\\n]+ 'TEXT'
"""
# The severity of a warning, and its tags: 2 a warning, 4 a hint; tag 1 is that of what does nothing.
WEIGHTS = {NEVER_WINS: (2, [1]), LOOKS: (4, None), LOST: (2, None)}

# How many bytes a header of a head can have before the 20 of a length of two figures and the last four: 8,192 in all.
LONGEST = 8_192 - len("X: \r\nContent-Length: 37\r\n\r\n")

# How much the gate tries. The long runs are `python3 -m language_server.dialogues` and LRLEX_LONG=1.
IS_LONG = bool(os.environ.get("LRLEX_LONG"))
MESSAGES = 20_000
EDITS = 10_000 if IS_LONG else 1_000
EVERY = 1 if IS_LONG else 16

# How many findings a line has.
MANY = 10_000


class Session(unittest.TestCase):
    """Tests of one client each."""

    def client(self, *words):
        """A client of a server with these words."""
        client = Client(*words)
        self.addCleanup(client.__exit__)
        return client

    def code(self, answer):
        """The code of an error."""
        return answer["error"]["code"]


class Protocol(Session):
    """The order of a session, and messages that can't be answered."""

    def test_capabilities(self):
        client = self.client()
        capabilities = client.begin()
        self.assertEqual("utf-16", capabilities["positionEncoding"])
        self.assertEqual({"openClose": True, "change": 2, "save": {"includeText": False}}, capabilities["textDocumentSync"])
        self.assertEqual("keyword", client.types[15])
        self.assertEqual(0, client.end())

    def test_utf8_where_offered(self):
        client = self.client()
        capabilities = client.begin({"general": {"positionEncodings": ["utf-8", "utf-16"]}})
        self.assertEqual("utf-8", capabilities["positionEncoding"])
        client.open(URI, "%%\n[é😀]x 'A'\n[a 'B'\n")
        client.change(URI, ranged((1, 7), (1, 8), "y"))
        self.assertEqual(1, len(client.change(URI, ranged((1, 7), (1, 8), "]"))["diagnostics"]))
        self.assertEqual(0, client.end())

    def test_before_initialize(self):
        client = self.client()
        self.assertEqual(-32002, self.code(client.ask("textDocument/hover", {})))
        client.notify("textDocument/didOpen", {"textDocument": {"uri": URI, "version": 1, "text": "x"}})
        client.begin()
        self.assertEqual([], client.notes)
        self.assertEqual(-32601, self.code(client.ask("textDocument/hover", {})))
        self.assertEqual(-32600, self.code(client.ask("initialize", {})))
        self.assertEqual(0, client.end())

    def test_after_shutdown(self):
        client = self.client()
        client.begin()
        self.assertIsNone(client.ask("shutdown")["result"])
        self.assertEqual(-32600, self.code(client.ask("textDocument/hover", {})))
        client.notify("textDocument/didOpen", {"textDocument": {"uri": URI, "version": 1, "text": "x"}})
        self.assertEqual(-32600, self.code(client.ask("shutdown")))
        client.notify("exit")
        self.assertEqual(0, client.process.wait(10))
        self.assertIsNone(client.read())

    def test_malformed_messages(self):
        client = self.client()
        rows = [(b"{nonsense", -32700), (b"\xff\xfe", -32700), (b"", -32700), (b"[]", -32600), (b"5", -32600), (b"{}", -32600)]
        for body, code in rows:
            with self.subTest(body=body):
                client.write(body)
                answer = client.read()
                self.assertEqual((code, None), (self.code(answer), answer["id"]))
        client.write({"jsonrpc": "2.0", "id": 7, "method": 5})
        answer = client.read()
        self.assertEqual((-32600, 7), (self.code(answer), answer["id"]))
        client.begin()
        client.write({"jsonrpc": "2.0", "id": 'a"b', "method": "x"})
        answer = client.read()
        self.assertEqual((-32601, 'a"b'), (self.code(answer), answer["id"]))
        about = {"textDocument": {"uri": "file:///none"}}
        self.assertEqual(-32602, self.code(client.ask("textDocument/semanticTokens/full", about)))
        self.assertEqual(0, client.end())

    def test_no_answer_to_notifications_and_answers(self):
        client = self.client()
        client.begin()
        client.notify("no/such/method", {})
        client.notify("textDocument/didChange", 5)
        client.write({"jsonrpc": "2.0", "id": 1, "result": None})
        client.write({"jsonrpc": "2.0", "id": 2, "error": {"code": 1, "message": ""}})
        client.write({"jsonrpc": "2.0", "id": 1})
        client.write({"id": None, "params": {}})
        self.assertEqual(-32601, self.code(client.ask("x")))
        self.assertEqual([], client.notes)
        self.assertEqual(0, client.end())

    def test_too_long_and_headless(self):
        client = self.client()
        size = 268_435_457
        client.send(b"Content-Length: %d\r\n\r\n" % size)
        block = b" " * (1 << 20)
        for _ in range(size >> 20):
            client.send(block)
        client.send(b" " * (size & ((1 << 20) - 1)))
        self.assertEqual(-32600, self.code(client.read()))
        client.begin()
        client.send(b"X-Other: 3\r\n\r\n")
        self.assertEqual(-32700, self.code(client.read()))
        self.assertEqual(1, client.process.wait(10))

    def test_heads(self):
        body = b'{"jsonrpc":"2.0","id":1,"method":"x"}'
        heads = [
            "content-length:%d", "Content-Type: a\r\nContent-Length:   %d", "Content-Length: %d\r\nX: y", "Content-Length: 0%d",
            "Content-Type: application/vscode-jsonrpc; charset=utf-8\r\nContent-Length: %d", "Content-Length: %d\r\ncontent-type: a;Charset=\"UTF8\"; b=c",
            "X: a; charset=utf-16\r\nContent-Length: %d", f"X: {'a' * LONGEST}\r\nContent-Length: %d", "Content-Length: +1\r\nContent-Length: %d",
        ]
        for head in heads:
            with self.subTest(head=head):
                client = self.client()
                client.send(head.encode() % len(body) + b"\r\n\r\n" + body)
                self.assertEqual(-32002, self.code(client.read()))
        heads = [
            "Content-Length: -1", "Content-Length: +5", "Content-Length: 5.0", "Content-Length:", f"X: {'a' * LONGEST}a\r\nContent-Length: {len(body)}",
            "Content-Type: a; charset=utf-16\r\nContent-Length: 5", "Content-Length: 5\r\nContent-Type: a; b=c; charset = latin1",
        ]
        for head in heads:
            with self.subTest(head=head):
                client = self.client()
                client.send(head.encode() + b"\r\n\r\n")
                self.assertEqual(-32700, self.code(client.read()))
                self.assertEqual(1, client.process.wait(10))

    def test_ends_without_shutdown(self):
        client = self.client()
        client.begin()
        client.notify("exit")
        self.assertEqual(1, client.process.wait(10))
        client = self.client()
        client.begin()
        client.process.stdin.close()
        self.assertEqual(1, client.process.wait(10))


class RuleFiles(Session):
    """Diagnostics and tokens of rule files."""

    def test_faults_while_typing(self):
        client = self.client()
        client.begin()
        told = client.open(URI, FAULTS, "lex")
        self.assertEqual((URI, 1), (told["uri"], told["version"]))
        wanted = [
            (0, 8, "Start state already exists"), (3, 7, "Rule name already exists"), (4, 0, f"Verbatim code not supported: {MARGIN}"),
            (5, 0, f"Invalid regular expression: unclosed group: {OPERATOR}"),
        ]
        self.assertEqual(wanted, [(spot(it)[0], spot(it)[1], spot(it)[4]) for it in told["diagnostics"]])
        first = told["diagnostics"][1]["relatedInformation"][0]
        self.assertEqual("first here", first["message"])
        self.assertEqual({"line": 2, "character": 8}, first["location"]["range"]["start"])
        self.assertEqual(3, len(client.change(URI, ranged((0, 8), (0, 12), "there"))["diagnostics"]))
        self.assertEqual(2, len(client.change(URI, ranged((3, 7), (3, 9), "X"))["diagnostics"]))
        # several changes in one notification, each on the text that the one before makes
        changes = [ranged((4, 0), (4, 1), "0"), ranged((4, 1), (4, 1), " "), ranged((5, 0), (5, 0), "\\")]
        told = client.change(URI, *changes)
        self.assertEqual((4, [NEVER_ENTERED, NEVER_ENTERED]), (told["version"], [it["message"] for it in told["diagnostics"]]))
        self.assertEqual([f"File ends prematurely: {NO_MARK}"], [spot(it)[4] for it in client.change(URI, "")["diagnostics"]])
        self.assertEqual([], client.close(URI)["diagnostics"])
        self.assertEqual(0, client.end())

    def test_faults_below_a_half_typed_rule(self):
        client = self.client()
        client.begin()
        text = "%s one\n%x 1\n%%\n[a-z]+ 'ID'\n[0-9+ 'NUMBER'\n<one,two>x 'X'\ny'Y'\nz Z\n<one w 'W'\n[a-z]* 'ID'\n"
        wanted = [
            (1, 3, 1, 4, f"Invalid start state name: {STATE_NAME}"), (4, 0, 4, 5, "Invalid regular expression: unclosed character class"),
            (5, 0, 5, 9, f"Start state not known (two): {DECLARE_LIST}"), (6, 0, 6, 4, f"Rule is missing a space: {RULE}"), (7, 2, 7, 3, f"Invalid rule name: {QUOTES}"),
            (8, 0, 8, 10, f"Invalid start state: {LIST}"), (9, 8, 9, 10, "Rule name already exists"),
        ]
        self.assertEqual(wanted, sorted(spot(it) for it in client.open(URI, text)["diagnostics"]))
        self.assertEqual(wanted[2:], sorted(spot(it) for it in client.change(URI, ranged((1, 3), (1, 4), "l"), ranged((4, 4), (4, 4), "]"))["diagnostics"]))
        self.assertEqual(0, client.end())

    def test_warnings(self):
        client = self.client()
        client.begin()
        rows = [
            ("[a-z]+ 'ID'\nif 'IF'\n", [(2, 0, 2, 2, NEVER_WINS)]), ("if 'IF'\n[a-z]+ 'ID'\n", []), ("() 'NONE'\n", [(1, 0, 1, 2, NEVER_WINS)]),
            ("😀\\q 'Q'\na$ 'A'\n", [(1, 0, 1, 4, LOST), (2, 0, 2, 2, LOOKS)]),
            ("[a-z]+ 'ID'\nif 'IF'\n( 'OPEN'\n", [(3, 0, 3, 1, f"Invalid regular expression: unclosed group: {OPERATOR}")]),
        ]
        for rules, wanted in rows:
            with self.subTest(rules=rules):
                told = client.open(URI, f"%%\n{rules}")["diagnostics"]
                self.assertEqual(wanted, [spot(it) for it in told])
                for it in told:
                    self.assertEqual(WEIGHTS.get(it["message"], (1, None)), (it["severity"], it.get("tags")))
                    self.assertEqual(KINDS.get(it["message"], "RegexError"), it["code"])
        self.assertEqual(0, client.end())

    def test_half_a_pair_of_surrogates(self):
        # what a client writes (JSON.stringify does so), and the text that it stands for
        rows = [
            ("\\ud83d", "\uFFFD"), ("\\uDE00a", "\uFFFDa"), ("\\uDE00\\ud83d", "\uFFFD\uFFFD"), ("\\ud83d\\ude00", "😀"),
            ("\\ud83d\\ud83d\\ude00", "\uFFFD😀"), ("\\\\ud83d", "\\ud83d"), ("\\ud83d\\u0041", "\uFFFDA"),
        ]
        for written, text in rows:
            with self.subTest(written=written):
                client = self.client()
                client.begin()
                client.open(URI, "%%\n")
                place = {"line": 1, "character": 0}
                change = {"range": {"start": place, "end": place}, "text": "WRITTEN"}
                params = {"textDocument": {"uri": URI, "version": 2}, "contentChanges": [change]}
                client.write(json.dumps(notification("textDocument/didChange", params)).encode().replace(b"WRITTEN", written.encode()))
                told = client.told_of(URI, 2)["diagnostics"]
                fresh = self.client()
                fresh.begin()
                self.assertEqual(fresh.open(URI, "%%\n" + text)["diagnostics"], told)
                self.assertEqual((0, 0), (client.end(), fresh.end()))

    def test_allowed_warnings(self):
        client = self.client("--allow", "NeverWins", "--allow", "NoTable")
        client.begin()
        told = client.open(URI, "%x S\n%%\n[a-z]+ 'ID'\nif 'IF'\n")["diagnostics"]
        self.assertEqual(["NeverEntered", "NoRules"], [it["code"] for it in told])
        told = client.change(URI, FAULTS)["diagnostics"]
        self.assertEqual(["DuplicateStartState", "DuplicateName", "VerbatimNotSupported", "RegexError"], [it["code"] for it in told])
        self.assertEqual(0, client.end())

    def test_what_clients_take(self):
        rows = [
            # what the client names, and whether it is told where a name is first, and a tag
            ({}, False, False), ({"relatedInformation": True}, True, False), ({"tagSupport": {"valueSet": [2, 1]}}, False, True),
            ({"relatedInformation": False, "tagSupport": {"valueSet": [2]}}, False, False), ({"relatedInformation": 1, "tagSupport": True}, False, False),
            ({"relatedInformation": True, "tagSupport": {"valueSet": [1]}}, True, True),
        ]
        for named, places, tags in rows:
            with self.subTest(named=named):
                client = self.client()
                client.begin({"textDocument": {"publishDiagnostics": named}})
                told = client.open(URI, "%%\na 'A'\nb 'A'\n")["diagnostics"]
                self.assertEqual([places], ["relatedInformation" in it for it in told])
                told = client.change(URI, "%%\n[a-z] 'A'\nb 'B'\n")["diagnostics"]
                self.assertEqual([tags], ["tags" in it for it in told])
                self.assertEqual(0, client.end())

    def test_a_text_that_ends_in_a_start_state(self):
        # what the text is, and where a note tells in which state it ends
        comment, string = (f"the text ends in start state {name}, which is entered here" for name in ("COMMENT", "STRING"))
        rows = [
            ("a /* b", [(0, 2, 0, 4, comment)]), ("a /* b */", []), ("", []), ("a\n\"b", [(1, 0, 1, 1, string)]),
            ("/* /* */\n", [(0, 0, 0, 2, comment)]), ("/* /* */ */", []), ("/* \"", [(0, 0, 0, 2, comment)]), ("/* */ /* */ /* /* /* */ */", [(0, 12, 0, 14, comment)]),
            ("/* /* a", [(0, 3, 0, 5, comment)]), ("\"a\" \"", [(0, 4, 0, 5, string)]),
            # lexing stops before
            ("\"b\n\"", [(0, 2, 0, 2, "unexpected character '\\n' in start state STRING")]), ("/* */ 1 /*", [(0, 6, 0, 7, "unexpected character '1'")]),
        ]
        client = self.client("--rules", rules_file(STATES))
        client.begin()
        for text, wanted in rows:
            with self.subTest(text=text):
                found = client.open(TEXT, text)["diagnostics"]
                self.assertEqual(wanted, [spot(it) for it in found])
                self.assertEqual([1 if "unexpected" in it["message"] else 3 for it in found], [it["severity"] for it in found])
        self.assertEqual([], client.change(TEXT, "a /* b */")["diagnostics"])
        self.assertEqual([(0, 2, 0, 4, comment)], [spot(it) for it in client.change(TEXT, ranged((0, 5), (0, 9), ""))["diagnostics"]])
        self.assertEqual(0, client.end())

    def test_columns_in_utf16(self):
        client = self.client()
        client.begin()
        found = client.open(URI, "%%\n😀é 'A'\n😀 'A'\n")["diagnostics"]
        self.assertEqual([(2, 4, 2, 5)], [spot(it)[:4] for it in found])
        first = found[0]["relatedInformation"][0]["location"]["range"]["start"]
        self.assertEqual({"line": 1, "character": 5}, first)
        self.assertEqual([], client.change(URI, ranged((2, 4), (2, 5), "B"))["diagnostics"])
        self.assertEqual(0, client.end())

    def test_positions_past_the_ends(self):
        client = self.client("--rules", rules_file("%%\n[^\\n]+ 'LINE'\n\\n ;\n"))
        client.begin()
        rows = [
            ("😀b\nc", (0, 1), "x😀b\nc"), ("ab\nc", (0, 99), "abx\nc"), ("ab\nc", (9, 0), "ab\ncx"), ("ab\n", (1, 5), "ab\nx"),
            ("ab\r\nc", (1, 0), "ab\r\nxc"), ("ab\r\nc", (0, 9), "abx\r\nc"), ("ab\rc", (1, 0), "ab\rxc"), ("ab\rc", (0, 9), "abx\rc"),
            ("a\r\r\nb", (1, 9), "a\rx\r\nb"), ("a\n\rb", (2, 0), "a\n\rxb"), ("a\r", (1, 0), "a\rx"), ("😀\r😀", (1, 1), "😀\rx😀"),
        ]
        for text, place, wanted in rows:
            with self.subTest(text=text, place=place):
                client.open(TEXT, text)
                client.change(TEXT, ranged(place, place, "x"))
                other = "file:///texts/b.txt"
                client.open(other, wanted)
                self.assertEqual(client.tokens(other)["data"], client.tokens(TEXT)["data"])
        self.assertEqual(0, client.end())

    def test_changes_that_do_not_fit(self):
        client = self.client()
        client.begin()
        client.open(URI, "%%\na 'A'\n")
        kept = client.tokens(URI)["data"]
        changes = [
            ranged((1, 3), (1, 1), "( "), {"range": {}, "text": "( "}, {"range": 5, "text": "( "}, {"text": 5},
            ranged((-1, 0), (1, 1), "("), ranged((0, 0.5), (1, 1), "("),
        ]
        for change in changes:
            with self.subTest(change=change):
                told = client.change(URI, change)
                self.assertEqual([], told["diagnostics"])
                self.assertEqual(kept, client.tokens(URI)["data"])
                self.assertEqual(2, client.told("window/logMessage")["type"])
        # one that fits after one that doesn't
        told = client.change(URI, ranged((1, 3), (1, 1), "x"), ranged((1, 0), (1, 1), "("))
        self.assertEqual(1, len(told["diagnostics"]))
        self.assertEqual(0, client.end())

    def test_tokens_of_rule_files(self):
        client = self.client()
        client.begin()
        self.assertEqual([(0, 3, 0, 6, NEVER_ENTERED)], [spot(it) for it in client.open(URI, "%x one\n%%\n<one>[a-z]+ <-one>'ID'\n[ ] ;\n")["diagnostics"]])
        wanted = [
            (0, 0, 2, "keyword"), (0, 3, 3, "enumMember"), (1, 0, 2, "keyword"), (2, 0, 5, "enumMember"), (2, 5, 7, "regexp"),
            (2, 12, 6, "enumMember"), (2, 18, 4, "type"), (3, 0, 4, "regexp"), (3, 4, 1, "operator"),
        ]
        self.assertEqual(wanted, decoded(client.tokens(URI)["data"], client.types))
        self.assertEqual(0, client.end())

    def test_tokens_behind_a_list(self):
        client = self.client()
        client.begin()
        rows = [
            # what follows `<one>`, and how many columns of it are shown as what
            ("< 'LT'", [(2, "regexp"), (4, "type")]), ("<= 'LE'", [(3, "regexp"), (4, "type")]), ("<<>>\t;", [(5, "regexp"), (1, "operator")]),
            ("<two> x <-one>'X'", [(8, "regexp"), (6, "enumMember"), (3, "type")]), ("%% ;", [(3, "regexp"), (1, "operator")]),
            (" 'X'", [(1, "regexp"), (3, "type")]), ("a 'A' ", [(6, "regexp")]), ("<", []), ("", []),
        ]
        for rule, parts in rows:
            with self.subTest(rule=rule):
                client.open(URI, f"%x one\n%%\n<one>{rule}\n[ ] 'B'\n")
                wanted, column = [(2, 0, 5, "enumMember")], 5
                for length, kind in parts:
                    wanted.append((2, column, length, kind))
                    column += length
                wanted += [(3, 0, 4, "regexp"), (3, 4, 3, "type")]
                self.assertEqual(wanted, decoded(client.tokens(URI)["data"], client.types)[3:])
        self.assertEqual(0, client.end())

    def test_several_findings_in_a_line(self):
        rows = [
            # a rule text, and what is found in UTF-8 and in UTF-16
            ("%s a b b a a\n%%\n", [(0, 7, 0, 8), (0, 9, 0, 10), (0, 11, 0, 12)], None),
            ("%%\n😀\\q$ 'A'\na\\q$ 'B'\n", [(1, 0, 1, 7)] * 2 + [(2, 0, 2, 4)] * 2, [(1, 0, 1, 5)] * 2 + [(2, 0, 2, 4)] * 2),
            ("%%\r😀\\q$ 'A'\r\na\\q$ 'B'\r", [(1, 0, 1, 7)] * 2 + [(2, 0, 2, 4)] * 2, [(1, 0, 1, 5)] * 2 + [(2, 0, 2, 4)] * 2),
            ("%s " + " ".join(["a"] * MANY) + "\n%%\n", [(0, at, 0, at + 1) for at in range(5, 2 * MANY + 3, 2)], None),
            ("%s " + " ".join(f"s{number:05}" for number in range(MANY)) + "\n%%\na ;\n", [(0, at, 0, at + 6) for at in range(3, 7 * MANY + 3, 7)], None),
        ]
        for encoding in ("utf-8", "utf-16"):
            client = self.client()
            client.begin({**SHOWING, "general": {"positionEncodings": [encoding]}})
            for rules, in_bytes, in_units in rows:
                with self.subTest(rules=rules[:20], encoding=encoding):
                    told = client.open(URI, rules)["diagnostics"]
                    self.assertEqual(in_bytes if encoding == "utf-8" or not in_units else in_units, sorted(spot(it)[:4] for it in told))
            self.assertEqual(0, client.end())

    def test_where_a_name_is_first(self):
        client = self.client()
        client.begin()
        for name in ("a", "b" * 20):
            with self.subTest(name=name):
                told = client.open(URI, f"%s {name} c c {name} {name} c\n%%\n")["diagnostics"]
                found = {}
                for it in told:
                    first = it["relatedInformation"][0]["location"]["range"]
                    found[spot(it)[1]] = (first["start"]["character"], first["end"]["character"])
                long = len(name)
                ours, other = (3, 3 + long), (4 + long, 5 + long)
                self.assertEqual({6 + long: other, 8 + long: ours, 9 + 2 * long: ours, 10 + 3 * long: other}, found)
        self.assertEqual(0, client.end())

    def test_flags(self):
        for words, wanted in [([], 0), (["--octal", "false"], 1)]:
            with self.subTest(words=words):
                client = self.client(*words)
                client.begin()
                self.assertEqual(wanted, len(client.open(URI, "%%\n\\101 'A'\n")["diagnostics"]))


class Texts(Session):
    """Texts that given rules lex."""

    def test_tokens(self):
        client = self.client("--rules", rules_file(RULES), "--map", "NAME=property", "--map", "SIGN=")
        client.begin()
        self.assertEqual([], client.open(TEXT, 'let a = 12;\n# note\nlet b = "x\ny";\n')["diagnostics"])
        before = client.tokens(TEXT)
        wanted = [
            (0, 0, 3, "keyword"), (0, 4, 1, "property"), (0, 8, 2, "number"), (1, 0, 6, "comment"), (2, 0, 3, "keyword"),
            (2, 4, 1, "property"), (2, 8, 2, "string"), (3, 0, 2, "string"),
        ]
        self.assertEqual(wanted, decoded(before["data"], client.types))
        part = client.tokens_in(TEXT, (2, 0), (2, 9))
        self.assertEqual(wanted[4:], decoded(part["data"], client.types))
        client.change(TEXT, ranged((0, 4), (0, 5), "long"))
        edits = client.tokens_since(TEXT, before)["edits"]
        self.assertEqual(1, len(edits))
        after = client.tokens(TEXT)
        self.assertEqual(after["data"], applied(before["data"], edits))
        self.assertEqual((0, 4, 4, "property"), decoded(after["data"], client.types)[1])
        self.assertEqual(after["data"], client.tokens_since(TEXT, before)["data"])
        self.assertEqual([], client.tokens_since(TEXT, {**client.tokens(TEXT)})["edits"])
        self.assertEqual(0, client.end())

    def test_names_in_either_case(self):
        names = ["STRING", "IN_TEXT", "ESC", "ESCAPE", "COMMENT", "OTHER"]
        kinds = ["string"] * 4 + ["comment", "variable"]
        for form in [str.upper, str.lower]:
            with self.subTest(form=form):
                rules = "".join(f"{it} '{form(name)}'\n" for it, name in zip("uvwxyz", names))
                client = self.client("--rules", rules_file(f"%%\n{rules}"))
                client.begin()
                self.assertEqual([], client.open(TEXT, "uvwxyz")["diagnostics"])
                wanted = [(0, at, 1, kind) for at, kind in enumerate(kinds)]
                self.assertEqual(wanted, decoded(client.tokens(TEXT)["data"], client.types))
                self.assertEqual(0, client.end())

    def test_guesses(self):
        client = self.client("--rules", rules_file(GUESSES))
        client.begin()
        self.assertEqual([], client.open(TEXT, "1x 2y 3z comment fi 4 '5' + _a # 6")["diagnostics"])
        kinds = ["string", "string", "comment", "keyword", "keyword", "number", "string", "operator", "variable", "comment"]
        self.assertEqual(kinds, [it[3] for it in decoded(client.tokens(TEXT)["data"], client.types)])
        self.assertEqual(0, client.end())

    def test_ends_of_lines(self):
        client = self.client("--rules", rules_file(LINES))
        client.begin()
        wanted = [(0, 0, 2, "variable"), (1, 0, 1, "variable"), (3, 0, 2, "string"), (4, 0, 2, "string")]
        for end in ("\n", "\r\n", "\r"):
            with self.subTest(end=end):
                told = client.open(TEXT, f'ab{end}c{end}{end}"x{end}y"?d')
                self.assertEqual([(4, 2, 4, 3)], [spot(it)[:4] for it in told["diagnostics"]])
                self.assertEqual(wanted, decoded(client.tokens(TEXT)["data"], client.types))
                self.assertEqual(wanted[1:2], decoded(client.tokens_in(TEXT, (1, 0), (2, 0))["data"], client.types))
                client.close(TEXT)
        self.assertEqual(0, client.end())

    def test_lexing_that_stops_where_a_line_ends(self):
        client = self.client("--rules", rules_file("%%\n[a-z]+ 'NAME'\n"))
        client.begin()
        for end in ("\n", "\r\n", "\r"):
            with self.subTest(end=end):
                found = client.open(TEXT, f"ab{end}c")["diagnostics"]
                self.assertEqual([(0, 2, 0, 2)], [spot(it)[:4] for it in found])
                client.close(TEXT)
        self.assertEqual(0, client.end())

    def test_edits_of_ends_of_lines(self):
        client = self.client("--rules", rules_file(LINES))
        client.begin()
        rows = [
            # a text, a change, and the text after it
            ("a\rb", ranged((1, 0), (1, 0), "\n"), "a\r\nb"), ("a\r\nb?", ranged((0, 1), (1, 0), "\r"), "a\rb?"),
            ("a\r\nb?", ranged((0, 1), (1, 0), "\n"), "a\nb?"), ("ab?", ranged((0, 1), (0, 1), "\r"), "a\rb?"),
            ("a\nb\nc?", ranged((0, 1), (0, 1), "\r"), "a\r\nb\nc?"), ("a\rb\rc?", ranged((0, 1), (2, 0), ""), "ac?"),
            ("\"x\ry\"\r\nb?", ranged((1, 0), (1, 0), "\n"), "\"x\r\ny\"\r\nb?"), ("a\r\"x\"?", ranged((1, 1), (1, 1), "\n"), "a\r\"\nx\"?"),
            ("a\r\r\nb?", ranged((1, 0), (1, 0), "x"), "a\rx\r\nb?"), ("a\r\nb\r😀?", ranged((2, 0), (2, 2), "c"), "a\r\nb\rc?"),
        ]
        other = "file:///texts/b.txt"
        for text, change, after in rows:
            with self.subTest(text=text, change=change):
                client.open(TEXT, text)
                before = client.tokens(TEXT)
                told = client.change(TEXT, change)
                edits = client.tokens_since(TEXT, before)["edits"]
                fresh = client.open(other, after)
                data = client.tokens(other)["data"]
                self.assertEqual(fresh["diagnostics"], told["diagnostics"])
                self.assertEqual(data, client.tokens(TEXT)["data"])
                self.assertEqual(data, applied(before["data"], edits))
                client.close(TEXT)
                client.close(other)
        self.assertEqual(0, client.end())

    def test_tokens_that_changed(self):
        client = self.client("--rules", rules_file(RULES))
        client.begin()
        text = 'let a = 12;\n# note\nlet b = "x\ny"; let c = 1;\n'
        rows = [
            # the changes since, and which of the tokens are told anew
            ([], None),
            ([ranged((0, 4), (0, 5), "long")], 1),
            ([ranged((0, 4), (0, 5), "bc"), ranged((2, 4), (2, 5), "de")], 7),
            ([ranged((2, 4), (2, 5), "de"), ranged((0, 4), (0, 5), "bc")], 7),
            ([ranged((0, 0), (0, 0), "\n\n")], 1),
            ([ranged((0, 0), (0, 0), "\n"), ranged((0, 0), (1, 0), "")], 0),
            ([ranged((3, 0), (3, 0), "\n")], 2),
            ([ranged((0, 10), (0, 10), "?")], 0),
            ([ranged((0, 10), (0, 10), "?"), ranged((0, 10), (0, 11), "")], 0),
            ([ranged((0, 0), (4, 0), "")], 0),
            ([ranged((4, 0), (4, 0), "let d")], 2),
        ]
        for changes, told in rows:
            with self.subTest(changes=changes):
                client.open(TEXT, text)
                before = client.tokens(TEXT)
                if changes:
                    client.change(TEXT, *changes)
                edits = client.tokens_since(TEXT, before)["edits"]
                after = client.tokens(TEXT)["data"]
                self.assertEqual(after, applied(before["data"], edits))
                if told is not None:
                    self.assertLessEqual(sum(len(edit["data"]) for edit in edits), 5 * told + 5)
                client.close(TEXT)
        self.assertEqual(0, client.end())

    def test_result_ids_never_repeat(self):
        path = rules_file(RULES)
        client = self.client("--rules", path)
        client.begin()
        rules, ids = f"file://{path}", set()
        client.open(TEXT, "let a")
        for step in range(12):
            with self.subTest(step=step):
                before = client.tokens(TEXT)
                self.assertNotIn(before["resultId"], ids)
                ids.add(before["resultId"])
                if step % 3 == 0:
                    client.close(TEXT)
                    client.open(TEXT, "12")
                elif step % 3 == 1:
                    client.open(rules, RULES + f"!{'!' * step} 'MORE'\n", "lex")
                    client.close(rules)
                else:
                    client.close(TEXT)
                    client.open("file:///texts/b.txt", "let b")
                    ids.add(client.tokens("file:///texts/b.txt")["resultId"])
                    client.open(TEXT, "let a")
                # what was told before names nothing that is open now
                after = client.tokens_since(TEXT, before)
                self.assertIn("data", after)
                self.assertNotIn(after["resultId"], ids)
                ids.add(after["resultId"])
        self.assertEqual(0, client.end())

    def test_where_lexing_stops(self):
        client = self.client("--rules", rules_file(RULES))
        client.begin()
        found = client.open(TEXT, "let a?\n")["diagnostics"]
        self.assertEqual([(0, 5, 0, 6, "unexpected character '?'")], [spot(it) for it in found])
        self.assertEqual([], client.change(TEXT, ranged((0, 5), (0, 6), ""))["diagnostics"])
        self.assertEqual(0, client.end())

    def test_rules_change_while_open(self):
        # a path with characters that clients escape, and as some escape them; as it is given, it goes up and down again
        folder, name = os.path.split(rules_file(RULES, "a b#é.l"))
        client = self.client("--rules", f"{folder}/../{os.path.basename(folder)}/./{name}")
        client.begin({"workspace": {"semanticTokens": {"refreshSupport": True}}})
        self.assertEqual(1, len(client.open(TEXT, "let a!")["diagnostics"]))
        rules = f"file://{folder}/a%20b%23%c3%A9%2El"
        before = client.tokens(TEXT)
        # with the text of the rules, and by changes that leave it, nothing is told of other texts, nor made anew
        self.assertEqual([], client.open(rules, RULES, "lex")["diagnostics"])
        client.put(rules)
        client.put(rules, ranged((1, 0), (1, 0), "x"), ranged((1, 0), (1, 1), ""))
        self.assertEqual([(rules, 0)] * 2, client.told_until())
        self.assertEqual([], client.tokens_since(TEXT, before)["edits"])
        # other rules tell each text once
        client.put(rules, ranged((5, 1), (5, 1), "!"))
        self.assertEqual({(rules, 0), (TEXT, 0)}, set(told := client.told_until()))
        self.assertEqual(2, len(told))
        # with a fault the rules before stay
        self.assertEqual(1, len(client.change(rules, ranged((5, 0), (5, 1), "("))["diagnostics"]))
        kinds = [it[3] for it in decoded(client.tokens(TEXT)["data"], client.types)]
        self.assertEqual(["keyword", "variable", "operator"], kinds)
        self.assertIn(REFRESH, [it.get("method") for it in client.notes])
        self.assertEqual(0, client.end())

    def test_rules_with_faults(self):
        path = rules_file("%%\n( 'OPEN'\n")
        client = self.client("--rules", path)
        client.begin()
        shown = client.told("window/showMessage")
        self.assertEqual((2, "The rule file has faults, so no text is lexed by it. Open it to see them"), (shown["type"], shown["message"]))
        self.assertEqual([], client.open(TEXT, "let a?")["diagnostics"])
        self.assertEqual(1, len(client.open(f"file://{path}", "%%\n( 'OPEN'\n", "lex")["diagnostics"]))
        client.put(f"file://{path}", RULES)
        self.assertEqual(1, len(client.told_of(TEXT, 1)["diagnostics"]))
        # closed before these are saved
        client.close(f"file://{path}")
        self.assertEqual([], client.told_of(TEXT, 1)["diagnostics"])
        self.assertEqual(shown, client.told("window/showMessage"))
        self.assertEqual(0, client.end())

    def test_names_of_the_rule_file(self):
        path = rules_file(RULES)
        folder, name = os.path.split(path)
        rows = [
            # a URI of a file with more rules, and how many faults a text has once it is opened
            (f"file://{path}", 0), (f"file://localhost{path}", 0), (f"file:///{path}", 0), (f"file://{folder}//{name}", 0), (f"file://{folder}/./{name}", 0),
            (f"file://{folder}/x/../{name}", 0), (f"file://{folder}/x/%2e%2e/%72ules.l", 0), (f"file:///../..{folder}/x//../{name}", 0),
            (f"file://other{path}", 1), (f"file://localhosts{path}", 1), (f"file://{folder}/../{name}", 1), (f"file://{folder}/{name}/x", 1),
            (f"file://{folder}/.{name}", 1), (f"file://{folder}/...{name}", 1), (f"untitled:{path}", 1),
            (f"file://localhost{folder}/%2E/{name}", 0), (f"file://{folder}%2F{name}", 0), (f"file://{path}/", 0), (f"file://{path}%", 1),
            (f"file://{folder}/%7{name}", 1), (f"file://{folder}/%2572ules.l", 1), (f"http://localhost{path}", 1),
            (f"file:{path}", 0), (f"FILE:{path}", 0), (f"File://{path}", 0), (f"file://LocalHost{path}", 0), (f"file:/{path}", 1),
            (f"file:localhost{path}", 1), (f"file:{path[1:]}", 1), (f"files://{path}", 1), (path, 1),
        ]
        for uri, wanted in rows:
            with self.subTest(uri=uri):
                client = self.client("--rules", path)
                client.begin()
                client.open(TEXT, "let a!")
                client.open(uri, RULES.replace("[=+;]", "[=+;!]"), "lex")
                self.assertEqual(wanted, len(client.change(TEXT)["diagnostics"]))
                self.assertEqual(0, client.end())

    def test_rules_closed_unsaved(self):
        path = rules_file(RULES)
        client = self.client("--rules", path)
        client.begin()
        rules, more, faulty = f"file://{path}", RULES.replace("[=+;]", "[=+;!]"), "%%\n( 'OPEN'\n"
        rows = [
            # the texts that are typed, each with whether it is saved, and how many faults a text has once the file is closed
            ([], 1), ([(more, False)], 1), ([(more, True)], 0), ([(more, True), (RULES, False)], 0), ([(more, False), (RULES, True)], 1),
            ([(faulty, True)], 1), ([(faulty, True), (more, False)], 1), ([(more, False), (faulty, True)], 0), ([(more, True), (faulty, False)], 0),
        ]
        client.open(TEXT, "let a!")
        for texts, wanted in rows:
            with self.subTest(texts=texts):
                client.open(rules, RULES, "lex")
                for text, is_saved in texts:
                    client.change(rules, text)
                    if is_saved:
                        client.save(rules)
                client.close(rules)
                self.assertEqual(wanted, len(client.change(TEXT)["diagnostics"]))
        # other files are saved and closed too
        client.save(TEXT)
        client.open(URI, more, "lex")
        client.save(URI)
        client.close(URI)
        client.save(URI)
        self.assertEqual(0, len(client.change(TEXT)["diagnostics"]))
        self.assertEqual(0, client.end())

    def test_no_rules(self):
        client = self.client()
        client.begin()
        self.assertEqual([], client.open(TEXT, "let a?")["diagnostics"])
        self.assertEqual([], client.tokens(TEXT)["data"])
        self.assertEqual([], client.change(TEXT, ranged((0, 5), (0, 6), ""))["diagnostics"])
        # a document whose name is empty gives no rules
        for language in ("text", "lex"):
            with self.subTest(language=language):
                client.put("", "%%\na 'A'\n")
                self.assertEqual([], client.open("", "%%\nlet 'A'\n", language)["diagnostics"])
                self.assertEqual([], client.change(TEXT)["diagnostics"])
                self.assertEqual([], client.tokens(TEXT)["data"])
                self.assertEqual(language == "lex", bool(client.tokens("")["data"]))
                client.save("")
                client.close("")
        self.assertEqual(0, client.end())

    def test_no_rules_cut_nothing(self):
        client = self.client()
        client.begin()
        client.open(TEXT, "a;" * 2_000_000)
        client.change(TEXT, ranged((0, 1), (0, 1), "b"))
        with open(f"/proc/{client.process.pid}/status", encoding="utf-8") as status:
            peak = next(int(line.split()[1]) for line in status if line.startswith("VmHWM:"))
        self.assertLess(peak, 100_000)
        self.assertEqual(0, client.end())


class Long(Session):
    """What chance tries."""

    def test_mutated_messages(self):
        client = self.client()
        client.begin()
        came, wrong = mutated.run(client, MESSAGES, 1)
        self.assertEqual([], wrong[:5])
        self.assertLess(400, min(came[it] for it in (-32600, -32601, -32602, -32700, "result")), came)
        self.assertEqual(0, client.end())

    def test_random_dialogues(self):
        self.client()
        done, differences = dialogues.run(EDITS, 1)
        self.assertLessEqual(EDITS, done)
        self.assertEqual([], differences[:3])

    def test_refused_memory(self):
        rules = rules_file(RULES)
        with tempfile.TemporaryDirectory() as folder:
            counts = refused.Refusals(rules, programs.preloaded("refuse_memory"), folder).all(EVERY)
        self.assertEqual(0, counts["wrong"], counts)
        self.assertLess(50, counts["told"], counts)
