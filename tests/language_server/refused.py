"""Refuses the server its requests for memory in turn, each alone, over one session.

What it writes must be all of the session, or whole messages from its beginning, the status 1 and that memory ran out.
"""

import os
import subprocess
from collections import Counter
from multiprocessing.pool import ThreadPool

from language_server.client import framed, notification, ranged, request, server

URI, OTHER = "file:///texts/rules.l", "file:///texts/text.txt"
RULES = "%s here here\n%%\n[a-z]+ 'ID'\n[a-z] 'ID'\n 'indented'\n( 'OPEN'\n"


def session(rules):
    """The bytes of a session: requests too early, no JSON, documents, edits, tokens, other rules that aren't saved, the end."""
    given = f"file://{rules}"
    documents = [(URI, "lex", RULES), (OTHER, "text", "let a = \"1\r2\";\n😀 = \"x\ny\";\n"), (given, "lex", "%%\n[a-z]+ 'WORD'\n")]
    about, rule_file = {"textDocument": {"uri": OTHER}}, {"textDocument": {"uri": given}}
    bodies = [request(1, "textDocument/hover"), b"{nonsense", request(2, "initialize", {"capabilities": {}})]
    for uri, language, text in documents:
        document = {"uri": uri, "languageId": language, "version": 1, "text": text}
        bodies.append(notification("textDocument/didOpen", {"textDocument": document}))
        change = {"textDocument": {"uri": uri, "version": 2}, "contentChanges": [ranged((0, 1), (0, 2), "é")]}
        bodies.append(notification("textDocument/didChange", change))
    bodies += [
        request("a", "textDocument/semanticTokens/full", about),
        request("b", "textDocument/semanticTokens/full/delta", {**about, "previousResultId": "1"}),
        request("c", "textDocument/semanticTokens/range", {**about, "range": ranged((0, 0), (1, 2), "")["range"]}),
        notification("textDocument/didSave", rule_file),
        notification("textDocument/didChange", {"textDocument": {"uri": given, "version": 3}, "contentChanges": [{"text": "%%\n[a-z]+ 'ID'\n"}]}),
        notification("textDocument/didClose", rule_file),
        notification("textDocument/didClose", about),
        request(4, "shutdown"),
        notification("exit"),
    ]
    return b"".join(framed(body) for body in bodies)


def ends(data):
    """Where each message ends."""
    at, found = 0, [0]
    while at < len(data):
        head = data.index(b"\r\n\r\n", at)
        at = head + 4 + int(data[at:head].split(b":")[1])
        found.append(at)
    return found


class Refusals:
    """The runs of one session."""

    def __init__(self, rules, library, folder):
        self.words, self.library, self.folder = server("--rules", rules), library, folder
        self.data = session(rules)
        whole = self.run({})
        self.whole, self.ends = whole.stdout, set(ends(whole.stdout))
        assert whole.returncode == 0, whole.stderr

    def run(self, settings):
        """What comes of the session with these settings in the environment."""
        environment = {**os.environ, **settings}
        return subprocess.run(self.words, input=self.data, capture_output=True, env=environment, check=False)

    def met(self, request_number):
        """How it met the refusal of this request: told, not needed, never made or wrong."""
        marker = f"{self.folder}/{request_number}"
        with open(marker, "w", encoding="utf-8"):
            pass
        came = self.run({"LD_PRELOAD": self.library, "REFUSED": marker, "REFUSE": str(request_number)})
        if os.path.getsize(marker) == 0:
            return "never made"
        if came.returncode == 0 and came.stdout == self.whole:
            return "not needed"
        is_front = self.whole.startswith(came.stdout) and len(came.stdout) in self.ends
        is_told = b"memory" in came.stderr.lower().replace(b"outofmemory", b"memory")
        return "told" if came.returncode in (1, 2) and is_front and is_told else "wrong"

    def all(self, every=1, step=64):
        """Refuses each request, or one of so many. Returns how often it was met in each way."""
        counts = Counter()
        with ThreadPool(len(os.sched_getaffinity(0))) as pool:
            first = 1
            while not counts["never made"]:
                counts.update(pool.map(self.met, range(first, first + step * every, every)))
                first += step * every
        return counts
