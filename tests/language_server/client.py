"""A client of the language server: a process, its pipes and JSON.

The server is `rolgumzai lsp`. The environment variable LRLEX_LANGUAGE_SERVER names another, with its first words.
"""

import json
import os
import shlex
import subprocess
import tempfile

from support import programs

PROGRAM = "rolgumzai"

DIAGNOSTICS = "textDocument/publishDiagnostics"
REFRESH = "workspace/semanticTokens/refresh"

# The capabilities of a client that shows all that the server tells of a document.
SHOWING = {"textDocument": {"publishDiagnostics": {"relatedInformation": True, "tagSupport": {"valueSet": [1, 2]}}}}


def server(*words):
    """The words that start the server. Skips the test where it isn't built."""
    other = os.environ.get("LRLEX_LANGUAGE_SERVER")
    if other:
        return [*shlex.split(other), *words]
    programs.need(PROGRAM)
    return [programs.path_of(PROGRAM), "lsp", *words]


def framed(body):
    """The bytes of a message. The body is bytes, or a value of JSON."""
    data = body if isinstance(body, bytes) else json.dumps(body).encode()
    return b"Content-Length: %d\r\n\r\n" % len(data) + data


def request(number, method, params=None):
    """A request."""
    return {"jsonrpc": "2.0", "id": number, "method": method, "params": params}


def notification(method, params=None):
    """A notification."""
    return {"jsonrpc": "2.0", "method": method, "params": params}


def ranged(start, end, text):
    """A change of what is between two positions, each a line and a column from 0."""
    places = {name: {"line": line, "character": column} for name, (line, column) in (("start", start), ("end", end))}
    return {"range": places, "text": text}


def decoded(data, types):
    """The tokens that the numbers say: line and column from 0, length, and the name of the type."""
    line = column = 0
    tokens = []
    for at in range(0, len(data), 5):
        down, right, length, kind, _ = data[at:at + 5]
        column = right if down else column + right
        line += down
        tokens.append((line, column, length, types[kind]))
    return tokens


def applied(data, edits):
    """The numbers after these edits."""
    data = list(data)
    for edit in edits:
        data[edit["start"]:edit["start"] + edit["deleteCount"]] = edit.get("data", [])
    return data


def spot(diagnostic):
    """Where a diagnostic begins and ends, and its message."""
    start, end = diagnostic["range"]["start"], diagnostic["range"]["end"]
    return start["line"], start["character"], end["line"], end["character"], diagnostic["message"]


def faults(told):
    """The diagnostics that are faults, and no warnings."""
    return [it for it in told["diagnostics"] if it["severity"] == 1]


class Client:
    """A session. `with` ends the process whatever happens."""

    def __init__(self, *words, environment=None):
        self.process = subprocess.Popen(  # pylint: disable=consider-using-with
            server(*words), stdin=subprocess.PIPE, stdout=subprocess.PIPE, stderr=subprocess.PIPE, env=environment
        )
        self.last, self.version, self.notes, self.types = 0, 0, [], []

    def __enter__(self):
        return self

    def __exit__(self, *_):
        self.process.kill()
        self.process.wait()
        for pipe in (self.process.stdin, self.process.stdout, self.process.stderr):
            try:
                pipe.close()
            except BrokenPipeError:
                pass

    def send(self, data):
        """Writes bytes."""
        self.process.stdin.write(data)
        self.process.stdin.flush()

    def write(self, body):
        """Writes a message."""
        self.send(framed(body))

    def read(self):
        """The next message, or None at the end."""
        length = None
        while True:
            line = self.process.stdout.readline()
            if not line:
                return None
            if line == b"\r\n":
                return json.loads(self.process.stdout.read(length))
            name, value = line.split(b":")
            length = int(value) if name == b"Content-Length" else length

    def notify(self, method, params=None):
        """Sends a notification."""
        self.write(notification(method, params))

    def ask(self, method, params=None):
        """Sends a request and gives its answer. What the server tells meanwhile is kept in `notes`."""
        self.last += 1
        self.write(request(self.last, method, params))
        while True:
            body = self.read()
            if body is None or ("id" in body and "method" not in body):
                return body
            self.notes.append(body)

    def told(self, method=DIAGNOSTICS):
        """The parameters of the next notification of this method. Those of other methods stay in `notes`."""
        others = []
        while True:
            note = self.notes.pop(0) if self.notes else self.read()
            if note is None or note.get("method") == method:
                self.notes = others + self.notes
                return note and note.get("params")
            others.append(note)

    def told_until(self, method="mark"):
        """How many diagnostics are told of each document up to the answer to a request of this method, in order."""
        self.ask(method)
        told = [it["params"] for it in self.notes if it.get("method") == DIAGNOSTICS]
        self.notes = [it for it in self.notes if it.get("method") != DIAGNOSTICS]
        return [(it["uri"], len(it["diagnostics"])) for it in told]

    def told_of(self, uri, version=None):
        """What is told of this version of a document. What was told before is passed over."""
        told = self.told()
        while told is not None and (told["uri"], told.get("version")) != (uri, version):
            told = self.told()
        return told

    def begin(self, capabilities=None):
        """Initializes the server, and gives what it can do. Without others, the client has the capabilities of `SHOWING`."""
        capabilities = SHOWING if capabilities is None else capabilities
        answer = self.ask("initialize", {"processId": None, "rootUri": None, "capabilities": capabilities})
        self.notify("initialized", {})
        capabilities = answer["result"]["capabilities"]
        self.types = capabilities["semanticTokensProvider"]["legend"]["tokenTypes"]
        return capabilities

    def open(self, uri, text, language="text"):
        """Opens a document and gives what is told of it."""
        self.version += 1
        document = {"uri": uri, "languageId": language, "version": self.version, "text": text}
        self.notify("textDocument/didOpen", {"textDocument": document})
        return self.told_of(uri, self.version)

    def put(self, uri, *changes):
        """Changes a document. A change is a whole text, or what `ranged` makes."""
        self.version += 1
        edits = [{"text": change} if isinstance(change, str) else change for change in changes]
        document = {"uri": uri, "version": self.version}
        self.notify("textDocument/didChange", {"textDocument": document, "contentChanges": edits})

    def change(self, uri, *changes):
        """Changes a document as `put` does, and gives what is told of it."""
        self.put(uri, *changes)
        return self.told_of(uri, self.version)

    def save(self, uri):
        """Tells that a document was saved."""
        self.notify("textDocument/didSave", {"textDocument": {"uri": uri}})

    def close(self, uri):
        """Closes a document and gives what is told of it."""
        self.notify("textDocument/didClose", {"textDocument": {"uri": uri}})
        return self.told_of(uri)

    def tokens(self, uri):
        """The answer with all tokens of a document."""
        return self.ask("textDocument/semanticTokens/full", {"textDocument": {"uri": uri}})["result"]

    def tokens_in(self, uri, start, end):
        """The answer with the tokens of a range."""
        places = ranged(start, end, "")["range"]
        return self.ask("textDocument/semanticTokens/range", {"textDocument": {"uri": uri}, "range": places})["result"]

    def tokens_since(self, uri, result):
        """The answer with what has changed of the tokens since another."""
        params = {"textDocument": {"uri": uri}, "previousResultId": result["resultId"]}
        return self.ask("textDocument/semanticTokens/full/delta", params)["result"]

    def end(self):
        """Shuts the server down, and gives its status."""
        answer = self.ask("shutdown")
        assert answer["result"] is None, answer
        self.notify("exit")
        return self.process.wait(10)


def rules_file(text, name="rules.l"):
    """A file with this text, in a folder of its own."""
    path = f"{tempfile.mkdtemp(dir=programs.scratch().name)}/{name}"
    with open(path, "w", encoding="utf-8") as file:
        file.write(text)
    return path
