"""Mutated messages: the server answers each request that it can read, and never ends by itself.

After each message comes a request with a mark of its own. Up to its answer there may be one answer to the message, and none where
it is a notification.
"""

import json
import random
from collections import Counter

from language_server.client import request

URI = "file:///texts/mutated.l"
TEXT = "%%\n[a-z]+ 'A'\n( 'B'\n"
LINES = [0, 1, 2, 9, 2**40, 2**64, -1, 1.5, "x", None]
COLUMNS = [0, 1, 5, 2**63]
PUTS = ["a", "'", "\n", "😀", "(", "", 5, None]
NAMES = ["initialize", "$/cancelRequest", "x", "workspace/didChangeConfiguration"]

# How many messages of the last run took part in each kind of outcome.
MUTATED, REQUESTS, DROPPED = 0.3, 0.5, 0.1


def place(chance):
    """A position, mostly none that a client sends."""
    return {"line": chance.choice(LINES), "character": chance.choice(COLUMNS)}


def span(chance):
    """A range."""
    end = {"line": chance.randrange(5), "character": chance.randrange(9)}
    return chance.choice([{"start": place(chance), "end": end}, {"start": end, "end": place(chance)}, None, 5, {}])


def call(chance, last):
    """A method and its parameters. `last` names the last answer with tokens."""
    document = {"uri": URI}
    version = {**document, "version": chance.randrange(99)}
    change = {"range": span(chance), "text": chance.choice(PUTS)}
    return chance.choice([
        ("textDocument/didOpen", {"textDocument": {**version, "languageId": "lex", "text": TEXT}}),
        ("textDocument/didChange", {"textDocument": version, "contentChanges": [change]}),
        ("textDocument/didSave", {"textDocument": document}),
        ("textDocument/didClose", {"textDocument": document}),
        ("textDocument/semanticTokens/full", {"textDocument": document}),
        ("textDocument/semanticTokens/range", {"textDocument": document, "range": span(chance)}),
        ("textDocument/semanticTokens/full/delta", {"textDocument": document, "previousResultId": chance.choice([last, last, "1", 3])}),
        (chance.choice(NAMES), chance.choice([None, [], {}, 5])),
    ])


def message(chance, number, last):
    """A message of which a part may lack."""
    method, params = call(chance, last)
    body = {"jsonrpc": "2.0", "method": method, "params": params}
    if chance.random() < REQUESTS:
        body["id"] = chance.choice([number, "s", None, {"a": [1]}, 1.5])
    if chance.random() < DROPPED:
        body.pop(chance.choice(list(body)))
    return body


def mutated(chance, data):
    """These bytes with one to three places changed, removed or filled."""
    data = bytearray(data)
    for _ in range(chance.randrange(1, 4)):
        at = chance.randrange(len(data))
        how = chance.random()
        if how < 0.4:
            data[at] = chance.randrange(256)
        elif how < 0.7:
            del data[at:at + chance.randrange(9)]
        else:
            data[at:at] = bytes(chance.randrange(256) for _ in range(3))
        data = data or bytearray(b" ")
    return bytes(data)


def most_answers(data):
    """How many answers there may be to a message: none to a notification."""
    try:
        body = json.loads(data)
    except ValueError:
        return 1
    is_notification = isinstance(body, dict) and "id" not in body and isinstance(body.get("method"), str)
    return 0 if is_notification else 1


def run(client, count, seed):
    """Sends so many messages. Returns how often each code, method or result came of them, and what is wrong."""
    chance = random.Random(seed)
    came, wrong, last = Counter(), [], None
    for number in range(count):
        data = json.dumps(message(chance, number, last)).encode()
        if chance.random() < MUTATED:
            data = mutated(chance, data)
        if b'"exit"' in data or b'"shutdown"' in data:
            continue
        client.write(data)
        client.write(request(f"mark{number}", "mark"))
        answers = 0
        while True:
            answer = client.read()
            if answer is None:
                return came, [*wrong, f"the server ended at {data!r}"]
            if answer.get("id") == f"mark{number}":
                break
            answers += "method" not in answer
            last = (answer.get("result") or {}).get("resultId", last)
            came[answer.get("error", {}).get("code", answer.get("method", "result"))] += 1
        if answers > most_answers(data):
            wrong.append(f"{answers} answers to {data!r}")
    return came, wrong
