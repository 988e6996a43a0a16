"""Random dialogues: texts are opened, edited, closed and opened again, and their rules change. Then text, tokens and diagnostics
must be those of a fresh server that is given the final texts and rules.

`python3 -m language_server.dialogues EDITS [SEED]`, in tests/. Its last line says how many edits there were and how many
dialogues differ.
"""

import random
import re
import sys

from language_server.client import Client, applied, faults, ranged, rules_file

# Parts of rule texts. Some make faults, so that the rules before stay.
RULES = [
    "let 'LET'\n", "[a-z]+ 'NAME'\n", "[0-9]+ 'NUMBER'\n", '"[^"]*" \'STRING\'\n', "[=+;] 'SIGN'\n", "#[^\\n]* ;\n",
    "[ \\n\\r]+ ;\n", "é+ 'ACCENT'\n", "😀 'FACE'\n", "x$ 'LAST'\n", "( 'OPEN'\n", "\\r 'RETURN'\n", "[a-z]+ 'NAME'\n",
]
PARTS = ["let", "é", "😀", "\n", " ", '"', "12", "#", ";", "x", "\r\n", "\r", "=", "\t", "ab"]

# What ends a line.
LINE_END = re.compile("\r\n|\n|\r")

# How often each thing is done.
EDIT, TOKENS, CLOSE, NEW_RULES = 80, 12, 5, 3


def lines_of(text):
    """Where the lines of a text begin and end."""
    lines, start = [], 0
    for end in LINE_END.finditer(text):
        lines.append((start, end.start()))
        start = end.end()
    return [*lines, (start, len(text))]


def columns(text, is_utf8):
    """How many columns a text takes."""
    return len(text.encode() if is_utf8 else text.encode("utf-16-le")) // (1 if is_utf8 else 2)


def position(text, at, is_utf8):
    """Line and column of the place before this character. A place within a line's end is no position of the protocol."""
    for number, (start, end) in enumerate(lines_of(text)):
        if start <= at <= end:
            return number, columns(text[start:at], is_utf8)
    return None


class Dialogue:
    """A client with the texts as it has them."""

    def __init__(self, chance, is_utf8):
        self.chance, self.is_utf8 = chance, is_utf8
        self.rules = "%%\n" + "".join(chance.sample(RULES[:7], 6))
        self.path = rules_file(self.rules)
        self.good = self.rules
        self.texts, self.tokens = {}, {}
        self.edits = 0
        self.client = Client("--rules", self.path)
        encodings = ["utf-8", "utf-16"] if is_utf8 else ["utf-16"]
        capabilities = {
            "general": {"positionEncodings": encodings},
            "workspace": {"semanticTokens": {"refreshSupport": chance.random() < 0.5}},
        }
        self.capabilities = capabilities
        self.client.begin(capabilities)

    def text(self):
        """A new text."""
        return "".join(self.chance.choice(PARTS) for _ in range(self.chance.randrange(30)))

    def put(self):
        """What an edit puts."""
        return "".join(self.chance.choice(PARTS) for _ in range(self.chance.randrange(4)))

    def open(self, number):
        """Opens a document of this number, if it isn't open."""
        uri = f"file:///texts/{number}.txt"
        if uri not in self.texts:
            self.texts[uri] = self.text()
            self.client.open(uri, self.texts[uri])

    def place(self, text):
        """A place in the text that has a position, and its position."""
        while True:
            at = self.chance.randrange(len(text) + 1)
            found = position(text, at, self.is_utf8)
            if found:
                return at, found

    def edit(self, uri):
        """Changes a document by one to three changes."""
        changes = []
        text = self.texts[uri]
        for _ in range(self.chance.choice([1, 1, 1, 2, 3])):
            (start, one), (end, other) = sorted([self.place(text), self.place(text)])
            if end - start > 8:
                end, other = start, one
            put = self.put()
            if self.chance.random() < 0.02:
                text = self.text()
                changes.append(text)
            else:
                text = text[:start] + put + text[end:]
                changes.append(ranged(one, other, put))
            self.edits += 1
        self.texts[uri] = text
        self.client.change(uri, *changes)

    def look(self, uri):
        """Asks for tokens: all, or the edits since those of the last answer, which must make all."""
        before = self.tokens.get(uri)
        if before is None or self.chance.random() < 0.3:
            self.tokens[uri] = self.client.tokens(uri)
            return
        since = self.client.tokens_since(uri, before)
        data = applied(before["data"], since["edits"]) if "edits" in since else since["data"]
        self.tokens[uri] = self.client.tokens(uri)
        assert data == self.tokens[uri]["data"], f"the edits of tokens don't make {data}"

    def shut(self, uri):
        """Closes a document."""
        self.client.close(uri)
        self.texts.pop(uri)
        self.tokens.pop(uri, None)

    def new_rules(self):
        """Types new rules into the rule file, which is opened for it, and saved or not, and closed after."""
        self.rules = "%%\n" + "".join(self.chance.sample(RULES, self.chance.randrange(2, 9)))
        uri = f"file://{self.path}"
        self.client.open(uri, self.good, "lex")
        is_good = not faults(self.client.change(uri, self.rules))
        if self.chance.random() < 0.5:
            self.client.save(uri)
            self.good = self.rules if is_good else self.good
        self.client.close(uri)
        self.tokens.clear()

    def step(self):
        """Does one thing."""
        self.open(self.chance.randrange(3))
        uri = self.chance.choice(list(self.texts))
        done = self.chance.choices(["edit", "look", "shut", "rules"], [EDIT, TOKENS, CLOSE, NEW_RULES])[0]
        if done == "edit":
            self.edit(uri)
        elif done == "look":
            self.look(uri)
        elif done == "shut":
            self.shut(uri)
        else:
            self.new_rules()

    def difference(self):
        """What is otherwise than at a fresh server with the final texts and rules; nothing where nothing is."""
        with Client("--rules", rules_file(self.good)) as fresh:
            fresh.begin(self.capabilities)
            for uri, text in self.texts.items():
                wanted = fresh.open(uri, text)["diagnostics"]
                got = self.client.change(uri)["diagnostics"]
                if got != wanted:
                    return f"{text!r}: diagnostics {got}, of a fresh server {wanted}"
                one, other = self.client.tokens(uri)["data"], fresh.tokens(uri)["data"]
                if one != other:
                    return f"{text!r}: tokens {one}, of a fresh server {other}"
        return None

    def end(self):
        """Ends it."""
        status = self.client.end()
        self.client.__exit__()
        return status


def run(edits, seed, per_dialogue=100):
    """Dialogues of both encodings up to so many edits. Returns how many edits there were, and what differs."""
    chance = random.Random(seed)
    done, differences = 0, []
    while done < edits:
        dialogue = Dialogue(chance, chance.random() < 0.5)
        while dialogue.edits < min(per_dialogue, edits - done):
            dialogue.step()
        done += dialogue.edits
        found = dialogue.difference()
        if dialogue.end() != 0:
            found = found or "the status isn't 0"
        if found:
            differences.append(found)
    return done, differences


def main():
    """Tries so many edits."""
    edits = int(sys.argv[1]) if len(sys.argv) > 1 else 10_000
    seed = int(sys.argv[2]) if len(sys.argv) > 2 else 1
    done, differences = run(edits, seed)
    for difference in differences[:10]:
        print(difference)
    print(f"dialogues: {done} edits, {len(differences)} differ")
    return 1 if differences else 0


if __name__ == "__main__":
    sys.exit(main())
