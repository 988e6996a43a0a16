"""Rule texts that several tests use."""

WORDS = "%%\n[a-z]+ 'ID'\n[ ] ;"

# names, comments to the end of the line, and blanks
LINES = "%%\n[a-z]+ 'ID'\n#[^\\n]* ;\n[ \\r\\n] ;"

NESTED = "%x c\n%%\n\\( <+c>'OPEN'\n<c>\\( <+c>'OPEN2'\n<c>\\) <-c>'CLOSE'\n<c>[a-z]+ 'IN'\n[a-z]+ 'OUT'"

COMMENTS = "%x c\n%%\n/\\* <+c>;\n<c>\\*/ <-c>;\n<c>[^*]+ ;\n<c>\\* ;\n[a-z]+ 'WORD'\n[ \\n] ;"

# rules that look far past the end of a tile
FAR = "%%\na 'A'\na*b 'B'"

FAR_PAIRS = "%%\na 'A'\nb 'B'\n(ab)*c 'C'"

FAR_TWO_TABLES = "%%\na 'A'\n(a{13})*b 'B'\n(a{17})*c 'C'"
# four of these tables come to more dead ends than the text has bytes
FAR_FOUR_TABLES = "%%\na 'A'\n(a{13})*b 'B'\n(a{17})*c 'C'\n(a{19})*d 'D'\n(a{23})*e 'E'\n"

FAR_STATES = "%x s\n%%\na <s>'A'\na*b 'B'\n<s>a <INITIAL>'T'\n<s>a*c 'C'"

# the first rule has no table and wins, and the table of the other is walked in vain
FAR_WITHOUT_TABLE = "%%\n\\ba 'A'\na*b 'B'"


def word_by_chance(chance, most):
    """A word of one to so many of the letters a and b."""
    return "".join(chance.choices("ab", k=chance.randint(1, most)))


def far_by_chance(chance, size):
    """A rule text whose rules look far, and a text of so many letters on which they do so in vain.

    A rule wants a word some number of times, over and over, and then a letter that never comes. The text has these words over and
    over, with another word now and then.
    """
    words = [word_by_chance(chance, 3) for _ in range(chance.randint(1, 4))]
    rules = [f"(({word}){{{chance.randint(1, 12)}}})*{'cdef'[number]} 'R{number}'\n" for number, word in enumerate(words)]
    parts, length = [], 0
    while length < size:
        part = chance.choice(words) * chance.randint(1, size // 2) + word_by_chance(chance, 5)
        parts.append(part)
        length += len(part)
    return "%%\na 'A'\nb 'B'\n" + "".join(rules), "".join(parts)[:size]
