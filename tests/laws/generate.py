"""Random rule texts, flags, texts, edits, mistakes and maps of ids."""

from laws.patterns import pattern

# What texts are made of: the characters that the patterns speak of, and some of their words.
PIECES = [
    "a", "a", "b", "b", "c", "A", "B", "0", "7", " ", "\n", "é", "É", "à", "α", "Ω", "日", "😀", "_", "-", "k", "K", "ſ", "s", "if",
    "foo", "FOO", "ab", "ba", "aaaa", "\r\n", "é日",
]

# What the texts are made of in which large patterns match much.
FEW = ["a", "a", "a", "b", "b", "ab", "c", "aa"]

# What may replace a character of a rule text.
MARKS = [
    "<", ">", "+", "-", "*", ",", "'", '"', ";", "%", "%%", "%%\n", "%x ", " ", "\t", "\n", "\r", "\\", "[", "]", "(", ")", "{",
    "}", "/", "//", "é", "😀", "\u00a0", "\u2028", "0", "R0", "X", "INITIAL",
]

# Names that no rule has.
UNKNOWN = ["", "R", "R00", "r0", "R9", "Ω"]

# A text that has fewer bytes grows, one that has more shrinks.
FEW_BYTES = 20

MANY_BYTES = 200


def with_lengths(pieces):
    """The pieces, each with its bytes."""
    return [(piece, len(piece.encode())) for piece in pieces]


PIECES_MEASURED, FEW_MEASURED = with_lengths(PIECES), with_lengths(FEW)


def text(chance, most):
    """A random text, of no more than so many bytes and of hardly fewer."""
    pieces = FEW_MEASURED if chance.one_in(3) else PIECES_MEASURED
    taken, room = [], most
    for _ in range(most):
        piece, length = chance.one_of(pieces)
        if length <= room:
            taken.append(piece)
            room -= length
    return "".join(taken)


class RuleText:
    """A rule text, the flags that it is read with, and the names of its rules, None for a rule that has none."""

    def __init__(self, text, flags, names):
        self.text, self.flags, self.names = text, flags, names


def any_states(chance):
    """How start states are declared, and all their names."""
    kind = chance.below(6)
    if kind == 0:
        return "%x X\n", ["INITIAL", "X"]
    if kind == 1:
        return "%s S\n", ["INITIAL", "S"]
    if kind == 2:
        return "%x X Y\n%s S\n", ["INITIAL", "X", "Y", "S"]
    return "", ["INITIAL"]


# Each flag, in how many times it is set once, and to what.
FLAGS = [
    ("dot_matches_new_line", 4, False),
    ("multi_line", 5, False),
    ("posix_escapes", 10, True),
    ("case_insensitive", 8, True),
    ("swap_greed", 8, True),
    ("ignore_whitespace", 12, True),
    ("unicode", 6, False),
]


def any_flags(chance):
    """Random flags, most of them unset."""
    return {name: value for name, times, value in FLAGS if chance.one_in(times)}


def any_list(chance, names):
    """The start states in which a rule is active: none listed, all, one or two."""
    one, other, kind = chance.one_of(names), chance.one_of(names), chance.below(6)
    if kind == 0:
        return "<*>"
    if kind <= 2:
        return f"<{one}>"
    return f"<{one},{other}>" if kind == 3 else ""


def any_target(chance, names):
    """What a rule does to the stack of states: replaces, pushes, pops, or nothing."""
    state, kind = chance.one_of(names), chance.below(7)
    return f"<{['', '+', '-'][kind]}{state}>" if kind < 3 else ""


def any_line(chance, states, number, unicode):
    """The line of the rule with this number, and its name."""
    active = any_list(chance, states)
    matched = pattern(chance, unicode)
    target = any_target(chance, states)
    name = None if chance.one_in(6) else f"R{number}"
    ending = ";" if name is None else f"'{name}'"
    return f"{active}{matched} {target}{ending}\n", name


def last_line(chance):
    """A last rule that matches each character, so that a text is lexed to its end; sometimes none."""
    kind = chance.below(6)
    if kind == 0:
        return "", []
    return ("<*>(?su:.) ;\n", [None]) if kind == 1 else ("<*>(?su:.) 'ALL'\n", ["ALL"])


def rule_text(chance):
    """A rule text of up to nine rules."""
    declared, states = any_states(chance)
    flags = any_flags(chance)
    unicode = flags.get("unicode", True)
    lines = [any_line(chance, states, number, unicode) for number in range(chance.below(8) + 1)]
    last, last_names = last_line(chance)
    names = [name for _, name in lines] + last_names
    return RuleText(declared + "%%\n" + "".join(line for line, _ in lines) + last, flags, names)


def with_mistake(chance, rules):
    """The rule text with one mistake."""
    at = chance.below(len(rules.text))
    lines = rules.text.rstrip("\n").split("\n")
    row = chance.below(len(lines))
    mark, kind = chance.one_of(MARKS), chance.below(7)
    if kind <= 1:
        lines[row:row + 1] = [lines[row]] * (2 * kind)
        changed = "".join(line + "\n" for line in lines)
    else:
        put = {2: "", 3: rules.text[at] * 2}.get(kind, mark)
        changed = rules.text[:at] + put + rules.text[at + 1:]
    return RuleText(changed, rules.flags, None)


class Edit:
    """An edit, and what must come of it: whether it fits, the text after it, and bytes whose places are asked for then."""

    __slots__ = ("start", "end", "put", "fits", "after", "bytes")

    def as_list(self):
        """The edit as a step has it, with the bytes."""
        return [self.start, self.end, self.put, self.bytes]


def place_before(data, byte):
    """The last place up to this byte that is not inside a character."""
    if byte >= len(data):
        return len(data)
    while data[byte] & 0xC0 == 0x80:
        byte -= 1
    return byte


def fitting(chance, data):
    """Bytes that an edit may take away, mostly few."""
    start = place_before(data, chance.below(len(data) + 1))
    kind = chance.below(8)
    if kind <= 2:
        length = 0
    else:
        length = chance.below(3 if kind <= 4 else 10 if kind <= 6 else 60)
    return start, place_before(data, start + length)


def any_bytes(chance, data):
    """Any two numbers that are not far past the text's end."""
    most = len(data) + 6
    return chance.below(most), chance.below(most)


def room(chance, length):
    """How many bytes an edit of a text of this length puts, at the most."""
    if length < FEW_BYTES:
        return chance.below(40)
    if length > MANY_BYTES:
        return 0
    kind = chance.below(8)
    if kind <= 1:
        return 0
    return chance.below(4 if kind <= 4 else 12 if kind <= 6 else 40)


def is_between(data, byte):
    """Whether the byte is a place of the text that is not inside a character."""
    return byte <= len(data) and place_before(data, byte) == byte


def any_edit(chance, before):
    """A random edit of these bytes of a text."""
    edit = Edit()
    choose = any_bytes if chance.one_in(8) else fitting
    edit.start, edit.end = choose(chance, before)
    edit.put = text(chance, room(chance, len(before)))
    edit.fits = edit.start <= edit.end and is_between(before, edit.start) and is_between(before, edit.end)
    edit.after = before
    if edit.fits:
        edit.after = before[:edit.start] + edit.put.encode() + before[edit.end:]
    most = len(edit.after) + 4
    edit.bytes = [chance.below(most), chance.below(most), chance.below(most)]
    return edit


def edits(chance, first, count):
    """So many edits, each of the text after the one before."""
    now, made = first.encode(), []
    for _ in range(count):
        edit = any_edit(chance, now)
        now = edit.after
        made.append(edit)
    return made


def any_id(chance):
    """One of a few token ids."""
    return chance.below(12)


def any_ids(chance, names):
    """A map: ids for most names of the rules, and for a few that no rule has."""
    ids = {}
    for name in names:
        if name is not None and not chance.one_in(6):
            ids[name] = any_id(chance)
    for name in UNKNOWN:
        if chance.one_in(6):
            ids[name] = any_id(chance)
    return ids
