"""Answers as short texts, so that a row reads as a person would write it."""


def names_of(rules):
    """What lexemes are called by their ids: the name of the first named rule with the id."""
    names = {}
    for rule in rules:
        if rule["name"] is not None:
            names.setdefault(rule["tok_id"], rule["name"])
    return names


def format_item(item, names):
    """`ID 0+3` or `error 3..3 in 0`."""
    if item[0] == "lex":
        _, token, start, length = item
        return f"{names.get(token, '?')} {start}+{length}"
    _, place, state = item
    return f"error {place}..{place}" + ("" if state is None else f" in {state}")


def format_items(items, names):
    """`ID 0+3, error 3..3 in 0`."""
    return ", ".join(format_item(item, names) for item in items)


def format_entry(count, state):
    """`1`, or `1*2` where it is there twice."""
    return str(state) if count == 1 else f"{state}*{count}"


def format_boundary(place, stack):
    """A boundary by its place and its stack, from bottom to top: `2:0,1*2`."""
    return f"{place}:" + ",".join(format_entry(count, state) for count, state in stack)


def format_boundaries(boundaries):
    """`0:0 1:0,1 2:0,1*2`."""
    return " ".join(format_boundary(place, stack) for place, stack in boundaries)


def format_lookahead(ahead):
    """How far past each boundary the tiles before it looked: `0 1`."""
    return " ".join(str(count) for count in ahead)


def format_piece(piece, data):
    """The place of its rule, its name and its text: `0 ID ab`."""
    rule, start, length, name = piece
    text = data[start:start + length].decode()
    return f"{rule} {'-' if name is None else name} {text}"


def format_pieces(pieces, text):
    """`0 ID ab|2 -  `."""
    data = text.encode()
    return "|".join(format_piece(piece, data) for piece in pieces)


def format_rule(rule):
    """A rule's name and id: `ID 0`, `- none`."""
    name = "-" if rule["name"] is None else rule["name"]
    token = "none" if rule["tok_id"] is None else rule["tok_id"]
    return f"{name} {token}"


def format_rules(rules):
    """`ID none, - 1`."""
    return ", ".join(format_rule(rule) for rule in rules)


def format_place(place):
    """A line and a column: `1:2`."""
    line, column = place
    return f"{line}:{column}"


def format_places(places):
    """Each place in characters and each in code units: `1:1 0:0`."""
    return " ".join(f"{format_place(place)} {format_place(position)}" for place, position in places)
