"""Edits of texts: the bytes from the first number to the second give way to a text."""


def edited(text, edit):
    """The text after an edit that fits."""
    start, end, put = edit
    data = text.encode()
    return (data[:start] + put.encode() + data[end:]).decode()


def texts_after(text, edits):
    """The text after each of these edits, one after another."""
    texts = []
    for edit in edits:
        text = edited(text, edit)
        texts.append(text)
    return texts


def moved_item(item, distance):
    """An item that many bytes further on."""
    if item[0] == "lex":
        _, token, start, length = item
        return ["lex", token, start + distance, length]
    _, place, state = item
    return ["err", place + distance, state]


def moved_piece(piece, distance):
    """A piece that many bytes further on."""
    rule, start, length, *rest = piece
    return [rule, start + distance, length, *rest]


def is_change(change, before, after, move):
    """Whether this change makes the second list of the first: what is before it is the same, and what is after it is the same, moved."""
    first, removed, inserted = change
    same = len(before) - removed == len(after) - inserted and min(change) >= 0 and first + removed <= len(before)
    return same and before[:first] + after[first:first + inserted] + [move(one) for one in before[first + removed:]] == after
