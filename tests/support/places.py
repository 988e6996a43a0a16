"""Places, texts and lines of a text, counted by hand. A text is its bytes."""

import re

# What ends a line by the Language Server Protocol.
LINE_END = re.compile("\r\n|\n|\r")


def is_place(data, byte):
    """Whether the byte is in the text or its end, and not inside a character."""
    return byte <= len(data) and (byte == len(data) or data[byte] & 0xC0 != 0x80)


def fits(data, start, end):
    """Whether the span from the one byte to the other fits the text."""
    return start <= end and is_place(data, start) and is_place(data, end)


def counted(data, byte):
    """The place before this byte; inside a character the place before that, and past the text's end the end.

    At first as people count it, line and column from 1, in characters, where U+000A alone ends a line; then as the Language Server
    Protocol does, from 0, in code units of UTF-16, where U+000D ends a line too, and no place is between it and U+000A.
    """
    before = data[:byte].decode(errors="ignore")
    line = before.count("\n")
    in_line = before[before.rfind("\n") + 1:]
    if before.endswith("\r") and data[len(before.encode()):].startswith(b"\n"):
        before = before[:-1]
    lines = LINE_END.split(before)
    return [[line + 1, len(in_line) + 1], [len(lines) - 1, len(lines[-1].encode("utf-16-le")) // 2]]


def lines_around(data, start, end):
    """The whole lines of a span that fits, without the end of the last."""
    first = data.rfind(b"\n", 0, start) + 1
    after = data.find(b"\n", end)
    return data[first:after if after >= 0 else len(data)].decode()


def said_of_span(data, start, end):
    """What a lexer must say of a span: the span, its text, what it says of one that fits, and the places of both ends."""
    end = max(start, end)
    first, last = counted(data, start), counted(data, end)
    if not fits(data, start, end):
        return [start, end, "", None, None, None, *first, *last]
    text = data[start:end].decode()
    return [start, end, text, text, lines_around(data, start, end), [first[0], last[0]], *first, *last]
