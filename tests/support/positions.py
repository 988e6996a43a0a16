"""Positions of the Language Server Protocol, counted by hand. A text is its bytes; lines and columns count from 0."""

import re

from support.places import is_place

# What ends a line.
LINE_END = re.compile(rb"\r\n|\n|\r")

UNITS = {"utf-8": ("utf-8", 1), "utf-16": ("utf-16-le", 2)}

ENCODINGS = ["utf-8", "utf-16"]


def width(part, encoding):
    """How many columns these bytes take."""
    name, size = UNITS[encoding]
    return len(part.decode().encode(name)) // size


def lines_of(data):
    """Where each line begins, and where it ends without what ends it."""
    spans, start = [], 0
    for end in LINE_END.finditer(data):
        spans.append((start, end.start()))
        start = end.end()
    return [*spans, (start, len(data))]


def nearest(data, byte):
    """The nearest place that has a position: not past the end, not inside a character, nor inside the end of a line."""
    byte = min(byte, len(data))
    while not is_place(data, byte) or data[max(byte - 1, 0):byte + 1] == b"\r\n":
        byte -= 1
    return byte


def position(data, byte, encoding):
    """Line and column of the nearest place at or before this byte."""
    byte = nearest(data, byte)
    line, start = [(n, start) for n, (start, _) in enumerate(lines_of(data)) if start <= byte][-1]
    return [line, width(data[start:byte], encoding)]


def offset(data, line, column, encoding):
    """The byte of a line and column."""
    lines = lines_of(data)
    if line >= len(lines):
        return len(data)
    start, end = lines[line]
    places = [at for at in range(start, end + 1) if is_place(data, at)]
    return [at for at in places if width(data[start:at], encoding) <= column][-1]


def answered(data, asked):
    """What must be answered: for a byte its positions, and for a pair of line and column its bytes."""
    if isinstance(asked, int):
        return [position(data, asked, encoding) for encoding in ENCODINGS]
    return [offset(data, *asked, encoding) for encoding in ENCODINGS]
