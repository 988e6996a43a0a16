"""The C library, as include/lrlex.h declares it."""

from __future__ import annotations

import ctypes
import enum
import os
from ctypes import POINTER, Structure, byref, c_bool, c_char_p, c_int, c_size_t, c_uint32, c_void_p
from typing import Any, Callable, Optional

# The version of this package, and that of the header which it follows.
VERSION = "0.1.0"

# The library's name. It ends in the major and minor version, which are those of this package.
NAME = "liblrlex.so.0.1"

# What to do where the library isn't found, or is another.
ADVICE = f"set LRLEX_LIBRARY to the path of {NAME}, which ./dev dist makes"

OK, REFUSED, NOMEM, NOT_UTF8, MISUSE, NONE, DOES_NOT_FIT, SHARED = range(8)

SCAN_MORE, SCAN_DONE, SCAN_NO_MATCH, SCAN_NO_ID, SCAN_NO_TARGET, SCAN_NO_STATE = range(6)

# What the columns of a position count, by the names that the Language Server Protocol gives them.
ENCODINGS = {"utf-8": 0, "utf-16": 1}

# The flags by the names of the rule file's settings, each with its bit.
FLAGS = {
    "dot_matches_new_line": 1,
    "multi_line": 2,
    "octal": 4,
    "posix_escapes": 8,
    "allow_wholeline_comments": 16,
    "case_insensitive": 32,
    "swap_greed": 64,
    "ignore_whitespace": 128,
    "unicode": 256,
}


class FaultKind(enum.IntEnum):
    """The kinds of faults, by the names and numbers of the header."""

    PREMATURE_END = 0
    ROUTINES_NOT_SUPPORTED = 1
    UNKNOWN_DECLARATION = 2
    MISSING_SPACE = 3
    INVALID_NAME = 4
    UNKNOWN_START_STATE = 5
    DUPLICATE_START_STATE = 6
    INVALID_START_STATE = 7
    INVALID_START_STATE_NAME = 8
    DUPLICATE_NAME = 9
    REGEX_ERROR = 10
    VERBATIM_NOT_SUPPORTED = 11
    TOO_MANY_RULES = 12


class Handle(Structure):
    """A definition's, a document's or a scanner's. It owns what it points to."""

    _fields_ = [("hidden", c_void_p)]


class Options(Structure):
    """Settings of a definition; zeros are the defaults."""

    _fields_ = [(name, c_size_t) for name in ("size_limit", "table_rows", "table_work")] + [
        (name, c_uint32) for name in ("set", "on", "nest_limit")
    ] + [("limit_tables", c_bool)]


class Token(Structure):
    """A lexeme: bytes from `start`, and its rule's id."""

    _fields_ = [("start", c_size_t), ("len", c_size_t), ("id", c_uint32)]


class Piece(Structure):
    """A piece of the text, and the number of its rule."""

    _fields_ = [("start", c_size_t), ("len", c_size_t), ("rule", c_size_t)]


class Tile(Structure):
    """A tile of a scanner: bytes from `start`, the number of its rule, and the id of its token, if it has one."""

    _fields_ = [(name, c_size_t) for name in ("start", "len", "rule")] + [("id", c_uint32), ("has_id", c_bool)]


class Scanned(Structure):
    """How a scanner went on."""

    _fields_ = [(name, c_size_t) for name in ("count", "place", "state", "rule")] + [("end", c_uint32)]


class Place(Structure):
    """Line and column, from 1."""

    _fields_ = [("line", c_size_t), ("column", c_size_t)]


class Lexed(Structure):
    """How lexing went."""

    _fields_ = [("count", c_size_t), ("end", c_size_t), ("state", c_size_t), ("stopped", c_bool), ("unmatched", c_bool)]


class Entered(Structure):
    """Where a text enters the start state in which it ends: the bytes of a piece, and the state."""

    _fields_ = [(name, c_size_t) for name in ("start", "end", "state")]


class Fault(Structure):
    """A fault of a rule text."""

    _fields_ = [(name, c_size_t) for name in ("start", "end", "line", "column", "spans")] + [("kind", c_uint32)]


class FaultSpan(Structure):
    """A place of a fault."""

    _fields_ = [(name, c_size_t) for name in ("start", "end", "line", "column")]


class RuleWarning(Structure):
    """A warning of a rule text."""

    _fields_ = [(name, c_size_t) for name in ("start", "end", "line", "column")] + [("kind", c_uint32)]


class Rule(Structure):
    """A rule."""

    _fields_ = [(name, c_size_t) for name in ("name_start", "name_end", "name_len")] + [
        ("id", c_uint32), ("has_id", c_bool), ("has_name", c_bool)
    ]


class NamedId(Structure):
    """A name, and the id that rules of this name are to have."""

    _fields_ = [("name", c_char_p), ("name_len", c_size_t), ("id", c_uint32)]


class State(Structure):
    """A start state."""

    _fields_ = [(name, c_size_t) for name in ("id", "name_start", "name_end", "name_len")] + [("exclusive", c_bool)]


class Error(Exception):
    """The base of RulesError, LexError and SharedError.

    Calls also raise MemoryError, IndexError, OverflowError, TypeError, ValueError for what is closed or has no meaning, and
    UnicodeEncodeError for half a surrogate pair.
    """


class SharedError(Error):
    """A document or a scanner has the definition too, so it can't be changed."""


HANDLE, SIZE, TEXT = POINTER(Handle), c_size_t, c_char_p
LEXED, WRITTEN = POINTER(Lexed), [TEXT, SIZE, POINTER(SIZE)]

# What each function gives and takes.
FUNCTIONS: dict[str, tuple[Any, list[Any]]] = {
    "lrlex_version": (c_uint32, []),
    "lrlex_free": (None, [HANDLE]),
    "lrlex_definition_new": (c_int, [HANDLE, TEXT, SIZE, POINTER(Options)]),
    "lrlex_fault_count": (SIZE, [HANDLE]),
    "lrlex_fault_at": (c_int, [HANDLE, SIZE, POINTER(Fault)]),
    "lrlex_fault_span_at": (c_int, [HANDLE, SIZE, SIZE, POINTER(FaultSpan)]),
    "lrlex_fault_name": (c_int, [c_uint32, *WRITTEN]),
    "lrlex_fault_text": (c_int, [HANDLE, SIZE, *WRITTEN]),
    "lrlex_fault_message": (c_int, [HANDLE, SIZE, *WRITTEN]),
    "lrlex_fault_report": (c_int, [HANDLE, TEXT, SIZE, *WRITTEN]),
    "lrlex_check": (c_int, [HANDLE, TEXT, SIZE, POINTER(Options)]),
    "lrlex_warnings": (c_int, [HANDLE, TEXT, SIZE, POINTER(RuleWarning), SIZE, POINTER(SIZE)]),
    "lrlex_warning_name": (c_int, [c_uint32, *WRITTEN]),
    "lrlex_warning_text": (c_int, [c_uint32, *WRITTEN]),
    "lrlex_warning_report": (c_int, [HANDLE, TEXT, SIZE, TEXT, SIZE, *WRITTEN]),
    "lrlex_rule_count": (SIZE, [HANDLE]),
    "lrlex_rule_at": (c_int, [HANDLE, SIZE, POINTER(Rule)]),
    "lrlex_rule_name": (c_int, [HANDLE, SIZE, *WRITTEN]),
    "lrlex_definition_set_rule_ids": (c_int, [HANDLE, POINTER(NamedId), SIZE, POINTER(c_bool), SIZE]),
    "lrlex_name": (c_int, [HANDLE, c_uint32, *WRITTEN]),
    "lrlex_state_count": (SIZE, [HANDLE]),
    "lrlex_state_at": (c_int, [HANDLE, SIZE, POINTER(State)]),
    "lrlex_state_name": (c_int, [HANDLE, SIZE, *WRITTEN]),
    "lrlex_lex": (c_int, [HANDLE, TEXT, SIZE, POINTER(Token), SIZE, LEXED]),
    "lrlex_pieces": (c_int, [HANDLE, TEXT, SIZE, POINTER(Piece), SIZE, LEXED]),
    "lrlex_stop_report": (c_int, [HANDLE, TEXT, SIZE, TEXT, SIZE, *WRITTEN]),
    "lrlex_entered_by": (c_int, [HANDLE, TEXT, SIZE, POINTER(Entered)]),
    "lrlex_places": (c_int, [TEXT, SIZE, POINTER(SIZE), SIZE, POINTER(Place), SIZE]),
    "lrlex_document_new": (c_int, [HANDLE, HANDLE, TEXT, SIZE]),
    "lrlex_document_edit": (c_int, [HANDLE, SIZE, SIZE, TEXT, SIZE]),
    "lrlex_document_tokens": (c_int, [HANDLE, SIZE, POINTER(Token), SIZE, LEXED]),
    "lrlex_document_pieces_in": (c_int, [HANDLE, SIZE, SIZE, POINTER(Piece), SIZE, LEXED]),
    "lrlex_document_entered_by": (c_int, [HANDLE, POINTER(Entered)]),
    "lrlex_document_len": (c_int, [HANDLE, POINTER(SIZE)]),
    "lrlex_document_text": (c_int, [HANDLE, SIZE, SIZE, *WRITTEN]),
    "lrlex_document_place": (c_int, [HANDLE, SIZE, POINTER(Place)]),
    "lrlex_document_position": (c_int, [HANDLE, SIZE, POINTER(Place)]),
    "lrlex_document_position_in": (c_int, [HANDLE, SIZE, c_uint32, POINTER(Place)]),
    "lrlex_document_offset_at": (c_int, [HANDLE, SIZE, SIZE, c_uint32, POINTER(SIZE)]),
    "lrlex_scanner_new": (c_int, [HANDLE, HANDLE, TEXT, SIZE]),
    "lrlex_scanner_next": (c_int, [HANDLE, POINTER(Tile), SIZE, POINTER(Scanned)]),
}


def find() -> str:
    """The library's path: that of LRLEX_LIBRARY, a copy in this folder, or a name that the loader looks for."""
    given = os.environ.get("LRLEX_LIBRARY")
    beside = os.path.join(os.path.dirname(os.path.abspath(__file__)), NAME)
    if given:
        return given
    return beside if os.path.exists(beside) else NAME


def load() -> ctypes.CDLL:
    """The library with the types of its functions. Raises ImportError where there is none that this package can call."""
    path = find()
    try:
        library = ctypes.CDLL(path)
        check_version(path, library.lrlex_version())
        for name, (gives, takes) in FUNCTIONS.items():
            function = getattr(library, name)
            function.restype, function.argtypes = gives, takes
    except OSError as fault:
        raise ImportError(f"{path} can't be loaded: {ADVICE}") from fault
    except AttributeError as fault:
        raise ImportError(f"{path} isn't the C library of lrlex: {ADVICE}") from fault
    return library


def check_version(path: str, found: int) -> None:
    """Raises ImportError if what `lrlex_version` gives hasn't the major and minor version of this package."""
    major, minor, _ = map(int, VERSION.split("."))
    if found // 100 != major * 100 + minor:
        raise ImportError(f"{path} has version {found // 10000}.{found // 100 % 100}, and this package needs {major}.{minor}: {ADVICE}")


LIB = load()


def check(status: int) -> None:
    """Raises what a status stands for."""
    if status == NOMEM:
        raise MemoryError
    if status == SHARED:
        raise SharedError("a document or a scanner has the definition too, so it can't be changed: close it first")
    if status != OK:
        raise Error(f"the C library answered status {status}")


def text_by(function: Callable[..., int], *words: object) -> Optional[str]:
    """The text that a function writes into a buffer, with its length. None if there is none."""
    room, length = 256, SIZE()
    while True:
        buffer = ctypes.create_string_buffer(room)
        status = function(*words, buffer, room, byref(length))
        if status == NONE:
            return None
        check(status)
        if length.value <= room:
            return buffer.raw[: length.value].decode()
        room = length.value
