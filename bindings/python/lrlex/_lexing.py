"""Definitions, tokens, documents and scanners over the C library."""

from __future__ import annotations

import ctypes
import struct
import threading
import weakref
from ctypes import byref
from functools import partial
from typing import Any, Callable, Iterable, Iterator, Mapping, NamedTuple, Optional, Sequence, TypeVar

from . import _c
from ._c import LIB, Error, FaultKind, check, text_by

# A token and a piece of the C library as `struct` reads them: start, length, and id or rule.
_TOKEN = struct.Struct(f"@NNI{ctypes.sizeof(_c.Token) - 2 * ctypes.sizeof(ctypes.c_size_t) - 4}x")
_PIECE = struct.Struct("@NNN")
# A tile: start, length, rule, id, and whether it has one.
_TILE = struct.Struct(f"@NNNI?{ctypes.sizeof(_c.Tile) - 3 * ctypes.sizeof(ctypes.c_size_t) - 5}x")

# The largest number of the C library.
_MOST: int = ctypes.c_size_t(-1).value

# Number, start and end of a token or a piece.
_Span = tuple[int, int, int]
# A tile: start and length in bytes, rule, id, and whether it has one.
_Row = tuple[int, int, int, int, bool]
# Tiles, and the byte and the index behind them.
_Ahead = tuple[Iterator["Tile"], int, int]

_T = TypeVar("_T")
_Self = TypeVar("_Self", bound="_Closing")


class Place(NamedTuple):
    """A place of a rule text: `start` and `end` are indices of it, and line and column count from 1."""

    line: int
    column: int
    start: int
    end: int


class Fault(NamedTuple):
    """A fault of a rule text. It has more than one place if something is declared twice: the first, and where it is again."""

    message: str
    places: list[Place]
    kind: FaultKind

    def __str__(self) -> str:
        return _shown(self.message, self.places)


def _shown(message: str, places: list[Place]) -> str:
    """A message with its place before it, and the other places, if there are any, behind it."""
    first, *more = [f"{it.line}:{it.column}" for it in places]
    return f"{first}: {message}" + (f", again at {', '.join(more)}" if more else "")


class RulesError(Error, ValueError):
    """The rule text is refused. `faults` has what is wrong with it, up to the first fault that is neither a duplicate nor verbatim code.

    It can be copied and pickled, and loses nothing by that: it has the rule text and its settings, not what the C library made of them.
    """

    def __init__(self, faults: list[Fault], rules: Optional[str] = None, settings: Optional[Mapping[str, Any]] = None) -> None:
        super().__init__(faults, rules, settings)
        self.faults, self._rules, self._settings = faults, rules, settings

    def __str__(self) -> str:
        return "\n".join(map(str, self.faults))

    def __repr__(self) -> str:
        return f"{type(self).__name__}({self.faults!r})"

    def report(self, file: str) -> str:
        """The faults for people: the file's name with line and column, the message, the line itself, and carets below the place.

        This reads the rule text again. Without a rule text it is as `str`.
        """
        if self._rules is None:
            return str(self)
        held, status = _read(LIB.lrlex_definition_new, _Text(self._rules), self._settings or {})
        if status != _c.REFUSED:
            check(status)
        return _fault_report(held, file)


def _name(file: str) -> bytes:
    """The name of a file for a report. Bytes of it that aren't text, as os.fsdecode gives them, are question marks."""
    return file.encode(errors="replace")


class LexError(Error, ValueError):
    """Lexing stopped before the end of the text, at the index `start`, which is the byte `byte` of it in UTF-8.

    `state` is the id of the start state in which no rule matched. It is None if a rule matched that gives no token.
    """

    def __init__(self, start: int, byte: int, line: int, column: int, state: Optional[int]) -> None:
        super().__init__(start, byte, line, column, state)
        self.start, self.byte, self.line, self.column, self.state = start, byte, line, column, state

    def __str__(self) -> str:
        return f"{self.line}:{self.column}: no token begins here"

    def __repr__(self) -> str:
        places = f"start={self.start}, byte={self.byte}, line={self.line}, column={self.column}, state={self.state}"
        return f"{type(self).__name__}({places})"


class Token(NamedTuple):
    """A token. `start` and `end` are indices of the text: `text[start:end]` is its text."""

    name: str
    text: str
    start: int
    end: int
    id: int


class Piece(NamedTuple):
    """A piece of a text. `rule` is the number of the rule that matched it, and `name` is None if the rule has none."""

    name: Optional[str]
    text: str
    start: int
    end: int
    rule: int


class Tile(NamedTuple):
    """A piece of a text as a Scanner gives it. `name` and `id` are None if its rule has no name and so gives no token."""

    name: Optional[str]
    text: str
    start: int
    end: int
    rule: int
    id: Optional[int]


class Entered(NamedTuple):
    """Where a text enters the start state in which it ends: `start` and `end` are indices of the piece that enters it.

    `state` is the number of the start state, from 0.
    """

    start: int
    end: int
    state: int


class _Text:
    """A text as Python has it, and as the C library has it, with the offsets of one in the other."""

    def __init__(self, text: str) -> None:
        self.text, self.data = text, text.encode()
        self.is_ascii = len(self.data) == len(text)

    def index(self, byte: int) -> int:
        """The index of the character that begins at this byte."""
        return byte if self.is_ascii else len(self.data[:byte].decode())

    def need(self, index: int) -> None:
        """Raises IndexError if the index isn't from 0 to the text's length."""
        if not 0 <= index <= len(self.text):
            raise IndexError(f"{index} isn't in a text of {len(self.text)} characters")

    def byte(self, index: int) -> int:
        """The byte at which the character of this index begins. Raises IndexError if it isn't from 0 to the text's length."""
        self.need(index)
        return index if self.is_ascii else len(self.text[:index].encode())

    def bytes_of(self, indices: Sequence[int]) -> list[int]:
        """The bytes at which the characters of these indices begin, in one pass over the text. Raises IndexError as `byte` does."""
        found, at, byte = {}, 0, 0
        for index in sorted({*indices}):
            self.need(index)
            byte += len(self.text[at:index].encode())
            found[index] = byte
            at = index
        return [found[index] for index in indices]

    def spans(self, rows: Iterable[_Span], at: int = 0, index: int = 0) -> list[_Span]:
        """Number, start and end of each of these rows of start, length and number, which are in order of their starts.

        The character of this index begins at the byte `at`, and no row before it.
        """
        if self.is_ascii:
            return [(number, start, start + length) for start, length, number in rows]
        found, data = [], self.data
        for start, length, number in rows:
            first = index + len(data[at:start].decode())
            at = start + length
            index = first + len(data[start:at].decode())
            found.append((number, first, index))
        return found

    def entered(self, call: Callable[..., int]) -> Optional[Entered]:
        """What a call says of where this text enters the start state in which it ends."""
        it = _c.Entered()
        status = call(byref(it))
        if status == _c.NONE:
            return None
        check(status)
        return Entered(self.index(it.start), self.index(it.end), it.state)

    def error(self, lexed: _c.Lexed) -> Optional[LexError]:
        """Where and why lexing stopped, if it did."""
        return self.error_at(lexed.end, lexed.state if lexed.unmatched else None) if lexed.stopped else None

    def error_at(self, byte: int, state: Optional[int]) -> LexError:
        """That lexing stopped at this byte."""
        place = _c.Place()
        check(LIB.lrlex_places(self.data, len(self.data), byref(ctypes.c_size_t(byte)), 1, byref(place), 1))
        return LexError(self.index(byte), byte, place.line, place.column, state)


class _Held:
    """A handle of the C library, for one call at a time: other threads wait for their turn.

    The thread that has the lock can take it again, so that a signal's handler can make a call between two others. What nothing refers to
    is freed without the lock, as nothing can call it then.
    """

    def __init__(self, of: str) -> None:
        self.pointer, self.lock, self.is_closed, self._of = byref(_c.Handle()), threading.RLock(), False, of
        self._free = weakref.finalize(self, LIB.lrlex_free, self.pointer)
        # At a program's end other threads may be in a call.
        self._free.atexit = False

    def need(self) -> None:
        """Raises ValueError if it is closed."""
        if self.is_closed:
            raise ValueError(f"the {self._of} is closed")

    def call(self, function: Callable[..., _T], *words: object) -> _T:
        """What a function of the C library gives for this handle and these words. Raises ValueError if it is closed."""
        with self.lock:
            self.need()
            return function(self.pointer, *words)

    def close(self) -> None:
        """Frees what it has, once no other thread is in a call."""
        with self.lock:
            self.is_closed = True
            self._free()


class _Closing:
    """What has a handle of the C library, and is closed as a file is."""

    _held: _Held

    @property
    def closed(self) -> bool:
        """Whether it is closed."""
        return self._held.is_closed

    def close(self) -> None:
        """Frees what the C library has for it, which else is freed once nothing refers to it. After that each use raises ValueError.

        It waits for calls of other threads. To close it again does nothing.
        """
        self._held.close()

    def _described(self) -> str:
        """What it is, for people."""
        raise NotImplementedError

    def __repr__(self) -> str:
        return f"<lrlex.{type(self).__name__} {'that is closed' if self.closed else self._described()}>"

    def __enter__(self: _Self) -> _Self:
        self._held.need()
        return self

    def __exit__(self, *_: object) -> None:
        self.close()

    def __reduce__(self) -> str:
        raise TypeError(f"a {type(self).__name__} can't be copied or pickled")


def _rows(call: Callable[..., int], kind: type[ctypes.Structure], form: struct.Struct, size: int) -> tuple[Iterator[Any], _c.Lexed]:
    """The rows that a call writes into a buffer of tokens or pieces, of a text of this size, and how lexing went."""
    lexed, room = _c.Lexed(), size // 2 + 16
    while True:
        buffer = (kind * room)()
        check(call(buffer, room, byref(lexed)))
        if lexed.count <= room:
            return _unpacked(form, buffer, lexed.count), lexed
        room = lexed.count


def _unpacked(form: struct.Struct, buffer: ctypes.Array[Any], count: int) -> Iterator[Any]:
    """So many rows of a buffer.

    They are copied: an iterator over a view of the buffer has CPython crash if both are garbage in a cycle, as that of an exception.
    """
    return form.iter_unpack(memoryview(buffer).cast("B")[: count * form.size].tobytes())


def places(text: str, indices: Iterable[int]) -> list[tuple[int, int]]:
    """Line and column, both from 1, of each of these indices of a text, such as the starts of tokens; the column counts characters.

    Each call reads the whole text, so ask for many places at once. Raises IndexError if an index isn't from 0 to the text's length.
    """
    kept = _Text(text)
    asked = kept.bytes_of(list(indices))
    if not asked:
        return []
    found = (_c.Place * len(asked))()
    at = (ctypes.c_size_t * len(asked))(*asked)
    check(LIB.lrlex_places(kept.data, len(kept.data), at, len(asked), found, len(asked)))
    return [(it.line, it.column) for it in found]


class Definition(_Closing):
    """The rules of a rule file, ready to lex texts. Its documents and scanners stay usable after it is closed."""

    def __init__(
        self, rules: str, *, size_limit: Optional[int] = None, nest_limit: Optional[int] = None,
        budget: Optional[tuple[int, int]] = None, **flags: Optional[bool],
    ) -> None:
        """Reads a rule text. Flags are those of the program, with `_` for `-`, such as `case_insensitive=True`.

        `size_limit` is about how many bytes a compiled pattern may take, and `nest_limit` how deep it may nest. None of a flag or a limit
        is the default, and so is 0 of a limit. `budget` is how many rows and how much work may be spent on tables: it changes how fast
        texts are lexed, and no answer.
        Raises RulesError if the rule text has faults, TypeError for an unknown flag, and OverflowError if a number is below 0 or too large.
        """
        settings, text = {"size_limit": size_limit, "nest_limit": nest_limit, "budget": budget, **flags}, _Text(rules)
        self._held, status = _read(LIB.lrlex_definition_new, text, settings)
        if status == _c.REFUSED:
            raise RulesError(_faults(self._held, text, LIB.lrlex_fault_text), rules, settings)
        check(status)
        count = self._held.call(LIB.lrlex_rule_count)
        self._rule_names = [text_by(self._held.call, LIB.lrlex_rule_name, rule) for rule in range(count)]
        self._known: Optional[Mapping[int, str]] = None

    def _described(self) -> str:
        return f"of {len(self._rule_names)} rules"

    @classmethod
    def from_str(cls, rules: str, **settings: Any) -> Definition:
        """The definition of a rule text, as `Definition(rules, ..)`."""
        return cls(rules, **settings)

    @property
    def rule_count(self) -> int:
        """How many rules there are."""
        self._held.need()
        return len(self._rule_names)

    def rule_name(self, rule: int) -> Optional[str]:
        """The name of the rule of this number, from 0. None if it has none. Raises IndexError if there is no such rule."""
        if not 0 <= rule < self.rule_count:
            raise IndexError(f"there is no rule {rule} of {self.rule_count}")
        return self._rule_names[rule]

    def state_name(self, state: int) -> Optional[str]:
        """The name of the start state of this number, from 0. None if there is none."""
        if not 0 <= state <= _MOST:
            return None
        return text_by(self._held.call, LIB.lrlex_state_name, state)

    def name(self, token_id: int) -> str:
        """The name of the first rule that has a name and this id, or "" if there is none. Raises OverflowError as `set_rule_ids` does."""
        self._held.need()
        return self._names.get(_fitting("id", token_id, 32), "")

    def set_rule_ids(self, ids: Mapping[str, int]) -> tuple[set[str], set[str]]:
        """Gives each named rule the id of its name here, or none, as for a parser whose grammar has the ids.

        Returns the names here that no rule has, and the names of rules that have no id now. Lexing stops where such a rule matches.
        Raises SharedError while the definition has a document or a scanner that isn't closed, and OverflowError if an id is below 0 or not
        below 2 ** 32.
        """
        rows = [(name.encode(), _fitting("id", token_id, 32)) for name, token_id in ids.items()]
        given = (_c.NamedId * (len(rows) + 1))(*[_c.NamedId(name, len(name), token_id) for name, token_id in rows])
        missing = (ctypes.c_bool * (len(rows) + 1))()
        with self._held.lock:
            # None before the call, if an exception such as that of Ctrl-C comes after it; and after it, if a signal's handler reads them.
            self._known = None
            check(self._held.call(LIB.lrlex_definition_set_rule_ids, given, len(rows), missing, len(rows)))
            self._known = None
            unused = {name for name, token_id in self._named() if token_id is None}
        return {name for name, is_missing in zip(ids, missing) if is_missing}, unused

    def _named(self) -> list[tuple[str, Optional[int]]]:
        """Name and id of each rule that has a name."""
        found = []
        for rule, name in enumerate(self._rule_names):
            it = _c.Rule()
            check(self._held.call(LIB.lrlex_rule_at, rule, byref(it)))
            if name is not None:
                found.append((name, it.id if it.has_id else None))
        return found

    @property
    def _names(self) -> Mapping[int, str]:
        """The name of each id, which is that of the first rule with a name and the id."""
        with self._held.lock:
            if self._known is None:
                self._known = {token_id: name for name, token_id in reversed(self._named()) if token_id is not None}
            return self._known

    def lex(self, text: str) -> Iterator[Token]:
        """The tokens of the text, in order. Where no rule matches it raises LexError, after the tokens before that place."""
        it = _Text(text)
        with self._held.lock:
            rows, lexed = self._lexed(it)
            names = self._known or self._names
        return _tokens(names, it, rows, lexed)

    def spans(self, text: str) -> list[_Span]:
        """Id, start and end of each token: the quickest way to all of them. It raises LexError if lexing stops."""
        it = _Text(text)
        rows, lexed = self._lexed(it)
        spans, error = it.spans(rows), it.error(lexed)
        if error:
            raise error
        return spans

    def _lexed(self, text: _Text) -> tuple[Iterator[_Span], _c.Lexed]:
        size = len(text.data)
        return _rows(partial(self._held.call, LIB.lrlex_lex, text.data, size), _c.Token, _TOKEN, size)

    def pieces(self, text: str) -> tuple[list[Piece], Optional[LexError]]:
        """The whole text as the rules cut it, also where a rule has no name, and where lexing stopped, if it did."""
        it = _Text(text)
        size = len(it.data)
        rows, lexed = _rows(partial(self._held.call, LIB.lrlex_pieces, it.data, size), _c.Piece, _PIECE, size)
        return _pieces(self._rule_names, it, rows), it.error(lexed)

    def scanner(self, text: str) -> Scanner:
        """The tiles of the text, one after the other, as they are asked for."""
        return Scanner(self, text)

    def stop_report(self, text: str, file: str) -> Optional[str]:
        """Where lexing stops, for people: the file's name with line and column, the message, the line itself, and a caret.

        None if the whole text is lexed.
        """
        name, data = _name(file), text.encode()
        return text_by(self._held.call, LIB.lrlex_stop_report, name, len(name), data, len(data))

    def entered_by(self, text: str) -> Optional[Entered]:
        """Where the text enters the start state in which it ends, such as the beginning of a comment that nothing closes.

        Where lexing stops, the text ends. None if the text begins in that state and no piece leaves it: of a text that ends in INITIAL,
        if it didn't leave INITIAL.
        """
        it = _Text(text)
        return it.entered(partial(self._held.call, LIB.lrlex_entered_by, it.data, len(it.data)))


def _tokens(names: Mapping[int, str], text: _Text, rows: Iterable[_Span], lexed: _c.Lexed) -> Iterator[Token]:
    """The tokens of these rows by the names of their ids, and then where lexing stopped, if it did."""
    spans, all_of_it = text.spans(rows), text.text
    return _until(text.error(lexed), (Token(names[it], all_of_it[start:end], start, end, it) for it, start, end in spans))


def _pieces(names: Sequence[Optional[str]], text: _Text, rows: Iterable[_Span]) -> list[Piece]:
    """The pieces of these rows by the names of the rules."""
    return [Piece(names[rule], text.text[start:end], start, end, rule) for rule, start, end in text.spans(rows)]


def _until(error: Optional[LexError], tokens: Iterator[Token]) -> Iterator[Token]:
    """These tokens, and then the error, if there is one."""
    yield from tokens
    if error:
        raise error


def _options(
    size_limit: Optional[int] = None, nest_limit: Optional[int] = None, budget: Optional[tuple[int, int]] = None, **flags: Optional[bool]
) -> _c.Options:
    """These settings of a Definition, for the C library."""
    unknown = flags.keys() - _c.FLAGS.keys()
    if unknown:
        raise TypeError(f"there is no flag {min(unknown)!r}")
    given = {_c.FLAGS[name]: is_on for name, is_on in flags.items() if is_on is not None}
    size, (rows, work) = 8 * ctypes.sizeof(ctypes.c_size_t), budget or (0, 0)
    return _c.Options(
        _fitting("size_limit", size_limit or 0, size), _fitting("budget", rows, size), _fitting("budget", work, size),
        sum(given), sum(bit for bit, is_on in given.items() if is_on), _fitting("nest_limit", nest_limit or 0, 32), budget is not None,
    )


def _fitting(name: str, number: int, bits: int) -> int:
    """The number. Raises OverflowError if it is below 0 or has more bits than these: ctypes would cut it off."""
    if not 0 <= number < 1 << bits:
        raise OverflowError(f"{name}: {number} isn't below 2 ** {bits}" if number >= 0 else f"{name}: {number} is below 0")
    return number


def _read(function: Callable[..., int], rules: _Text, settings: Mapping[str, Any]) -> tuple[_Held, int]:
    """The handle that a function reads a rule text into by settings of a Definition, and the status of that."""
    held, options = _Held("Definition"), _options(**settings)
    return held, held.call(function, rules.data, len(rules.data), byref(options))


def _fault_report(held: _Held, file: str) -> str:
    """The report of the faults that the handle of a refused rule text has."""
    name = _name(file)
    return text_by(held.call, LIB.lrlex_fault_report, name, len(name)) or ""


def _faults(held: _Held, rules: _Text, message: Callable[..., int]) -> list[Fault]:
    """The faults that the handle of a refused rule text has, each with what this function tells of it."""
    found = []
    for number in range(held.call(LIB.lrlex_fault_count)):
        fault, places = _c.Fault(), []
        check(held.call(LIB.lrlex_fault_at, number, byref(fault)))
        for at in range(fault.spans):
            it = _c.FaultSpan()
            check(held.call(LIB.lrlex_fault_span_at, number, at, byref(it)))
            places.append(Place(it.line, it.column, rules.index(it.start), rules.index(it.end)))
        found.append(Fault(text_by(held.call, message, number) or "", places, FaultKind(fault.kind)))
    return found


class Document(_Closing):
    """A text that is edited. An edit lexes again only what it changes."""

    def __init__(self, definition: Definition, text: str) -> None:
        """Lexes the text."""
        self.definition, self._held = definition, _Held("Document")
        # The text as it is now. During an edit, and once an exception such as that of Ctrl-C has ended one, it is None.
        self._text: Optional[_Text] = _Text(text)
        # How many edits have begun.
        self._edits = 0
        data = self._text.data
        # pylint: disable=protected-access
        with definition._held.lock:
            check(definition._held.call(LIB.lrlex_document_new, self._held.pointer, data, len(data)))
            # They can't change while there is a document.
            self._names, self._rule_names = definition._names, definition._rule_names

    def _described(self) -> str:
        text = self._text
        return f"of {len(text.text)} characters" if text else "after an edit that was interrupted"

    @property
    def text(self) -> str:
        """The text as it is now."""
        with self._held.lock:
            return self._kept().text

    def _kept(self) -> _Text:
        """The text as it is now. Where an edit may have been made or not, the C library's text says so."""
        self._held.need()
        if self._text is not None:
            return self._text
        length = ctypes.c_size_t()
        check(self._held.call(LIB.lrlex_document_len, byref(length)))
        return _Text(text_by(self._held.call, LIB.lrlex_document_text, 0, length.value) or "")

    def edit(self, start: int, end: int, text: str) -> None:
        """Puts a text in the place of `self.text[start:end]`. Raises IndexError if these aren't indices of it, in order.

        If it raises any other exception, `self.text` says whether the edit was made.
        """
        put = text.encode()
        with self._held.lock:
            number = self._edits = self._edits + 1
            kept = self._kept()
            before = kept.text
            if not 0 <= start <= end <= len(before):
                raise IndexError(f"{start}:{end} isn't in a text of {len(before)} characters")
            after = _Text(before[:start] + text + before[end:])
            first, last = kept.byte(start), kept.byte(end)
            self._text = None
            check(self._held.call(LIB.lrlex_document_edit, first, last, put, len(put)))
            # If a signal's handler has made an edit in between, the C library alone knows the text.
            self._text = after if self._edits == number else None

    def lex(self) -> Iterator[Token]:
        """The tokens of the text as it is now. Where no rule matches it raises LexError, after the tokens before that place."""
        with self._held.lock:
            text = self._kept()
            rows, lexed = _rows(partial(self._held.call, LIB.lrlex_document_tokens, 0), _c.Token, _TOKEN, len(text.data))
        return _tokens(self._names, text, rows, lexed)

    def pieces(self, start: int = 0, end: Optional[int] = None) -> tuple[list[Piece], Optional[LexError]]:
        """The pieces that have a character of `self.text[start:end]`, such as those of the lines that an editor shows.

        Each is whole, so the first may begin before `start`, and the last end after `end`. The second value is where lexing of the whole
        text stops, if it does: as of `Definition.pieces`, behind that place there are no pieces.
        """
        with self._held.lock:
            text = self._kept()
            first, last, _ = slice(start, end).indices(len(text.text))
            first, last = text.byte(first), text.byte(last)
            call = partial(self._held.call, LIB.lrlex_document_pieces_in, first, last)
            rows, lexed = _rows(call, _c.Piece, _PIECE, max(0, last - first))
        return _pieces(self._rule_names, text, rows), text.error(lexed)

    def entered_by(self) -> Optional[Entered]:
        """Where the text enters the start state in which it ends, as `Definition.entered_by` tells it."""
        with self._held.lock:
            return self._kept().entered(partial(self._held.call, LIB.lrlex_document_entered_by))

    def place(self, index: int) -> tuple[int, int]:
        """Line and column of an index of the text, both from 1; the column counts characters.

        Raises IndexError if the index isn't from 0 to the text's length.
        """
        return self._placed(index, LIB.lrlex_document_place)

    def position(self, index: int, encoding: str = "utf-16") -> tuple[int, int]:
        """The same place as the Language Server Protocol counts it: both from 0, the column in code units of UTF-16.

        `encoding` may be "utf-8" too: then the column counts bytes. Raises IndexError as `place` does.
        """
        return self._placed(index, LIB.lrlex_document_position_in, _encoding(encoding))

    def _placed(self, index: int, function: Callable[..., int], *words: int) -> tuple[int, int]:
        """Line and column that a function of the C library gives for an index of the text."""
        place = _c.Place()
        with self._held.lock:
            check(self._held.call(function, self._kept().byte(index), *words, byref(place)))
        return place.line, place.column

    def offset_at(self, line: int, column: int, encoding: str = "utf-16") -> int:
        """The index of such a position, the inverse of `position`.

        Past a line's end it is the line's end, past the last line the text's end, and inside a character the place before that.
        """
        if line < 0 or column < 0:
            raise ValueError(f"{line}:{column} is no position")
        byte = ctypes.c_size_t()
        words = [min(line, _MOST), min(column, _MOST), _encoding(encoding)]
        with self._held.lock:
            check(self._held.call(LIB.lrlex_document_offset_at, *words, byref(byte)))
            return self._kept().index(byte.value)


def _encoding(name: str) -> int:
    """The number of an encoding."""
    if name not in _c.ENCODINGS:
        raise ValueError(f"there is no encoding {name!r}: it is one of {', '.join(_c.ENCODINGS)}")
    return _c.ENCODINGS[name]


class Scanner(_Closing):
    """The tiles of a text, one after the other: an iterator. It makes some hundred of them at a time.

    Where lexing stops before the text's end it raises LexError, after the tiles before that place. After any other exception, such as
    that of Ctrl-C, it goes on where it was.
    """

    _ROOM = 512

    def __init__(self, definition: Definition, text: str) -> None:
        """Stands at the front of the text."""
        self.definition, self._held, self._text = definition, _Held("Scanner"), _Text(text)
        data = self._text.data
        # pylint: disable-next=protected-access
        check(definition._held.call(LIB.lrlex_scanner_new, self._held.pointer, data, len(data)))
        # What the C library gave last.
        self._buffer, self._scanned = (_c.Tile * self._ROOM)(), _c.Scanned()
        # The tiles that come next, and the byte and the index behind them. They change at once.
        self._state: _Ahead = (iter(()), 0, 0)

    def _described(self) -> str:
        return f"of {len(self._text.text)} characters"

    def close(self) -> None:
        """Frees what the C library has for it. After that it gives no more tiles, also of those that it has made, and raises ValueError."""
        with self._held.lock:
            super().close()
            self._state, self._scanned.count = (iter(()), 0, 0), 0

    def __iter__(self) -> Scanner:
        return self

    def __next__(self) -> Tile:
        while True:
            state = self._state
            for tile in state[0]:
                return tile
            self._fill(state)

    def _fill(self, used: _Ahead) -> None:
        """Makes the tiles that come after those of a state, unless another thread or a signal's handler has."""
        with self._held.lock:
            _, byte, index = used
            rows = self._fetched(byte) if self._state is used else []
            if self._state is not used:
                return
            spans = self._text.spans([row[:3] for row in rows], byte, index)
            # pylint: disable-next=protected-access
            names, text = self.definition._rule_names, self._text.text
            # As `Tile(..)` makes them, in two thirds of the time.
            make = tuple.__new__
            tiles = [
                make(Tile, (names[rule], text[start:end], start, end, rule, row[3] if row[4] else None))
                for (rule, start, end), row in zip(spans, rows)
            ]
            self._state = iter(tiles), sum(rows[-1][:2]), tiles[-1].end

    def _fetched(self, byte: int) -> list[_Row]:
        """The tiles from this byte on, as the C library has them. At the end it raises StopIteration or LexError."""
        scanned = self._scanned
        # A call that was interrupted may have fetched them.
        if not scanned.count or self._buffer[0].start != byte:
            status = self._held.call(LIB.lrlex_scanner_next, self._buffer, self._ROOM, byref(scanned))
            if status != _c.OK:
                scanned.count = 0
            check(status)
        if scanned.count:
            return list(_unpacked(_TILE, self._buffer, scanned.count))
        if scanned.end in (_c.SCAN_MORE, _c.SCAN_DONE):
            raise StopIteration
        raise self._text.error_at(byte, scanned.state if scanned.end == _c.SCAN_NO_MATCH else None)
