"""What is wrong with a rule text, or hardly meant in it."""

from __future__ import annotations

import ctypes
from ctypes import byref
from typing import Any, NamedTuple

from . import _c
from ._c import LIB, text_by
from ._lexing import Place, _fault_report, _faults, _Held, _name, _read, _shown, _Text


class Finding(NamedTuple):
    """A fault of a rule text, or a warning: what is legal in it and hardly meant.

    `kind` is a name, such as RegexError or NeverWins, and `message` what is wrong, and what to write where the mistake is usual, both as
    `./rolgumzai check --json` has them. A warning has one place, and a fault those of a `Fault`.
    """

    kind: str
    message: str
    places: list[Place]
    is_fault: bool

    def __str__(self) -> str:
        return _shown(self.message if self.is_fault else f"Warning: {self.message} [{self.kind}]", self.places)


def check(rules: str, **settings: Any) -> list[Finding]:
    """All faults of a rule text, or its warnings if it has none. Empty if nothing is found. Settings are those of a `Definition`.

    It goes on below a faulty line, at which the faults of a RulesError end, and never raises RulesError. Raises TypeError and
    OverflowError as a `Definition` does.
    """
    text = _Text(rules)
    held, status = _read(LIB.lrlex_check, text, settings)
    if status == _c.REFUSED:
        faults = _faults(held, text, LIB.lrlex_fault_message)
        return [Finding(text_by(LIB.lrlex_fault_name, it.kind) or "", it.message, it.places, True) for it in faults]
    _c.check(status)
    return [_warning(it, text) for it in _warnings(held, text)]


def check_report(rules: str, file: str, **settings: Any) -> str:
    """What `check` finds, for people: the file's name with line and column, the message, the line itself, and carets below the place.

    Empty if nothing is found.
    """
    text = _Text(rules)
    held, status = _read(LIB.lrlex_check, text, settings)
    if status == _c.REFUSED:
        return _fault_report(held, file)
    _c.check(status)
    name = _name(file)
    return text_by(held.call, LIB.lrlex_warning_report, name, len(name), text.data, len(text.data)) or ""


def _warnings(held: _Held, rules: _Text) -> list[_c.RuleWarning]:
    """The warnings of a rule text, whose definition the handle has."""
    count, room = ctypes.c_size_t(), 64
    while True:
        found = (_c.RuleWarning * room)()
        _c.check(held.call(LIB.lrlex_warnings, rules.data, len(rules.data), found, room, byref(count)))
        if count.value <= room:
            return found[: count.value]
        room = count.value


def _warning(it: _c.RuleWarning, rules: _Text) -> Finding:
    """This warning, with indices of the rule text."""
    kind, message = text_by(LIB.lrlex_warning_name, it.kind), text_by(LIB.lrlex_warning_text, it.kind)
    return Finding(kind or "", message or "", [Place(it.line, it.column, rules.index(it.start), rules.index(it.end))], False)
