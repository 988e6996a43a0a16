"""Replays the cases of replayed.jsonl through the C library: python3 -m support.c_replay, in tests/.

The package lrlex of bindings/python and LRLEX_LIBRARY say how the library is called. A case is compared in its faults with all spans,
rules, start states, ids from names, items, places, and the count of its pieces; then a document that becomes its input by edits is compared too.

Cases of definitions from parts, of the most rules that smaller ids allow, and of limits of 0 can't be said in C: they are counted as
left out.
Each difference is printed; the last line is 'N cases, K left out, D differences'. The status is 1 if there are any.
"""

import ctypes
import sys
from ctypes import byref

from lrlex import _c

from support.replay import stored

LIB = _c.LIB


def is_left_out(case):
    """Whether the case can't be said in C."""
    no_limit = 0 in (case["flags"].get("nest_limit"), case["flags"].get("size_limit"))
    too_many = any(it["kind"] == "TooManyRules" for it in case["expected"].get("faults", []))
    return no_limit or "from_rules" in case or case["storage"] != "u32" and too_many


def options_of(flags):
    """The options of a case's flags."""
    options = _c.Options()
    for name, value in flags.items():
        if name in _c.FLAGS:
            options.set |= _c.FLAGS[name]
            options.on |= _c.FLAGS[name] if value else 0
        else:
            setattr(options, name, value)
    return options


def each(count, call, kind):
    """All that a call gives by number."""
    found = []
    for number in range(count):
        it = kind()
        _c.check(call(number, byref(it)))
        found.append(it)
    return found


def faults_of(handle):
    """The faults of a refused rule text."""
    found = []
    for number, it in enumerate(each(LIB.lrlex_fault_count(handle), lambda *to: LIB.lrlex_fault_at(handle, *to), _c.Fault)):
        # pylint: disable-next=cell-var-from-loop
        spans = each(it.spans, lambda *to: LIB.lrlex_fault_span_at(handle, number, *to), _c.FaultSpan)
        found.append({"kind": _c.text_by(LIB.lrlex_fault_name, it.kind), "spans": [[span.start, span.end] for span in spans]})
    return found


def set_ids(handle, ids):
    """Gives the rules these ids by their names. Returns the names that no rule has, and the names of rules that have no id, with places."""
    names = [name.encode() for name in ids]
    given = (_c.NamedId * (len(names) + 1))(*[(name, len(name), it) for name, it in zip(names, ids.values())])
    missing = (ctypes.c_bool * (len(names) + 1))()
    _c.check(LIB.lrlex_definition_set_rule_ids(handle, given, len(names), missing, len(names)))
    lacking = sorted(name for name, is_missing in zip(ids, missing) if is_missing)
    unused = [[name, span] for it, name, span in rules_of(handle) if name is not None and it is None]
    return [lacking or None, sorted(unused, key=lambda it: it[1]) or None]


def rules_of(handle):
    """Id, name and the name's span of each rule."""
    found = []
    for number, it in enumerate(each(LIB.lrlex_rule_count(handle), lambda *to: LIB.lrlex_rule_at(handle, *to), _c.Rule)):
        name = _c.text_by(LIB.lrlex_rule_name, handle, number)
        found.append([it.id if it.has_id else None, name, [it.name_start, it.name_end]])
    return found


def states_of(handle):
    """Id, name, whether it is exclusive, and the name's span of each start state."""
    found = []
    for number, it in enumerate(each(LIB.lrlex_state_count(handle), lambda *to: LIB.lrlex_state_at(handle, *to), _c.State)):
        found.append([it.id, _c.text_by(LIB.lrlex_state_name, handle, number), it.exclusive, [it.name_start, it.name_end]])
    return found


def rows_of(call, kind, size):
    """The tokens or pieces that a call gives, and how lexing went."""
    rows, lexed = (kind * (size + 1))(), _c.Lexed()
    _c.check(call(rows, size + 1, byref(lexed)))
    return rows[:lexed.count], lexed


def items_of(call, size):
    """The items of a text of this size."""
    tokens, lexed = rows_of(call, _c.Token, size)
    items = [["lex", it.id, it.start, it.len] for it in tokens]
    return items + [["err", lexed.end, lexed.state if lexed.unmatched else None]] * lexed.stopped


def places_of(data, items):
    """The places of both ends of each item."""
    ends = [end for item in items for end in ([item[2], item[2] + item[3]] if item[0] == "lex" else [item[1]] * 2)]
    places = (_c.Place * (len(ends) + 1))()
    _c.check(LIB.lrlex_places(data, len(data), (ctypes.c_size_t * (len(ends) + 1))(*ends), len(ends), places, len(ends)))
    found = [[it.line, it.column] for it in places[:len(ends)]]
    return [found[at:at + 2] for at in range(0, len(found), 2)]


def document_items(handle, text):
    """The items of a document that becomes this text by edits at its end, in its middle and at its front."""
    document, parts = _c.Handle(), [text[len(text) // 3:2 * len(text) // 3], text[2 * len(text) // 3:], text[:len(text) // 3]]
    size = len(text.encode())
    try:
        _c.check(LIB.lrlex_document_new(handle, byref(document), b"", 0))
        length = 0
        for at_end, part in zip([False, True, False], parts):
            put = part.encode()
            place = length if at_end else 0
            _c.check(LIB.lrlex_document_edit(byref(document), place, place, put, len(put)))
            length += len(put)
        return items_of(lambda *out: LIB.lrlex_document_tokens(byref(document), 0, *out), size)
    finally:
        LIB.lrlex_free(byref(document))


def replay(case):
    """What comes of the case, and what must come of it."""
    handle, text, data = _c.Handle(), case["rules"].encode(), case["input"].encode()
    wanted = case["expected"]
    try:
        status = LIB.lrlex_definition_new(byref(handle), text, len(text), byref(options_of(case["flags"])))
        if status == _c.REFUSED:
            return {"faults": faults_of(byref(handle))}, {"faults": wanted.get("faults")}
        _c.check(status)
        named = {"set_ids": set_ids(byref(handle), case["ids"])} if "ids" in case else {}
        items = items_of(lambda *out: LIB.lrlex_lex(byref(handle), data, len(data), *out), len(data))
        pieces, _ = rows_of(lambda *out: LIB.lrlex_pieces(byref(handle), data, len(data), *out), _c.Piece, len(data))
        got = {
            **named,
            "states": states_of(byref(handle)),
            "rules": rules_of(byref(handle)),
            "items": items,
            "linecols": places_of(data, items),
            "tiles": len(pieces),
            "edited": document_items(byref(handle), case["input"]),
        }
        rules = [[it["tok_id"], it["name"], it["name_span"]] for it in wanted.get("rules", [])]
        return got, {**{key: wanted.get(key) for key in got}, "rules": rules, "edited": wanted.get("items")}
    finally:
        LIB.lrlex_free(byref(handle))


def main():
    """Replays all."""
    left_out = differences = 0
    cases = stored()
    for case in cases:
        if is_left_out(case):
            left_out += 1
            continue
        got, wanted = replay(case)
        for key in got:
            if got[key] != wanted[key]:
                differences += 1
                print(f"{case['id']}, {key}: got {got[key]!r}, expected {wanted[key]!r}")
    print(f"{len(cases)} cases, {left_out} left out, {differences} differences")
    return 1 if differences else 0


if __name__ == "__main__":
    sys.exit(main())
