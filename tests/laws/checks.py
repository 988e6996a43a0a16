"""Laws that hold of all rule texts, texts, edits and maps of ids, and that need no expected answers."""

import json

from laws.random_case import IDS
from support.edits import is_change, moved_item, moved_piece
from support.places import counted, fits, said_of_span
from support.replay import in_order


def raw(line, key):
    """The value of the line with this key, as it is there."""
    found, _, value = line.partition(b" ")
    if found != key:
        raise AssertionError(f"{found!r} in place of {key!r}")
    return value


def value(line, key):
    """The value of the line with this key."""
    return json.loads(raw(line, key).decode())


def values(lines, key):
    """The values of the lines, which all have this key."""
    return json.loads("[" + b",".join(raw(line, key) for line in lines).decode() + "]")


class Run:
    """What a run answers, as its five lines have it."""

    def __init__(self, lines):
        counts, items, boundaries, ahead, pieces = lines
        self.counts = value(counts, b"run")
        self.items, self.boundaries = raw(items, b"items"), raw(boundaries, b"boundaries")
        self.ahead, self.pieces = raw(ahead, b"ahead"), raw(pieces, b"pieces")


def runs_of(lines):
    """The runs of these lines."""
    return [Run(lines[at:at + 5]) for at in range(0, len(lines), 5)]


def one_run(lines):
    """The one run of these lines."""
    (run,) = runs_of(lines)
    return run


# A run by itself


def follow(pieces):
    """Whether the pieces follow one another from 0, none of them empty, each with its text."""
    end = 0
    for piece in pieces:
        if len(piece) != 4 or piece[1] != end or piece[2] <= 0:
            return False
        end += piece[2]
    return True


def items_by_pieces(data, pieces, boundaries):
    """The lexemes of the named pieces, each with its rule's place as its id, and an error where the pieces end before the text.

    The error's state is that on top of the last boundary's stack.
    """
    items = [["lex", rule, start, length] for rule, start, length, name in pieces if name is not None]
    end = pieces[-1][1] + pieces[-1][2] if pieces else 0
    if end < len(data):
        items.append(["err", end, boundaries[-1][1][-1][1]])
    return items


def places_by_pieces(pieces):
    """The places of the boundaries: 0, and after each piece."""
    return [0] + [start + length for _, start, length, _ in pieces]


def counts_by(pieces, items, boundaries):
    """Tiles, items, the most entries of a stack and those of the last; recut tiles, which are all."""
    entries = [len(stack) for _, stack in boundaries]
    return [len(pieces), len(items), max(entries), entries[-1], len(pieces)]


def look_further(data, places, ahead):
    """Whether there is one look a boundary, and each goes as far as the one before or further, up to the text's end at most.

    The end counts as one more byte, and 255 means more bytes.
    """
    ends = [place + over for place, over in zip(places, ahead)]
    known = [end for end, over in zip(ends, ahead) if over < 255]
    return len(ahead) == len(places) and ends[0] == 0 and known == sorted(known) and known[-1] <= len(data) + 1


def compare_tiling(text, run, rules, tally):
    """Compares what a run of the text by a definition that was read answers with itself: all follows from its pieces."""
    data = text.encode()
    lists = b",".join([run.pieces, run.items, run.boundaries, run.ahead])
    pieces, items, boundaries, ahead = json.loads(b"[" + lists + b"]")
    tally.add("runs")
    tally.add("tiles", run.counts[0])
    tally.add("errors", sum(item[0] == "err" for item in items))
    tally.add("lexemes", sum(item[0] == "lex" for item in items))
    tally.law("pieces follow one another", follow(pieces), f": {pieces}")
    tally.same("items by pieces", items_by_pieces(data, pieces, boundaries), items)
    places = [place for place, _ in boundaries]
    tally.same("boundaries by pieces", places_by_pieces(pieces), places)
    tally.law("looks go on", look_further(data, places, ahead), f": {places}, {ahead}")
    tally.same("counts by pieces", counts_by(pieces, items, boundaries), run.counts[:5])
    tally.same("names of pieces", [rules[piece[0]]["name"] for piece in pieces], [piece[3] for piece in pieces])


# A rule text


def find(rules, member, wanted):
    """The first rule whose member is this; none where that is none."""
    return next((rule for rule in rules if wanted is not None and rule[member] == wanted), None)


def name_of(rules, token):
    """The name of the first named rule with the id."""
    named = [rule["name"] for rule in rules if rule["tok_id"] == token and rule["name"] is not None]
    return named[0] if named else None


def compare_finds(rules, lines, tally):
    """Compares look-ups with the rules."""
    by_id = values([line for line in lines if line.startswith(b"by_id ")], b"by_id")
    by_name = values(lines[len(by_id):], b"by_name")
    want = [[token, find(rules, "tok_id", token), name_of(rules, token)] for token, _, _ in by_id]
    tally.same("look-ups by id", want, by_id)
    tally.same("look-ups by name", [[name, find(rules, "name", name)] for name, _ in by_name], by_name)
    tally.law("look-ups are as many as were asked for", len(by_id) == len(IDS) and len(by_id) + len(by_name) == len(lines))


def compare_rules(text, rules, tally):
    """Compares the ids of the rules that were read with their places, and their names with one another and with the text."""
    data = text.encode()
    named = [rule for rule in rules if rule["name"] is not None]
    names = [rule["name"] for rule in named]
    tally.same("ids are places", list(range(len(rules))), [rule["tok_id"] for rule in rules])
    tally.law("names are distinct", len(set(names)) == len(names), f": {names}")
    in_text = [data[slice(*rule["name_span"])].decode(errors="replace") for rule in named]
    tally.same("names are in the rule text", names, in_text)


def compare_faults(text, line, tally):
    """Looks at the faults of a rule text: each names places, and each place is in the text."""
    data, faults = text.encode(), value(line, b"faults")
    placed = [bool(fault["spans"]) and all(fits(data, *span) for span in fault["spans"]) for fault in faults]
    tally.add("refused")
    tally.add("faults", len(faults))
    tally.law("faults have places in the text", placed and all(placed), f": {faults}")


def active_in(state, rules):
    """The places of the rules that are active in a start state."""
    number, _, exclusive, _ = state
    return tuple(
        place for place, rule in enumerate(rules) if number in rule["start_states"] or not (rule["start_states"] or exclusive)
    )


def all_active(states, rules):
    """How many rules are active in all start states. States with the same active rules count once."""
    return sum(len(places) for places in {active_in(state, rules) for state in states})


def compare_again(first, again, tally):
    """Compares what reading a rule text gave with what it gives again."""
    tally.same("read again", first[None], again[None])
    tally.same("read again", first.get("definition"), again.get("definition"))


def compare_reading(reading, first, tally):
    """Looks at what reading a rule text gave."""
    text = reading.first.rules.text
    if first[None]:
        return compare_faults(text, first[None][0], tally)
    tally.add("accepted")
    tables, states, rules, _ = first["definition"]
    states, rules = value(states, b"states"), value(rules, b"rules")
    tally.same("each rule is matched by regex", [0, 0, all_active(states, rules)], value(tables, b"tables"))
    compare_rules(text, rules, tally)
    compare_finds(rules, first["find"], tally)
    compare_tiling(reading.text, one_run(first["run"]), rules, tally)


# Ways of finding winners


def compare_ways(answers, tally):
    """What wins by tables is what wins by `regex` alone, at each place of a text."""
    regex = answers["regex"]
    for name, lines in regex.items():
        if isinstance(name, tuple) and name[0] == "from":
            tally.at = name[1]
            tally.add("places")
            for way in ["tabled", "mixed"]:
                # all but the counts and how far the tiles looked
                got = answers[way][name]
                want = lines[1:3] + lines[4:]
                tally.same(f"{way} and regex", want, got[1:3] + got[4:])
    tally.at = None


def tiles_by_pieces(pieces):
    """The tiles of the pieces of a definition that was read, each with its rule's place as its id, if that has a name."""
    return [[rule, start, length, None if name is None else rule] for rule, start, length, name in pieces]


def end_by_items(items):
    """Why a scanner gives no more tiles: the state of the error, if there is one."""
    return items[-1][2] if items and items[-1][0] == "err" else "done"


def compare_scans(answers, tally):
    """The steps of a scanner are the pieces of a run and its end, at each place of a text, by tables and by `regex`."""
    for way in ["regex", "tabled", "mixed"]:
        for name, lines in answers[way].items():
            if isinstance(name, tuple) and name[0] == "from":
                tally.at = name[1]
                run = one_run(lines)
                want = tiles_by_pieces(json.loads(run.pieces)) + [end_by_items(json.loads(run.items))]
                tally.same(f"a scanner, {way}", want, value(answers[way]["scanned from", name[1]][0], b"scan"))
    tally.at = None


def winners(lines):
    """The rules that win in these runs."""
    return {piece[0] for line in lines if line.startswith(b"pieces ") for piece in value(line, b"pieces")}


def compare_never(rules, answers, tally):
    """No rule wins any text here of which one of the definitions answers that it never wins."""
    won = set()
    for asked in answers.values():
        won |= winners(line for lines in asked.values() for line in lines)
    tally.add("won", len(won))
    for way in ["regex", "tabled", "mixed"]:
        may_win = value(answers[way]["may_win"][0], b"may_win")
        never = {place for place, may in enumerate(may_win) if not may}
        tally.same(f"one answer a rule, {way}", len(rules), len(may_win))
        tally.law(f"rules that never win, {way}", not never & won, f": {sorted(never)}, {sorted(won)}")
        tally.add("never" if way == "tabled" else f"never_{way}", len(never))


def count_sizes(rules, answers, tally):
    """Counts the rules and their tables."""
    tables, rows, untabled = value(answers["tabled"]["definition"][0], b"tables")
    tally.add("rules", len(rules))
    tally.add("tables", tables)
    tally.add("rows", rows)
    tally.add("untabled", untabled)
    tally.add("untabled_mixed", value(answers["mixed"]["definition"][0], b"tables")[2])


# A lexer, and a part of a text


def compare_lexer(case, lines, run, tally):
    """A lexer has the items of a run, and gives texts, lines and places of these, of any spans and of any bytes."""
    data = case.run_text.encode()
    tally.same("items of a lexer", run.items, raw(lines[0], b"items"))
    spans = [item_span(item) for item in json.loads(run.items)] + case.spans
    tally.add("counted", len(spans) + len(case.bytes))
    got = values(lines[1:len(spans) + 1], b"told")
    tally.same("what a lexer says", [said_of_span(data, *span) for span in spans], got)
    got = values(lines[len(spans) + 1:], b"place")
    by_hand = [counted(data, byte) for byte in case.bytes]
    tally.same("places of a lexer", [[place, position, place] for place, position in by_hand], got)


def item_span(item):
    """Where an item starts and ends."""
    return [item[2], item[2] + item[3]] if item[0] == "lex" else [item[1], item[1]]


def compare_part(case, lines, run, tally):
    """The pieces of a part, by a run and by a document, are those of the run that have a byte in it."""
    start, end = case.part
    pieces = [piece for piece in json.loads(run.pieces) if start < end and piece[1] < end and piece[1] + piece[2] > start]
    tally.same("pieces of a part", [pieces, pieces], values(lines, b"pieces"))


# Edits


class DocumentState:
    """What a document is, as its six lines have it."""

    def __init__(self, lines):
        self.lines = lines
        counts, changed, text, items, boundaries, pieces = lines
        self.tiles, self.recut, self.searches = value(counts, b"document")
        self.changed = value(changed, b"changed")
        self.text, self.items = value(text, b"text"), raw(items, b"items")
        self.boundaries, self.pieces = raw(boundaries, b"boundaries"), raw(pieces, b"pieces")


def compare_places(edit, line, tally):
    """Compares the places that a document gives with those that are counted by hand."""
    tally.add("counted", len(edit.bytes))
    expected = [counted(edit.after, byte) for byte in edit.bytes]
    tally.same("places after an edit", expected, value(line, b"places"))


def compare_document(shown, text, recomputed, tally):
    """A document has its text, and what lexing it again gives."""
    tally.same("text of a document", text, shown.text)
    lists = [recomputed.items, recomputed.boundaries]
    tally.same("items and boundaries of a document", lists, [shown.items, shown.boundaries])
    tally.same("pieces of a document", recomputed.pieces, shown.pieces)
    tally.same("tiles of a document", recomputed.counts[0], shown.tiles)


def compare_relexed(shown, recomputed, again, tally):
    """A run after an edit is that of its text, recomputed, and took no more; the document's counts are its counts."""
    tally.same("items after an edit", recomputed.items, again.items)
    tally.same("pieces after an edit", recomputed.pieces, again.pieces)
    tally.same("boundaries after an edit", recomputed.boundaries, again.boundaries)
    tally.same("counts after an edit", recomputed.counts[:4], again.counts[:4])
    few = again.counts[4] <= recomputed.counts[4] and again.counts[5] <= recomputed.counts[5]
    tally.law("no more searches and tiles than recomputed", few, f": {recomputed.counts}, {again.counts}")
    counts = [again.counts[0], again.counts[4], again.counts[5]]
    tally.same("counts of a document", counts, [shown.tiles, shown.recut, shown.searches])


def compare_changed(edit, before, shown, tally):
    """What an edit changed makes the lists after it of those before it, and puts in as many pieces as were cut anew."""
    distance = len(edit.after) - len(before.text.encode())
    items, pieces = shown.changed
    lists = [[json.loads(one) for one in (document.items, document.pieces)] for document in (before, shown)]
    (old_items, old_pieces), (new_items, new_pieces) = lists
    tally.law("changed items", is_change(items, old_items, new_items, lambda item: moved_item(item, distance)), f": {items}")
    tally.law("changed pieces", is_change(pieces, old_pieces, new_pieces, lambda piece: moved_piece(piece, distance)), f": {pieces}")
    tally.same("pieces that came", shown.recut, pieces[2])


def compare_unfit(before, shown, tally):
    """An edit that doesn't fit changes nothing."""
    tally.add("unfit")
    tally.same("a document after no edit", before.lines, shown.lines)


def compare_edits(case, answers, tally):
    """Compares a document and a run after each edit with the run of the new text."""
    lines = answers["document"]
    runs = iter(runs_of(answers["edited runs"]))
    before, recomputed = DocumentState(lines[:6]), one_run(answers["recomputed", None])
    compare_document(before, case.edit_text, recomputed, tally)
    compare_relexed(before, recomputed, next(runs), tally)
    for number, edit in enumerate(case.edits):
        tally.at = number
        fit, *six, places = lines[6 + 8 * number:14 + 8 * number]
        shown = DocumentState(six)
        tally.same("whether an edit fits", edit.fits, value(fit, b"edit"))
        if edit.fits:
            recomputed = one_run(answers["recomputed", number])
            tally.add("edits")
            tally.add("tiles_after", shown.tiles)
            tally.add("tiles_recut", shown.recut)
            compare_document(shown, edit.after.decode(), recomputed, tally)
            compare_relexed(shown, recomputed, next(runs), tally)
            compare_changed(edit, before, shown, tally)
        else:
            compare_unfit(before, shown, tally)
        compare_places(edit, places, tally)
        before = shown
    tally.at = None
    tally.law("no more runs than edits", next(runs, None) is None and len(lines) == 6 + 8 * len(case.edits))


# Token ids from a map


def sets_by(rules, ids, spanned):
    """The names of the map that no rule has, and those of rules that the map lacks; none where there are none."""
    names = [rule["name"] for rule in rules]
    lacking = sorted(name for name in ids if name not in names)
    unused = [rule for rule in rules if rule["name"] is not None and rule["name"] not in ids]
    if spanned:
        unused = [[rule["name"], rule["name_span"]] for rule in unused]
    else:
        unused = sorted(rule["name"] for rule in unused)
    return [lacking or None, unused or None]


def rules_by(rules, ids):
    """The rules, each named one with the map's id."""
    return [{**rule, "tok_id": ids.get(rule["name"]) if rule["name"] is not None else rule["tok_id"]} for rule in rules]


def items_by_map(run, ids):
    """The items once the ids are the map's: the lexemes of the named pieces up to one whose name has no id."""
    items = []
    for _, start, length, name in json.loads(run.pieces):
        if name is not None and name not in ids:
            return items + [["err", start, None]]
        if name is not None:
            items.append(["lex", ids[name], start, length])
    return items + [item for item in json.loads(run.items)[-1:] if item[0] == "err"]


def end_by_map(pieces, items, ids):
    """Why a scanner gives no more tiles under the map: the rule of the first tile whose name has no id, or the end of the items."""
    for rule, _, _, name in pieces:
        if name is not None and name not in ids:
            return [rule]
    return end_by_items(items)


def tiles_by_map(pieces, ids):
    """The tiles of the pieces with the map's ids, up to one whose name has none."""
    tiles = []
    for rule, start, length, name in pieces:
        if name is not None and name not in ids:
            break
        tiles.append([rule, start, length, ids.get(name)])
    return tiles


def compare_mapping(case, rules, answers, run, tally):
    """Compares what setting ids tells, and what comes of it, with the run before."""
    (line,) = answers["ids"]
    sets = sets_by(rules, case.ids, case.spanned)
    tally.add("maps")
    tally.add("lacking", len(sets[0] or []))
    tally.add("unused", len(sets[1] or []))
    tally.same("names without a counterpart", sets, in_order(value(line, b"ids")))
    mapped = rules_by(rules, case.ids)
    tally.same("rules by a map", mapped, value(answers["mapped definition"][2], b"rules"))
    compare_finds(mapped, answers["mapped find"], tally)
    after = one_run(answers["mapped run"])
    tally.same("items by a map", items_by_map(run, case.ids), json.loads(after.items))
    pieces = json.loads(run.pieces)
    want = tiles_by_map(pieces, case.ids) + [end_by_map(pieces, json.loads(run.items), case.ids)]
    tally.same("a scanner by a map", want, value(answers["mapped scan"][0], b"scan"))


# All of a case


def compare_case(case, answers, tally):
    """Holds to the laws what came of a case: for each of its definitions, the lines of each step."""
    answers = list(answers)
    ways = dict(zip(["tabled", "mixed"], answers[-2:]), regex=answers[0])
    tally.add("cases")
    left = iter(answers)
    for reading in case.readings:
        first = next(left)
        compare_reading(reading, first, tally)
        if reading.again:
            compare_again(first, next(left), tally)
    if any(way[None] for way in ways.values()):
        return tally.law("all ways refuse the rule text", all(way[None] for way in ways.values()))
    rules = value(ways["regex"]["definition"][2], b"rules")
    tally.same("rules by each way", 1, len({tuple(way["definition"][1:]) for way in ways.values()}))
    count_sizes(rules, ways, tally)
    compare_never(rules, ways, tally)
    compare_ways(ways, tally)
    compare_scans(ways, tally)
    asked = ways[case.run_way]
    run = one_run(asked["one run"])
    compare_tiling(case.run_text, run, rules, tally)
    compare_lexer(case, asked["lexer"], run, tally)
    compare_part(case, asked["part"], run, tally)
    compare_edits(case, ways[case.edit_way], tally)
    compare_mapping(case, rules, ways["regex"], run, tally)
