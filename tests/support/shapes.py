"""The form of cases and of their steps, as steps.md has it. The program takes what lacks for 0, an empty text or an empty list."""


def is_text(value):
    """Whether a value is a text."""
    return isinstance(value, str)


def is_truth(value):
    """Whether a value is true or false."""
    return isinstance(value, bool)


def is_below(most):
    """Whether a value is a number below this one."""
    return lambda value: type(value) is int and 0 <= value < most  # pylint: disable=unidiomatic-typecheck


def is_one_of(*values):
    """Whether a value is one of these."""
    return lambda value: value in values


def either(*shapes):
    """Whether a value has one of these shapes."""
    return lambda value: any(shape(value) for shape in shapes)


def row(*shapes):
    """Whether a value is a list of as many elements, each of its shape."""
    return lambda value: isinstance(value, (list, tuple)) and len(value) == len(shapes) and all(map(fits, shapes, value))


def each(shape):
    """Whether a value is a list whose elements all have this shape."""
    return lambda value: isinstance(value, (list, tuple)) and all(map(shape, value))


def members(needed, **optional):
    """Whether a value is an object with these members, each of its shape, and maybe the optional ones."""
    shapes = {**needed, **optional}
    return lambda value: (
        isinstance(value, dict) and {*needed} <= {*value} <= {*shapes} and all(shapes[name](it) for name, it in value.items())
    )


def each_member(shape):
    """Whether a value is an object whose members all have this shape."""
    return lambda value: isinstance(value, dict) and all(map(shape, value.values()))


def is_any(_value):
    """Any value."""
    return True


def fits(shape, value):
    """Whether the value has the shape."""
    return shape(value)


COUNT, ID, BYTE = is_below(1 << 64), is_below(1 << 32), is_below(1 << 8)
TEXT, TRUTH, NULL = is_text, is_truth, is_one_of(None)
SPAN, EDIT = row(COUNT, COUNT), row(COUNT, COUNT, TEXT)
WRITER = row(COUNT, COUNT, is_one_of("never", "fails", "is interrupted", "takes none", "fails at a flush"))

SWITCHES = [
    "dot_matches_new_line", "multi_line", "octal", "posix_escapes", "allow_wholeline_comments", "case_insensitive", "swap_greed",
    "ignore_whitespace", "unicode",
]
FLAGS = members({}, **dict.fromkeys(SWITCHES, TRUTH), nest_limit=ID)

STATE = row(COUNT, TEXT, TRUTH, lambda span: SPAN(span) and span[0] <= span[1])
RULE = members({
    "tok_id": either(ID, NULL),
    "name": either(TEXT, NULL),
    "name_span": lambda span: SPAN(span) and span[0] <= span[1],
    "re_str": TEXT,
    "start_states": each(COUNT),
    "target": either(row(COUNT, is_one_of("ReplaceStack", "Push", "Pop")), NULL),
})
PARTS = members({"states": each(STATE), "rules": each(RULE)})

STORAGE = is_one_of("u8", "u16", "u32")

# Members of a case without steps that no one reads who asks for all its faults.
UNUSED = {"id": is_any, "input": is_text, "ids": is_any, "expected": is_any}

# The steps by their names: the shape of what follows the name.
STEPS = {
    "definition": row(),
    "may_win": row(),
    "faults": row(),
    **dict.fromkeys(["end", "scan", "words", "highlighted", "first_fault", "diagnostics"], row(TEXT)),
    **dict.fromkeys(["replaced", "stop"], row(TEXT, TEXT)),
    **dict.fromkeys(["typed", "retyped"], row(TEXT, EDIT)),
    **dict.fromkeys(["part", "stop_text"], row(TEXT, COUNT, COUNT)),
    "run": row(TEXT, each(EDIT)),
    "document": row(TEXT, each(either(EDIT, row(COUNT, COUNT, TEXT, each(COUNT))))),
    "lexer": row(TEXT, TRUTH, each(SPAN), each(COUNT)),
    "ids": row(each_member(ID), TRUTH),
    "find": row(each(ID), each(TEXT)),
    "edit": row(TEXT, EDIT, TEXT),
    "texts": row(TEXT, each(SPAN)),
    "visible": row(TEXT, SPAN),
    "after": row(TEXT, each(row(COUNT, COUNT, TEXT, TEXT))),
    "positions": row(TEXT, each(EDIT), each(either(COUNT, SPAN))),
    "complaints": row(each(BYTE), TEXT),
    "place_text": row(TEXT, SPAN, TEXT),
    "engine": row(TEXT, TEXT, WRITER),
    "engine_edited": row(TEXT, TEXT, EDIT, TEXT, WRITER),
    "engine_report": row(TEXT, WRITER),
    "all_faults": row(members({"rules": TEXT, "flags": FLAGS, "storage": STORAGE}, **UNUSED)),
    "served": row(TEXT, WRITER, WRITER),
}

BUDGETS = {"budget": SPAN, "again": SPAN}

# The members of a case without steps, with ids of the least types and of the greatest.
REPLAYED = {"id": is_any, "flags": FLAGS, "rules": TEXT, "input": TEXT, "expected": is_any}


def is_step(value):
    """Whether a value is a step: a list that begins with its name."""
    return isinstance(value, (list, tuple)) and len(value) > 0 and value[0] in STEPS and STEPS[value[0]](value[1:])


# A case with steps, whose rules are a text or parts, and a case without any.
WITH_STEPS = either(
    members({"id": is_any, "flags": FLAGS, "rules": TEXT, "steps": each(is_step)}, **BUDGETS),
    members({"id": is_any, "flags": FLAGS, "from_rules": PARTS, "steps": each(is_step)}, again=SPAN),
)
WITHOUT_STEPS = either(
    members({**REPLAYED, "storage": is_one_of("u8", "u16")}),
    members({**REPLAYED, "storage": is_one_of("u32")}, from_rules=PARTS, ids=each_member(ID)),
)


def checked(case):
    """The case, which has to be of this form."""
    if not either(WITH_STEPS, WITHOUT_STEPS)(case):
        wrong = [step for step in case.get("steps", []) if not is_step(step)]
        raise ValueError(f"malformed: {str(wrong or case)[:1000]}")
    return case
