"""Leaves functions of a copied crate unproved, so that a check of one function takes what it calls by its contract.

The prover proves with a function all that it calls. In a copy that tries an edit this is work for nothing: what the edit changes
is one body, and the others were proved as they stand. So each other function gets a proof that is a hole, which a check that
allows holes takes for a proof. Its body is emptied, since a body is modelled even if its proof is a hole, but not that of a function
that lends: what a caller may do with its answer depends on the body. The source is laid out by rt fmt, so a function's path and its
body can be read off its lines. What isn't found, as a method of a trait, is proved once more: that costs time and changes no verdict.
"""

import os
import re

FUNCTION = re.compile(r"(?:pub(?:\([\w ]+\))? )?(?:const )?(?:unsafe )?fn (\w+)")
TYPE = re.compile(r"^(?:pub(?:\([\w ]+\))? )?(?:struct|enum) (\w+)", re.M)
HEAD = re.compile(r"^impl[^{]*\{", re.M)
OWN_METHODS = re.compile(r"impl(?:<.*?>)? (\w+)\b(?!.*\bfor\b)")
# Functions that call each other have one proof, which +NAME has where a function calls itself, and a test is no part of the crate.
LEFT = re.compile(r"#\[(cycle|cfg|test)\b")
# What the head of a function that lends has: a lifetime, or a reference as its answer.
LENDS = re.compile(r"'|-> [^\n]*&")
HOLE = """use Rattle.{crate}.proofs.{path}.Statement.{{statement}}

pub {name}_spec : {{M : Type 1}} → statement M
{name}_spec = ?
"""


def module_of(path):
    """The path of the module that this file of src/ is."""
    parts = path.removesuffix(".rt").split("/")
    return parts[:-1] if parts[-1] in ("lib", "main", "mod") else parts


def texts_of(folder):
    """The files of the crate's src/, each with its module and its text."""
    found = []
    for at, _, names in os.walk(f"{folder}/src"):
        for name in sorted(it for it in names if it.endswith(".rt")):
            path = f"{at}/{name}"
            with open(path, encoding="utf-8") as it:
                found.append((path, module_of(os.path.relpath(path, f"{folder}/src")), it.read()))
    return found


def types_in(texts):
    """Where the types of these files are, by name."""
    types = {}
    for _, module, text in texts:
        for name in TYPE.findall(text):
            types.setdefault(name, []).append([*module, name])
    return types


def with_whole_heads(text):
    """The text with each head of an impl on a line, and no line fewer."""
    return HEAD.sub(lambda it: " ".join(it[0].split()) + "\n" * it[0].count("\n"), text)


def functions_in(module, lines, types):
    """The functions of a module's lines and its types' own methods: the number of the line that each begins at, and its path."""
    within, is_left = None, False
    for number, line in enumerate(lines):
        words = line.lstrip()
        if words.startswith("#["):
            is_left = is_left or bool(LEFT.match(words))
        elif line.startswith("impl"):
            # (a type of this name may be in two modules)
            known = types.get(OWN_METHODS.match(line)[1], []) if OWN_METHODS.match(line) else []
            within = known[0] if len(known) == 1 else None
        elif found := FUNCTION.match(words):
            outer = {0: module, 4: within}.get(len(line) - len(words))
            if outer is not None and not is_left:
                yield number, [*outer, found[1]]
            is_left = False
        elif line == "}":
            within = None


def empty_body(lines, number):
    """Empties the body of the function that begins at the line of this number, unless it lends. No line moves."""
    indent = " " * (len(lines[number]) - len(lines[number].lstrip()))
    opens = re.compile(rf"{indent}(?! ).*\{{\}}?")
    first = next(at for at in range(number, len(lines)) if opens.fullmatch(lines[at]))
    if lines[first].endswith("{}") or LENDS.search("\n".join(lines[number : first + 1])):
        return
    last = lines.index(indent + "}", first)
    lines[first + 1 : last] = [f"{indent}    unreachable!()", *[""] * (last - first - 2)]


def has_own_proof(folder, path):
    """Whether the function calls itself, so that its proof is that of +NAME."""
    return os.path.isdir(f"{folder}/proofs/{'/'.join(path[:-1])}/+{path[-1]}")


def leave_hole(folder, crate, path):
    """Gives the function a hole for its proof."""
    at = f"{folder}/proofs/{'/'.join(path)}"
    os.makedirs(at, exist_ok=True)
    for name in ("Answers", "Invariants", "Proof"):
        if os.path.isfile(f"{at}/{name}.antt"):
            os.remove(f"{at}/{name}.antt")
    with open(f"{at}/Proof.antt", "w", encoding="utf-8") as it:
        it.write(HOLE.format(crate=crate, path=".".join(path), name=path[-1]))


def leave_unproved(folder, crate, functions):
    """Leaves each function of the copied crate unproved, but for these."""
    texts = texts_of(folder)
    types = types_in(texts)
    for file, module, text in texts:
        lines = with_whole_heads(text).split("\n")
        for number, path in [*functions_in(module, lines, types)]:
            if "::".join(path) not in functions and not has_own_proof(folder, path):
                leave_hole(folder, crate, path)
                empty_body(lines, number)
        with open(file, "w", encoding="utf-8") as it:
            it.write("\n".join(lines))
