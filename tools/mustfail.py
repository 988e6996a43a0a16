"""Tries must-fail edits: wrong bodies that the prover must refuse.

A crate's must-fail/GATE.md and MORE.md have them: below a heading with the edit's name is, in backquotes, the path of the
function whose contract it breaks (GATE.md alone), and then the edit as rt reads one, lines file, old and new.

By function, as the gate tries those of GATE.md: the crate is copied, all its edits are made there, the other functions are left
unproved (holes.py), and the prover must refuse each of these functions at a goal of its own. One check does for all: what an edit
changes is a body, and a function is proved by the contracts of those that it calls. In the gate a crate's edits are tried once
rt ci has proved the libraries below it, with what processor time rt ci leaves; where not all are refused then, they are tried once
more when rt ci has ended. Unedited (--unedited), each of these functions must be accepted: no edit is refused for what is left
unproved.

By rt, as ./dev edits tries those of both files: rt must-fail checks the whole crate with each edit in turn.
"""

import concurrent.futures
import os
import re
import shutil
import sys

import crates
import holes
import processes
import prover
import rooms

EDIT = re.compile(r"^## (\S+)\n\n(?:`(\S+)`[^\n]*\n\n)?```\n((?:file: .*\n(?:old: .*\nnew: .*\n)+)+)```$", re.M)
# How much the edits leave processor time to rt ci.
BESIDE = 19
LEFT = re.compile(r"`search` did not prove `([^`]+)`")
ACCEPTED = ("proved", "no holes", "depends on a hole")
# What is said of a proof that names what isn't there, as a step that the edit takes away. The function may be right.
NOT_OF_A_GOAL = re.compile(r": error: (?:\d+ declarations? that depends? on |.*\b(?:module|record) .* has no )")


def read_edits(crate, file):
    """The edits of one of the crate's two files: the name, function and text of each. None where it has no such file."""
    path = f"{crates.TOP}/crates/{crate}/must-fail/{file}"
    if not os.path.isfile(path):
        return None
    with open(path, encoding="utf-8") as it:
        text = it.read()
    found = EDIT.findall(text)
    if len(found) != text.count("\n## "):
        sys.exit(f"edits: {path} has an edit that can't be read")
    return found


def edits_of(crate):
    """The edits of the crate that the gate tries: its name, theirs, function and changes."""
    return [(crate, name, function, changes_of(changes)) for name, function, changes in read_edits(crate, "GATE.md") or []]


def changes_of(text):
    """The changes of an edit, each a file with an old and a new text."""
    found, file = [], ""
    for key, words in (line.split(": ", 1) for line in text.splitlines()):
        if key == "file":
            file = words
        elif key == "old":
            found.append((file, words))
        else:
            found[-1] += (words,)
    return found


def not_made(crate):
    """Which of the crate's edits can't be made, with why, or have the name of another one."""
    lost, names = [], set()
    for name, _, changes in [it for file in ("GATE.md", "MORE.md") for it in read_edits(crate, file) or []]:
        texts = {}
        for file, old, new in changes_of(changes):
            if file not in texts:
                with open(f"{crates.TOP}/crates/{crate}/{file}", encoding="utf-8") as it:
                    texts[file] = it.read()
            if texts[file].count(old) != 1:
                lost.append(f"{name}: its old text stands {texts[file].count(old)} times in {file}")
            texts[file] = texts[file].replace(old, new)
        if name in names:
            lost.append(f"{name}: another edit has this name")
        names.add(name)
    return lost


def changed(folder, changes):
    """Makes the changes, and answers why they can't be made, if so."""
    for file, old, new in changes:
        with open(f"{folder}/{file}", encoding="utf-8") as it:
            text = it.read()
        if text.count(old) != 1:
            return f"its old text stands {text.count(old)} times in {file}"
        with open(f"{folder}/{file}", "w", encoding="utf-8") as it:
            it.write(text.replace(old, new))
    return ""


def goal_of(function, verdict, told):
    """The goal of the function that isn't proved, as the prover tells it; none where it tells none."""
    answers = re.escape(f"./proofs/{function.replace('::', '/')}/")
    errors = re.findall(rf"^{answers}\S+:\d+:\d+: error.*$", told, re.M)
    found = [it for it in errors if not NOT_OF_A_GOAL.search(it)]
    if not found and (left := LEFT.search(verdict)):
        found = re.findall(rf"^note: src/\S+:\d+:\d+: .*\(`{re.escape(left.group(1))}`\).*$", told, re.M)
    return found[0].removeprefix("note: ")[:160] if found else ""


def judged(edit, why, told):
    """Whether the edit is refused, and what to say: why it couldn't be made, or by what the prover told."""
    crate, name, function, changes = edit
    label = f"edit {crate}/{name}"
    if why:
        return False, f"{label}: FAILED, {why}"
    verdict = re.search(rf"^fn {re.escape(f'{crate}::{function}')}: (.*)$", told, re.M)
    if not verdict:
        return False, f"{label}: FAILED, it didn't reach the prover:\n{told[-2000:]}"
    is_accepted = verdict.group(1).startswith(ACCEPTED)
    if not changes:
        return is_accepted, f"{label}: {'accepted without it, as it must be' if is_accepted else f'FAILED without it: {verdict.group(1)}'}"
    if is_accepted:
        return False, f"{label}: FAILED, {function} is still proved with it"
    goal = goal_of(function, verdict.group(1), told)
    if not goal:
        return False, f"{label}: FAILED, {function} is refused at no goal of its own: {verdict.group(1)}"
    return True, f"{label}: refused, as it must be: {goal}"


def tried(edits, listed, much=0):
    """The same of all edits of a crate, which change a function each."""
    crate = edits[0][0]
    functions = [function for _, _, function, _ in edits]
    if len({*functions}) < len(edits):
        sys.exit(f"edits: two of {crate} change one function, so which of them is refused couldn't be told")
    with processes.scratch("edits") as folder:
        rooms.copy_sources(listed[crate].folder, folder)
        whys = [changed(folder, changes) for *_, changes in edits]
        holes.leave_unproved(folder, crate, functions)
        more = ["--allow-holes", *[word for it in functions for word in ("--only", it)]]
        told = prover.checked(folder, crate, listed[crate].needs, more, much)
    return [judged(edit, why, told) for edit, why in zip(edits, whys)]


def tried_beside(edits, listed, proofs):
    """The same while rt ci is at work, which `proofs` tells of."""
    has_ended = proofs.wait_for(crates.below(edits[0][0], listed))
    found = tried(edits, listed, BESIDE)
    if has_ended or all(is_refused for is_refused, _ in found):
        return found
    proofs.wait_for(None)
    return tried(edits, listed)


def by_function(names=(), proofs=None, is_unedited=False):
    """Tries the edits of GATE.md of these crates, or of all, and gives for each whether it is refused and what to say.

    Unedited it makes none of them: then each function must be accepted, so that none is refused for what is left unproved.
    """
    listed = crates.read()
    groups = [edits_of(it) for it in crates.with_below(listed, listed) if not names or it in names]
    if is_unedited:
        groups = [[(*edit, []) for *edit, _ in edits] for edits in groups]
    groups = [edits for edits in groups if edits]
    if not proofs:
        groups.sort(key=len, reverse=True)
    work = (lambda edits: tried_beside(edits, listed, proofs)) if proofs else (lambda edits: tried(edits, listed))
    with concurrent.futures.ThreadPoolExecutor(len(os.sched_getaffinity(0))) as pool:
        for found in pool.map(work, groups):
            yield from found


def edits_for_rt(crate):
    """The edits of the crate that rt must-fail is to try, by name, as it reads them."""
    return {name: text for file in ("GATE.md", "MORE.md") for name, _, text in read_edits(crate, file) or []}


def by_rt(crate, listed):
    """Tries the edits of the crate by rt must-fail, in a copy over what earlier checks here kept. Gives its status."""
    edits = edits_for_rt(crate)
    folder = f"{crates.TOP}/crates/{crate}/must-fail"
    own = {it: "" for it in os.listdir(folder) if it.endswith(".edit")} if os.path.isdir(folder) else {}
    if not edits and not own:
        return None
    with processes.scratch("edits") as room:
        for it in [*crates.below(crate, listed), crate]:
            rooms.copy_sources(listed[it].folder, f"{room}/crates/{it}")
            rooms.copy_built(listed[it].folder, f"{room}/crates/{it}")
        rooms.write_list([listed[it] for it in [*crates.below(crate, listed), crate]], room)
        os.mkdir(f"{room}/crates/{crate}/must-fail")
        for name in own:
            with open(f"{folder}/{name}", encoding="utf-8") as it:
                edits[name.removesuffix(".edit")] = it.read()
        for name, text in edits.items():
            with open(f"{room}/crates/{crate}/must-fail/{name}.edit", "w", encoding="utf-8") as it:
                it.write(text)
        child = processes.start(["rt", "must-fail", crate], cwd=room, stdout=-1, stderr=-2, text=True, errors="replace")
        for line in child.stdout:
            print(line.replace(f"{room}/", ""), end="", flush=True)
        return processes.ended(child)


def main(names=(), is_of_gate=False, is_unedited=False):
    """Tries the edits of these crates, or of all. The status is 0 where each is refused, or, unedited, where none is."""
    listed = crates.read()
    if unknown := [it for it in names if it not in listed]:
        print(f"edits: crates.txt has no {unknown[0]}", file=sys.stderr)
        return 1
    if not shutil.which("rt"):
        print("edits: it takes the Rattle kit: rt isn't on PATH", file=sys.stderr)
        return 1
    if not is_of_gate:
        came = [by_rt(it, listed) for it in crates.with_below(listed, listed) if not names or it in names]
        if came.count(None) == len(came):
            print("edits: these crates have none", file=sys.stderr)
            return 1
        return 1 if any(came) else 0
    wanted = [it for it in crates.with_below(listed, listed) if (not names or it in names) and edits_of(it)]
    if lost := prover.lacking([one for it in wanted for one in crates.below(it, listed)]):
        print(f"edits: the library {lost} isn't built from its sources: ./dev build {lost}", file=sys.stderr)
        return 1
    passed = failed = 0
    for is_as_it_must_be, said in by_function(names, is_unedited=is_unedited):
        print(said, flush=True)
        passed, failed = passed + is_as_it_must_be, failed + (not is_as_it_must_be)
    print(f"edits: {passed} {'accepted' if is_unedited else 'refused'}, {failed} failed")
    return 1 if failed or not passed else 0
