"""Looks for recursion in a program: each circle of calls must be in recursion.txt, with what bounds its depth.

It reads the program's own instructions, as objdump shows them. A circle is a set of functions each of which comes back to itself
through the others, or a function that calls itself. Each function whose address the program takes must be in recursion.txt too,
as 'pointer NAME'. So a new recursion, of this repository or of the kit, is named. Names are written without the types that they
are made for, so that they stay the same from build to build.

What it can't see: how deep a circle goes; for which type a generic function is in a circle; what a function of the C library
calls; and a call through a pointer. But such a call needs an address that was taken, so where no more are taken than the start
of a program takes, there is none. It reads programs for x86-64 alone, with their symbols.
"""

import bisect
import os
import re
import shutil
import subprocess

import crates

KNOWN = f"{crates.TOP}/tools/recursion.txt"
BUILT = [f"{crates.TOP}/crates/{it}/out/{it}" for it in crates.PROGRAMS]

FUNCTION = re.compile(r"^([0-9a-f]+) <(.*)>:$")
GOES = re.compile(r"^ *[0-9a-f]+:\s+(?:bnd |notrack )?(call|j[a-z]+)q? +([0-9a-f]+) <")
TAKES = re.compile(r"^ *[0-9a-f]+:\s+lea .*# ([0-9a-f]+) <")
KEEPS = re.compile(r"^[0-9a-f]+ R_X86_64_RELATIVE +\*ABS\*\+0x([0-9a-f]+)$")


def shown(name):
    """The name without the types it is made for. What drops a type is named after that type, not after the crate that needs it."""
    while re.search(r"::<[^<>]*>", name):
        name = re.sub(r"::<[^<>]*>", "", name)
    dropped = re.match(r"\w+::(\w+(?:\+\+\w+)+)\+Destruct::drop$", name)
    if dropped:
        name = dropped.group(1).replace("++", "::") + "::drop"
    return name.replace(" ", "_")


def objdump(*words):
    return subprocess.run(["objdump", *words], check=True, capture_output=True, text=True).stdout.splitlines()


def read(program):
    """The names of the functions by address, the functions that each calls or jumps to, and those whose address is taken."""
    lines = objdump("-d", "--no-show-raw-insn", program)
    names = {int(m.group(1), 16): m.group(2) for m in map(FUNCTION.match, lines) if m}
    starts = sorted(names)
    calls = {start: set() for start in starts}
    taken = set()
    here = None
    for line in lines + objdump("-R", program):
        if m := FUNCTION.match(line):
            here = int(m.group(1), 16)
        elif m := GOES.match(line):
            there = starts[max(bisect.bisect_right(starts, int(m.group(2), 16)) - 1, 0)]
            # a jump inside of a function is no call
            if there != here or m.group(1) == "call":
                calls[here].add(there)
        elif m := TAKES.match(line) or KEEPS.match(line):
            taken.add(int(m.group(1), 16))
    return names, calls, sorted(taken & set(starts))


def reached(calls, start):
    """All functions that a call of this one can come to."""
    found = set()
    open_ends = [start]
    while open_ends:
        for there in calls[open_ends.pop()] - found:
            found.add(there)
            open_ends.append(there)
    return found


def circles(calls):
    """The functions that come back to themselves, those together that come to each other."""
    reach = {start: reached(calls, start) for start in calls}
    return {
        frozenset(other for other in reach[start] if start in reach[other])
        for start in calls
        if start in reach[start]
    }


def known_circles():
    """The circles of recursion.txt, each as the set of its functions, and its lines without a remark."""
    known, bare = [], []
    with open(KNOWN, encoding="utf-8") as it:
        for line in it.read().splitlines():
            if line and not line.startswith("#"):
                functions, _, remark = line.partition(" # ")
                known.append({*functions.split()})
                bare += [functions] * (not remark.strip())
    return known, bare


def faults_of(program):
    """What is wrong with the program's recursions, and their counts."""
    names, calls, taken = read(program)
    if not names:
        return [f"no functions in {program}"], "nothing read"
    lines = {" ".join(sorted({shown(names[one]) for one in circle})) for circle in circles(calls)}
    pointers = {"pointer " + shown(names[one]) for one in taken}
    known, bare = known_circles()
    # a known line names all functions of its circle, and some of them may be built into others
    new = [it for it in sorted(lines) + sorted(pointers) if not any({*it.split()} <= one for one in known)]
    counts = f"{len(lines)} circles of calls in {len(names)} functions, {len(pointers)} addresses taken"
    return [f"no remark: {it}" for it in bare] + [f"not known: {it}" for it in new], counts


def lacking(program):
    """Why the program can't be tried here, if so."""
    if not shutil.which("objdump"):
        return "there is no objdump"
    if not os.access(program, os.X_OK):
        return f"{os.path.relpath(program)} isn't built: ./dev build builds it"
    form = subprocess.run(["objdump", "-f", program], capture_output=True, text=True, check=False).stdout
    return "" if "x86-64" in form else "it reads programs for x86-64 alone"


def main(program=""):
    """Tries the program, or those of ./lrlex and ./rolgumzai. The status is 0 where all is known, 1 where not, 2 where one can't be tried."""
    statuses = [tried(it) for it in ([program] if program else BUILT)]
    return 1 if 1 in statuses else max(statuses)


def tried(program):
    """Tries a program, and gives the status."""
    name = os.path.basename(program)
    why = lacking(program)
    if why:
        print(f"recursion: {name}: skipped, {why}")
        return 2
    try:
        faults, counts = faults_of(program)
    except (subprocess.CalledProcessError, ValueError) as fault:
        print(f"recursion: {name}: FAILED, the program can't be read: {fault}")
        return 1
    for it in faults:
        print(it)
    if faults:
        print(f"recursion: {name}: FAILED, {len(faults)} to be explained in tools/recursion.txt; {counts}")
        return 1
    print(f"recursion: {name}: passed, {counts}: all in tools/recursion.txt")
    return 0
