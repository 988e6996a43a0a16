"""The crates of crates.txt, lowest first, with what each needs and the family that it is listed in."""

import dataclasses
import os

TOP = os.path.dirname(os.path.dirname(os.path.abspath(__file__)))
FAMILIES = ("public", "inside lrlex", "program", "tests and docs", "edge")
PROGRAM = "lrlex_program"
# The programs that the scripts at the top run.
PROGRAMS = (PROGRAM, "rolgumzai")


@dataclasses.dataclass(frozen=True)
class Crate:
    """A line of crates.txt. What a crate needs are names of crates of this repository and of the kit. A static library has a kind."""

    name: str
    family: str
    needs: tuple
    kind: str = ""

    @property
    def folder(self):
        return f"{TOP}/crates/{self.name}"

    @property
    def is_program(self):
        return os.path.isfile(f"{self.folder}/src/main.rt")

    @property
    def line(self):
        """The line of crates.txt."""
        return f"{' '.join(filter(None, [self.name, self.kind]))}: {' '.join(self.needs)}\n"


def read(path=""):
    """The crates by name. A comment that begins with a family's name heads the crates below it."""
    family, found = "", {}
    with open(path or f"{TOP}/crates.txt", encoding="utf-8") as it:
        for line in it:
            text, mark, comment = line.partition("#")
            heading = comment.strip().lower()
            family = next((it for it in FAMILIES if mark and not text.strip() and heading.startswith(it)), family)
            head, colon, needs = text.partition(":")
            if colon:
                name, *kind = head.split()
                found[name] = Crate(name, family, tuple(needs.split()), *kind)
    return found


def below(name, crates):
    """The names of the repository's crates that this one needs, all the way down, lowest first."""
    found = []
    for it in crates[name].needs:
        if it in crates:
            found += [one for one in [*below(it, crates), it] if one not in found]
    return found


def with_below(names, crates):
    """These crates and all that they need, lowest first."""
    wanted = {one for name in names for one in [name, *below(name, crates)]}
    return sorted(wanted, key=lambda it: (len(below(it, crates)), it))
