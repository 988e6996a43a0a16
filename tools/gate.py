"""Everything that must hold.

The proofs by rt ci, each from nothing, with the tests and the programs; the edits of one function that the prover must refuse;
the pages; the tests of tests/ over the programs that rt ci has built, with the runs of ./lrlex, and over the C library; refused
memory; the recursions of the programs; and laws on 5,000 random cases. Nothing is written into the tree but what rt builds in crates/*/out. What this
machine can't try, as where there is no cc, is counted as skipped. At the end it says what took how long; the last line is
'N passed, M failed', or 'N passed, M failed, K skipped'.

What is read of crates/*/out is of this run. rt ci moves aside what earlier runs left there, and puts the libraries back when it
ends, also those that a run which was cut off had only begun. So each library is kept, by a second name of its files, as soon as
rt ci says that it is proved, and the edits and the source that must not compile are tried over these. The programs are copied
when rt ci has ended, and one that it hasn't built is a failure.
"""

import os
import re
import resource
import shutil
import sys
import threading
import time

import crates
import dist
import fmt
import mustfail
import oom
import pages
import processes
import prover
import recursion
import rooms
import soak

COUNT = re.compile(r"(\d+) passed, (\d+) failed")
PROVED = re.compile(r"rt: (\w+) (proved|is kept: .*)")
DONE = re.compile(r"rt: .* (NOT )?PROVED|rt: .* proved")
# Where the tests find the programs, and the archive of the C library.
PROGRAMS = "LRLEX_PROGRAMS"
ARCHIVE = "LRLEX_ARCHIVE"
# What a step that can't be tried here gives as its status.
SKIPPED = 2
# How many random cases the laws are tried on: half of what ./dev soak tries, for the gate's time.
CASES = 5_000


class Proofs:
    """What rt ci says while it is at work: which libraries it has proved, and whether it has ended."""

    def __init__(self, kept):
        self.kept, self.there, self.has_ended, self.changed = kept, set(), False, threading.Condition()
        self.began, self.times, self.last = time.monotonic(), [], ""

    def hear(self, line):
        """Takes a line of rt ci."""
        self.last = line
        if DONE.fullmatch(line):
            self.times.append(f"{time.monotonic() - self.began:.0f} s: {line}")
        if found := PROVED.fullmatch(line):
            self.keep(found[1])

    def keep(self, name):
        """Keeps the library that rt ci has just built."""
        built = f"{crates.TOP}/crates/{name}/out/rlib"
        if os.path.isdir(built):
            shutil.copytree(built, f"{self.kept}/{name}", copy_function=rooms.link_or_copy, dirs_exist_ok=True)
        with self.changed:
            self.there.add(name)
            self.changed.notify_all()

    def end(self):
        """Notes that rt ci has ended."""
        with self.changed:
            self.has_ended = True
            self.changed.notify_all()

    def wait_for(self, names):
        """Waits until these libraries are proved, where there are names, or rt ci has ended, and gives whether it has."""
        with self.changed:
            self.changed.wait_for(lambda: self.has_ended or names is not None and self.there.issuperset(names))
            return self.has_ended


class Gate:
    """The counts, and how long each step took."""

    def __init__(self, scratch):
        self.scratch, self.began, self.begun_at = scratch, time.monotonic(), time.time() - 2
        self.noted, self.times = self.began, []
        self.passed = self.failed = self.skipped = 0

    def since(self, name):
        """Notes the seconds since the last note under this name."""
        now = time.monotonic()
        self.times.append(f"    {name}: {now - self.noted:.0f} s")
        self.noted = now

    def count(self, passed, failed, skipped=0):
        """Adds counts. A step that tried nothing is a failure."""
        tried = passed + failed + skipped
        self.passed, self.failed, self.skipped = self.passed + passed, self.failed + failed + (not tried), self.skipped + skipped

    def step(self, status):
        """Counts a step by its status."""
        self.count(status == 0, status not in (0, SKIPPED), status == SKIPPED)

    def prove(self, proofs):
        """Runs rt ci, and counts what it says."""
        child = processes.start(["rt", "ci"], cwd=crates.TOP, stdout=-1, text=True, errors="replace")
        for line in child.stdout:
            print(line, end="", flush=True)
            proofs.hear(line.rstrip("\n"))
        processes.ended(child)
        found = COUNT.fullmatch(proofs.last)
        if found:
            self.count(int(found[1]), int(found[2]))
        else:
            print("the gate: FAILED, rt ci ended without its count", flush=True)
            self.count(0, 1)
        proofs.end()
        for it in crates.read().values():
            if it.is_program:
                self.keep_program(it)
        self.since("the gate, rt ci")

    def keep_program(self, crate):
        """Copies the program as each compiler has made it in this run."""
        for end in ("", ".by-rattle"):
            built = f"{crate.folder}/out/{crate.name}{end}"
            if os.path.isfile(built) and os.path.getmtime(built) >= self.begun_at:
                shutil.copy2(built, os.environ[PROGRAMS])
            elif not end:
                print(f"the gate: FAILED, rt ci hasn't built crates/{crate.name}/out/{crate.name}", flush=True)
                self.count(0, 1)

    def build(self):
        """Has ./lrlex and ./rolgumzai take the programs of rt ci, and runs each. Without it each of their tests would try a build."""
        with open(f"{self.scratch}/tokens.l", "w", encoding="utf-8") as it:
            it.write("%%\n[a-z]+ 'WORD'\n")
        with open(f"{self.scratch}/tokens.txt", "w", encoding="utf-8") as it:
            it.write("word")
        status, told = processes.run([f"{crates.TOP}/lrlex", f"{self.scratch}/tokens.l", f"{self.scratch}/tokens.txt"])
        if status or "WORD" not in told:
            print(f"the build of ./lrlex: FAILED, or its run on a word:\n{told}", flush=True)
            self.count(0, 1)
        status, told = processes.run([f"{crates.TOP}/rolgumzai", "check", f"{self.scratch}/tokens.l"])
        if status or told:
            print(f"the build of ./rolgumzai: FAILED, or its run on a rule:\n{told}", flush=True)
            self.count(0, 1)
        self.since("the builds of ./lrlex and ./rolgumzai")

    def all(self):
        """Does all of it, and gives the status."""
        proofs = Proofs(os.environ[prover.RLIBS])
        archive = Beside(archived, proofs)
        edits = Beside(mustfail.by_function, proofs)
        self.prove(proofs)
        self.count(*pages.main(COMMANDS))
        self.since("the pages")
        self.build()
        laws = Beside(held)
        self.count(*archive.counts("the archive of the C library", "built"))
        self.since("the archive of the C library, what was left of it")
        tests = Beside(tested)
        self.count(*edits.counts("edits", "refused"))
        self.since("edits of one function, what was left of them")
        self.step(oom.main())
        self.since("refused memory")
        self.step(recursion.main())
        self.since("the recursions of the programs")
        self.count(*laws.counts("the laws", "passed"))
        self.since(f"the laws on {CASES:,} random cases, what was left of them")
        self.count(*tests.counts("tests", "passed"))
        self.since("the tests, what was left of them")
        took = time.monotonic() - self.began
        print(f"times, {took:.0f} s in all on {len(os.sched_getaffinity(0))} processors, {processor_time():.0f} s of their time:")
        print("\n".join(self.times))
        print("    done in the gate by:")
        print("\n".join(f"        {it}" for it in proofs.times))
        print(f"{self.passed} passed, {self.failed} failed" + (f", {self.skipped} skipped" if self.skipped else ""))
        return 0 if self.passed and not self.failed else 1


def processor_time():
    """The seconds of processor time that the programs took which this one has started, and which have ended."""
    spent = resource.getrusage(resource.RUSAGE_CHILDREN)
    return spent.ru_utime + spent.ru_stime


class Beside(threading.Thread):
    """Tries what `call` gives, beside the rest: whether each passed, or None where it can't be tried, and what to say."""

    def __init__(self, call, *given):
        super().__init__(daemon=True)
        self.call, self.given, self.found, self.fault = call, given, [], ""
        self.start()

    def run(self):
        try:
            self.found += self.call(proofs=self.given[0]) if self.given else self.call()
        except (Exception, SystemExit) as fault:  # pylint: disable=broad-except
            self.fault = str(fault) or repr(fault)

    def counts(self, name, verb):
        """Waits for it, prints what came of it, and gives the counts."""
        self.join()
        for _, said in self.found:
            print(said)
        came = [it for it, _ in self.found]
        if self.fault:
            print(f"{name}: FAILED, {self.fault}")
        passed, failed, skipped = came.count(True), came.count(False) + bool(self.fault), came.count(None)
        print(f"{name}: {passed} {verb}, {failed} failed" + (f", {skipped} skipped" if skipped else ""), flush=True)
        return passed, failed, skipped


def archived(proofs):
    """Builds the archive of the C library, once rt ci has proved the libraries that it needs: rt ci proves it, and leaves none."""
    listed = crates.read()
    proofs.wait_for(crates.below(dist.LIBRARY, listed))
    archive = os.environ[ARCHIVE]
    told = prover.built(listed[dist.LIBRARY], archive)
    return [(not told, f"the archive of {dist.LIBRARY}: FAILED\n{told[-2000:]}" if told else f"the archive of {dist.LIBRARY}: built")]


def held():
    """The laws on random cases: whether they hold, and what to say."""
    lines = []
    status = soak.main(CASES, tell=lines.append)
    return [({0: True, SKIPPED: None}.get(status, False), "\n".join(lines))]


def tested():
    """The tests of tests/, each with whether it passed, and what to say."""
    status, told = processes.run([sys.executable, "-B", f"{crates.TOP}/tools/unittests.py"], cwd=crates.TOP)
    found = []
    for part in re.split(r"^(?=test \S.*?: (?:passed|FAILED|skipped))", told, flags=re.M):
        came = re.match(r"test \S.*?: (passed|FAILED|skipped)", part)
        if came:
            found.append(({"passed": True, "FAILED": False, "skipped": None}[came[1]], part.rstrip("\n")))
    ended = re.search(r"^tests: .*\n\Z", told, re.M)
    if found:
        found[-1] = found[-1][0], re.sub(r"\ntests: .*\Z", "", found[-1][1])
    if not ended or status and all(it is not False for it, _ in found):
        found.append((False, f"tests: they ended with status {status}:\n{told[-2000:]}"))
    return found


COMMANDS = ()


def main(commands=()):
    """Runs the gate."""
    global COMMANDS  # pylint: disable=global-statement
    COMMANDS = commands
    if not shutil.which("rt"):
        print("test: rt isn't on PATH: install the Rattle kit first", file=sys.stderr)
        print("0 passed, 1 failed")
        return 1
    # rt ci refuses a file that isn't in the layout too, but only at its crate's turn
    files, faults = fmt.changes(crates.read(), True)
    for it in [*(f"{it} isn't in the layout of rt fmt: ./dev fmt lays it out" for it in files), *faults]:
        print(f"test: {it}")
    if files or faults:
        print("0 passed, 1 failed")
        return 1
    with processes.scratch("gate") as scratch:
        os.environ[prover.RLIBS] = f"{scratch}/rlibs"
        os.environ[PROGRAMS] = f"{scratch}/programs"
        os.environ[ARCHIVE] = f"{scratch}/archive/lib{dist.LIBRARY}.a"
        os.environ["PYTHONDONTWRITEBYTECODE"] = "1"
        os.mkdir(f"{scratch}/rlibs")
        os.mkdir(f"{scratch}/programs")
        os.mkdir(f"{scratch}/archive")
        return Gate(scratch).all()
