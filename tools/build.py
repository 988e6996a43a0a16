"""Builds crates with all that they need, side by side: build.py [CRATE..], the programs of the top without a name.

A crate is built once those that it needs are: a library for the first time by anew.py, which shares the work best, and later by
rt lib, which proves what changed; a program by rt run. The crate with the longest chain of others after it goes ahead, and the
others take what processor time it leaves. There is one process more than processors at most, since each slows the others down,
and a crate's first and last seconds need one alone. What was built when a build is interrupted, the next takes.

A terminal gets one line, which is written over; a pipe gets a line for each crate that is done. All of it goes to standard error.
"""

import concurrent.futures
import contextlib
import fcntl
import os
import re
import shutil
import sys
import threading
import time

import crates
import processes
import rooms

SO_FAR = re.compile(r"^so far: (\d+) of (\d+) functions checked")
# Memory of a check, in MB: of its first process, and more for each 1,000 lines. Each further process shares most of that, and is
# taken to need half as much. Measured: 1,200 for lrlex_boundaries; 3,300 for lrlex, and 4,500 for five processes of it together.
PROCESS, LINES = 900, 140


def free_memory():
    """The free memory in MB, also under the limit of the control group that this runs in."""
    with open("/proc/meminfo", encoding="utf-8") as it:
        found = [int(re.search(r"MemAvailable:\s+(\d+)", it.read())[1]) >> 10]
    with contextlib.suppress(OSError, ValueError):
        with open("/sys/fs/cgroup/memory.max", encoding="utf-8") as limit, open("/sys/fs/cgroup/memory.current", encoding="utf-8") as held:
            found.append(int(limit.read()) - int(held.read()) >> 20)
    return min(found)


def lines_of(folder, end):
    """How many lines the crate's files with this ending have."""
    count = 0
    for part in rooms.PARTS:
        for at, _, names in os.walk(f"{folder}/{part}"):
            for name in names:
                if name.endswith(end):
                    with open(f"{at}/{name}", "rb") as it:
                        count += it.read().count(b"\n")
    return count


class Build:
    """The crates that are built, what each needs, and how far they are."""

    def __init__(self, names, jobs=0):
        self.listed = crates.read()
        self.wanted = crates.with_below(names, self.listed)
        self.below = {it: crates.below(it, self.listed) for it in self.wanted}
        code = {it: lines_of(self.listed[it].folder, ".rt") for it in self.wanted}
        proofs = {it: lines_of(self.listed[it].folder, ".antt") for it in self.wanted}
        # about how long each takes, and the longest chain that begins with it
        self.chain = {}
        for it in reversed(self.wanted):
            after = [self.chain[one] for one in self.chain if it in self.below[one]]
            self.chain[it] = code[it] + proofs[it] // 3 + max(after, default=0)
        self.memory = {it: PROCESS + LINES * (code[it] + proofs[it]) // 1000 for it in self.wanted}
        self.processors = jobs or min(len(os.sched_getaffinity(0)), 8)
        self.free = 0.85 * free_memory()
        # how many processes check each of those that are being built, how far they are, and when each was built
        self.alone, self.jobs, self.running, self.done = threading.Lock(), {}, {}, {}
        self.begun, self.failed = time.monotonic(), None

    def said(self):
        """How far the build is, in one line."""
        parts = [f"{len(self.done)} of {len(self.wanted)} crates"]
        parts += [f"{name} {far}".strip() for name, far in self.running.items()]
        return ", ".join([*parts, f"{time.monotonic() - self.begun:.0f} s"])

    def tell(self, text=""):
        """Says how far the build is, over the line before on a terminal, or this text, which a pipe gets too."""
        if sys.stderr.isatty():
            width = shutil.get_terminal_size().columns - 1
            print(f"\r\033[K{f'build: {self.said()}'[:width]}", end="", file=sys.stderr, flush=True)
        elif text:
            print(f"build: {text}", file=sys.stderr, flush=True)

    def memory_of(self, name, jobs):
        """What the crate's check takes with so many processes."""
        return self.memory[name] * (jobs + 1) // 2

    def share(self, name):
        """How many processes should check the crate at once, as far as processors go; none where there are enough.

        The longest chain gets more than half of the processors, another crate half, and one beside which no other can be built all.
        """
        others = [it for it in self.wanted if it not in self.done and it != name]
        if all(name in crates.with_below([it], self.listed) for it in others):
            return self.processors
        is_longest = all(self.chain[name] >= self.chain[it] for it in others)
        left = self.processors + 1 - sum(self.jobs.values())
        return min(self.processors // 2 + 1 if is_longest else max(self.processors // 2, 1), left)

    def jobs_for(self, name):
        """How many processes may check the crate at once. None where there are enough of others, or memory is short."""
        used = sum(self.memory_of(it, jobs) for it, jobs in self.jobs.items())
        for jobs in range(self.share(name), 0, -1):
            if used + self.memory_of(name, jobs) <= self.free:
                return jobs
        return 0 if used else 1

    def words(self, name, jobs):
        """The words that build the crate."""
        if self.listed[name].is_program:
            # A program that takes no run without arguments, as its file `args` tells, is asked for its help.
            needs_words = os.path.isfile(f"{self.listed[name].folder}/args")
            return ["rt", "run", "--jobs", str(jobs), *(["--", "--help"] if needs_words else [])]
        if self.listed[name].kind:
            return ["rt", "lib", "--jobs", str(jobs)]
        return [sys.executable, "-B", f"{crates.TOP}/tools/anew.py", name, str(jobs)]

    def run(self, name, jobs):
        """Builds the crate, and gives its log where that failed."""
        crate, begun, log = self.listed[name], time.monotonic(), []
        behind = max(self.chain[it] for it in self.wanted if it not in self.done) - self.chain[name]
        words = processes.give_way(self.words(name, jobs), min(19, 5 + 14 * behind // 5000) if behind else 0)
        given = f"{crate.folder}/stdin"
        with open(given if crate.is_program and os.path.isfile(given) else os.devnull, "rb") as stdin:
            child = processes.start(words, cwd=crate.folder, stdin=stdin, stdout=-1, stderr=-2, text=True, errors="replace")
            for line in child.stdout:
                log.append(line)
                if found := SO_FAR.match(line):
                    self.running[name] = f"{found[1]}/{found[2]}"
        status = processes.ended(child)
        with self.alone:
            del self.running[name]
            if not status:
                self.done[name] = (begun - self.begun, time.monotonic() - self.begun)
                self.tell(f"{name} is built, {len(self.done)} of {len(self.wanted)}, after {self.done[name][1]:.0f} s")
        return "".join(log) or f"it ended with status {status}\n" if status else ""

    def all(self):
        """Builds all, and gives the name and the log of a crate that failed."""
        left = sorted(self.wanted, key=lambda it: -self.chain[it])
        futures = {}
        with concurrent.futures.ThreadPoolExecutor(len(left)) as pool:
            while left or futures:
                for name in [it for it in left if all(one in self.done for one in self.below[it])]:
                    jobs = self.jobs_for(name)
                    if not jobs:
                        break
                    left.remove(name)
                    self.jobs[name] = jobs
                    with self.alone:
                        self.running[name] = ""
                    futures[pool.submit(self.run, name, jobs)] = name
                with self.alone:
                    self.tell()
                for it in concurrent.futures.wait(futures, 1, concurrent.futures.FIRST_COMPLETED).done:
                    name = futures.pop(it)
                    del self.jobs[name]
                    if it.result():
                        processes.end_all()
                        return name, it.result()
        return "", ""


def main(names=(), is_timed=False, jobs=0):
    """Builds these crates. The status is 1 where one fails, whose log is printed."""
    if not shutil.which("rt"):
        print("build: it takes the Rattle kit: rt isn't on PATH", file=sys.stderr)
        return 1
    listed = crates.read()
    if unknown := [it for it in names if it not in listed]:
        print(f"build: crates.txt has no {unknown[0]}", file=sys.stderr)
        return 1
    processes.end_all_at_exit()
    held = os.open(f"{crates.TOP}/crates", os.O_RDONLY)
    try:
        fcntl.flock(held, fcntl.LOCK_EX | fcntl.LOCK_NB)
    except BlockingIOError:
        print("build: waiting for another build in this folder to end", file=sys.stderr)
        fcntl.flock(held, fcntl.LOCK_EX)
    except OSError:
        pass
    build = Build(list(names) or crates.PROGRAMS, jobs)
    name, log = build.all()
    if sys.stderr.isatty():
        print("\r\033[K", end="", file=sys.stderr)
    if name:
        print(f"{log}build: {name} failed", file=sys.stderr)
        return 1
    if is_timed:
        for it, (begun, ended) in build.done.items():
            print(f"    {it}: {ended - begun:.0f} s, from {begun:.0f} to {ended:.0f}", file=sys.stderr)
    print(f"build: done in {time.monotonic() - build.begun:.0f} seconds", file=sys.stderr)
    return 0


if __name__ == "__main__":
    # ./lrlex and ./rolgumzai wait for it
    processes.end_with_parent()
    sys.exit(main(sys.argv[1:]))
