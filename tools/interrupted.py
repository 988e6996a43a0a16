"""Shows that a gate which was stopped doesn't break the next: interrupted.py [--at TEXT]... [-- COMMAND..], ./test without words.

The command is started and stopped as often as there are texts, each time a little after it has printed a line with that text:
first as by Ctrl-C, then by a request to end, then by a kill. Each time nothing of it may be left running. Then it runs to its
end, whose last line is printed. The status is 0 where that says that something passed and nothing failed, nothing was ever left
running, and git sees the tree as before.
"""

import argparse
import os
import re
import signal
import subprocess
import sys
import time

import crates

MOMENTS = ["rt: lrlex_base ", "rt: lrlex_rules ", "rt: lrlex "]
SIGNALS = [signal.SIGINT, signal.SIGTERM, signal.SIGKILL]


def of_tree(started=0):
    """The processes, but for this one and those above it, that work in the tree or in a scratch folder of the one that was started."""
    found, above, own = {}, set(), os.getpid()
    while own:
        above.add(own)
        with open(f"/proc/{own}/stat", encoding="utf-8") as it:
            own = int(it.read().rpartition(")")[2].split()[1])
    for pid in (int(it) for it in os.listdir("/proc") if it.isdigit()):
        try:
            at = os.readlink(f"/proc/{pid}/cwd")
            with open(f"/proc/{pid}/cmdline", "rb") as it:
                words = it.read().replace(b"\0", b" ").decode(errors="replace").strip()
        except OSError:
            continue
        is_of_it = f"{crates.TOP}/" in f"{at}/ {words}" or re.search(rf"/lrlex-[a-z]+-{started}-", f"{at} {words}")
        if pid not in above and words and is_of_it:
            found[pid] = words[:160]
    return found


def stopped(command, text, sign, seconds=3):
    """Starts the command, stops it a little after it has printed the text, and gives what is left running of it."""
    before = of_tree()
    with subprocess.Popen(command, cwd=crates.TOP, stdout=-1, stderr=-2, text=True, errors="replace", start_new_session=True) as it:
        last = ""
        for last in it.stdout:
            if text in last:
                break
        else:
            print(f"interrupted: it ended before it printed {text!r}: {last.strip()}")
        time.sleep(seconds)
        # a terminal's Ctrl-C reaches the group, the others the process alone
        (os.killpg if sign == signal.SIGINT else os.kill)(it.pid, sign)
        began = time.monotonic()
        it.stdout.close()
        try:
            it.wait(20)
        except subprocess.TimeoutExpired:
            print("interrupted: it had not ended after 20 seconds")
        took = time.monotonic() - began
    time.sleep(2)
    left = {pid: words for pid, words in of_tree(it.pid).items() if pid not in before}
    print(f"interrupted: by {sign.name} after {text!r}; ended in {took:.1f} s, {len(left)} processes left", flush=True)
    for pid, words in left.items():
        print(f"    {pid}: {words}", flush=True)
    return left


def changes():
    """What git sees changed in the tree."""
    return subprocess.run(["git", "status", "--porcelain"], cwd=crates.TOP, capture_output=True, text=True, check=False).stdout


def main():
    parser = argparse.ArgumentParser(description="Shows that a gate which was stopped doesn't break the next.")
    parser.add_argument("--at", action="append", metavar="TEXT", help=f"stop after a line with this text; if left out: {MOMENTS}")
    parser.add_argument("command", nargs="*", default=["./test"])
    asked = parser.parse_args()
    before = changes()
    left = [stopped(asked.command, text, SIGNALS[at % len(SIGNALS)]) for at, text in enumerate(asked.at or MOMENTS)]
    last = ""
    with subprocess.Popen(asked.command, cwd=crates.TOP, stdout=-1, stderr=-2, text=True, errors="replace") as it:
        for last in it.stdout:
            print(last, end="", flush=True)
    after = changes()
    if after != before:
        print(f"interrupted: the tree has changed:\n{after}")
    is_well = re.fullmatch(r"[1-9]\d* passed, 0 failed(, \d+ skipped)?", last.strip()) and not any(left) and after == before
    print(f"interrupted: {'passed' if is_well else 'FAILED'}; run to its end, the last line is {last.strip()!r}")
    return 0 if is_well else 1


if __name__ == "__main__":
    sys.exit(main())
