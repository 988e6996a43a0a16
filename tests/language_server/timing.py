"""Keys typed into a document of 1 MB, from the client's write to the diagnostics read: `python3 -m language_server.timing`, in tests/.

`timing RULES TEXT [KEYS]` repeats the text up to 1 MB. It tells the median and the worst of so many keys (1,000) at the front, in
the middle and at the end, what tokens take, and the memory after. Where `lrlex_bench` is built, its own figures follow.
"""

import os
import re
import sys
import time

from language_server.client import Client, ranged
from support import programs

MEGABYTE = 1_000_000


def memory(pid):
    """The memory that a process has, and the most that it had, in KB."""
    with open(f"/proc/{pid}/status", encoding="utf-8") as file:
        lines = dict(line.split(":", 1) for line in file)
    return {key: int(lines[key].split()[0]) for key in ("VmRSS", "VmHWM")}


def spread(times):
    """The median and the worst of these seconds, in milliseconds."""
    times = sorted(times)
    return f"median {times[len(times) // 2] * 1e3:.3f} ms, worst {times[-1] * 1e3:.3f} ms"


def timed(call):
    """The seconds that a call takes, and what it gives."""
    began = time.perf_counter()
    given = call()
    return time.perf_counter() - began, given


def type_keys(client, uri, line, count):
    """Types so many keys at the front of a line, and takes each back. The seconds of each."""
    typed, taken = [], []
    for _ in range(count):
        typed.append(timed(lambda: client.change(uri, ranged((line, 0), (line, 0), "a")))[0])
        taken.append(timed(lambda: client.change(uri, ranged((line, 0), (line, 1), "")))[0])
    return typed, taken


def changed_tokens(client, uri, line, count):
    """The seconds that it takes to be told what so many keys at the front of a line change of the tokens, after each."""
    since, taken = client.tokens(uri), []
    for _ in range(count):
        client.change(uri, ranged((line, 0), (line, 0), "a"))
        seconds, since = timed(lambda: client.tokens_since(uri, since))  # pylint: disable=cell-var-from-loop
        taken.append(seconds)
    client.change(uri, ranged((line, 0), (line, count), ""))
    return taken


def main():
    """Times all."""
    rules, path = sys.argv[1:3]
    keys = int(sys.argv[3]) if len(sys.argv) > 3 else 1000
    with open(path, encoding="utf-8", newline="") as file:
        text = file.read()
    text = (text * (MEGABYTE // len(text) + 1))[:MEGABYTE]
    ends = [found.end() for found in re.finditer("\r\n|\n|\r", text)]
    text, lines = text[:ends[-1]], len(ends)
    uri = "file:///texts/big.txt"
    with Client("--rules", rules) as client:
        client.begin()
        print("an unknown request:", spread([timed(lambda: client.ask("x"))[0] for _ in range(keys)]))
        print("memory", memory(client.process.pid))
        seconds, _ = timed(lambda: client.open(uri, text))
        print(f"didOpen of {len(text.encode())} bytes, {lines} lines: {seconds * 1e3:.1f} ms")
        for name, line in (("front", 0), ("middle", lines // 2), ("end", lines - 1)):
            typed, taken = type_keys(client, uri, line, keys)
            print(f"a key at the {name}: {spread(typed)}; taking it back: {spread(taken)}")
        print("memory", memory(client.process.pid))
        print("all tokens:", spread([timed(lambda: client.tokens(uri))[0] for _ in range(5)]))
        middle = lines // 2
        print("tokens of 60 lines:", spread([timed(lambda: client.tokens_in(uri, (middle, 0), (middle + 60, 0)))[0] for _ in range(50)]))
        for name, line in (("front", 0), ("middle", middle), ("end", lines - 1)):
            print(f"the tokens that a key at the {name} changes: {spread(changed_tokens(client, uri, line, 50))}")
        print("memory", memory(client.process.pid))
    if programs.is_built("lrlex_bench"):
        big = f"{programs.scratch().name}/big.txt"
        with open(big, "w", encoding="utf-8") as file:
            file.write(text)
        print(programs.run([programs.path_of("lrlex_bench"), rules, big, str(keys), "--keys"], cwd=os.getcwd()).out)


if __name__ == "__main__":
    main()
