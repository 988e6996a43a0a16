#!/usr/bin/env python3
"""Times lexing by rule texts of many keywords: bench/keywords.py [COUNT].., 100 to 2,000 if left out.

A rule text has a rule for each of so many of HTML's names of characters, and one each for words and for blanks. Its text has 1 MB of
these names, and of as many other words. The table that it prints has the definition's tables, what building it takes, and MB/s of
`run`, of a scanner, and of the scanner that flex makes of the same rules (-Cf, gcc -O2), if flex and gcc are there. Each lexes the
text 11 times, and the quickest counts. Not part of the gate.
"""

import html.entities
import os
import random
import shutil
import subprocess
import sys
import tempfile

TOP = os.path.dirname(os.path.dirname(os.path.realpath(__file__)))
PROGRAM = f"{TOP}/crates/lrlex_bench/out/lrlex_bench"
SIZE = 1_000_000
TIMES = 11

# What flex makes of rules goes over the text so many times, and prints the quickest in nanoseconds.
FLEX_HEAD = """%option noyywrap nounput noinput
%{
#include <time.h>
static unsigned long count;
%}
%%
"""
FLEX_TAIL = """
%%
int main(int argc, char **argv) {
    FILE *file = fopen(argv[1], "r");
    static char text[SIZE + 2];
    size_t size = fread(text, 1, SIZE, file);
    double best = 1e18;
    for (int i = 0; i < TIMES; i++) {
        struct timespec begin, end;
        YY_BUFFER_STATE state = yy_scan_bytes(text, (int)size);
        count = 0;
        clock_gettime(CLOCK_MONOTONIC, &begin);
        yylex();
        clock_gettime(CLOCK_MONOTONIC, &end);
        yy_delete_buffer(state);
        double took = (end.tv_sec - begin.tv_sec) * 1e9 + (end.tv_nsec - begin.tv_nsec);
        if (took < best) best = took;
    }
    printf("%lu %.0f\\n", count, best);
    return argc != 2;
}
"""


def names():
    """HTML's names of characters, in an order by chance."""
    found = sorted({it.rstrip(";") for it in html.entities.html5})
    random.Random(1).shuffle(found)
    return found


def text_of(keywords):
    """Some 1 MB of the keywords and of as many other words."""
    chance, parts, length = random.Random(2), [], 0
    while length < SIZE - 50:
        word = chance.choice(keywords) if chance.random() < 0.5 else "".join(chance.choices("abcdefghijklmnopqrstuvwxyz", k=chance.randint(2, 9)))
        parts.append(word)
        length += len(word) + 1
    return " ".join(parts)


def measured(folder, keywords):
    """What lrlex_bench prints of the keywords, by its names."""
    rules = "".join(f"{it} 'K{number}'\n" for number, it in enumerate(keywords))
    with open(f"{folder}/rules.l", "w", encoding="utf-8") as it:
        it.write(f"%%\n{rules}[A-Za-z0-9]+ 'word'\n[ ]+ ;\n")
    with open(f"{folder}/text", "w", encoding="utf-8") as it:
        it.write(text_of(keywords))
    told = subprocess.run([PROGRAM, f"{folder}/rules.l", f"{folder}/text", str(TIMES)], check=True, capture_output=True, text=True).stdout
    return dict(line.split(": ", 1) for line in told.splitlines() if ": " in line)


def by_flex(folder, keywords):
    """How many tokens flex's scanner of the same rules finds, and the nanoseconds that it takes. None without flex or gcc."""
    if not shutil.which("flex") or not shutil.which("gcc"):
        return None
    with open(f"{folder}/scanner.l", "w", encoding="utf-8") as it:
        rules = "".join(f'"{it}" count++;\n' for it in keywords)
        it.write(f"{FLEX_HEAD}{rules}[A-Za-z0-9]+ count++;\n[ ]+ ;\n{FLEX_TAIL}".replace("SIZE", str(SIZE)).replace("TIMES", str(TIMES)))
    subprocess.run(["flex", "-Cf", "-o", f"{folder}/scanner.c", f"{folder}/scanner.l"], check=True)
    subprocess.run(["gcc", "-O2", "-w", "-o", f"{folder}/scanner", f"{folder}/scanner.c"], check=True)
    told = subprocess.run([f"{folder}/scanner", f"{folder}/text"], check=True, capture_output=True, text=True).stdout
    return [int(it) for it in told.split()]


def speed(size, nanoseconds):
    """MB/s."""
    return f"{1000 * size / nanoseconds:.0f}"


def main(counts):
    """Measures, and prints the table."""
    if not os.path.isfile(PROGRAM):
        subprocess.run([f"{TOP}/dev", "build", "lrlex_bench"], check=True)
    print("| Keywords | Tables, rows, rules without a table | Build, ms | `run`, MB/s | Scanner | flex -Cf |\n|---|---|---|---|---|---|")
    for count in counts:
        keywords = names()[:count]
        with tempfile.TemporaryDirectory() as folder:
            found = measured(folder, keywords)
            flex = by_flex(folder, keywords)
            size = os.path.getsize(f"{folder}/text")
        if flex and flex[0] != int(found["lexemes"]):
            raise SystemExit(f"keywords: {found['lexemes']} lexemes, and flex finds {flex[0]}")
        tables = ", ".join(f"{int(found[it]):,}" for it in ("tables", "rows of tables", "rules without a table"))
        ours = [speed(1, float(found[f"{it} best ns per byte"])) for it in ("run", "scan")]
        row = [f"{count:,}", tables, found["build ms"], *ours, speed(size, flex[1]) if flex else ""]
        print("| " + " | ".join(row) + " |", flush=True)


if __name__ == "__main__":
    main([int(it) for it in sys.argv[1:]] or [100, 433, 1_000, 1_300, 2_000])
