"""lexing.py RULES INPUT K [WAY]: processor time of Definition.spans and of a Scanner, K times each, or of the way that is named,
`spans` or `scanner`."""

import sys
import time

import lrlex


def main(rules, path, times, way=""):
    """Prints the microseconds and the tokens of each."""
    with open(rules, encoding="utf-8", newline="") as file:
        definition = lrlex.Definition.from_str(file.read())
    with open(path, encoding="utf-8", newline="") as file:
        text = file.read()
    for _ in range(int(times)):
        for name, count in [
            ("spans", lambda: len(definition.spans(text))),
            ("scanner", lambda: sum(it.id is not None for it in definition.scanner(text))),
        ]:
            if way in ("", name):
                before = time.process_time()
                found = count()
                print(f"Python {name} {round((time.process_time() - before) * 1e6)} {found}")


if __name__ == "__main__":
    main(*sys.argv[1:])
