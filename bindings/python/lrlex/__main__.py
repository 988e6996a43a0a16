"""Prints the tokens of a text: python3 -m lrlex RULES INPUT [--json], or what is wrong with a rule file: python3 -m lrlex --check RULES.

Without --json it writes what the program lrlex does. With it, each token is a line of JSON: its name, text, start, end and id; where
lexing stops, standard error shows the place. The status is that of the program: 0 if the whole text is lexed, and 1 for anything else.
With --check it writes all faults of the rule file, or warnings of what is legal in it and hardly meant. The status is 0 if there are
warnings alone.
"""

from __future__ import annotations

import argparse
import json
import os
import sys
from typing import NoReturn

from . import Definition, LexError, RulesError, check, check_report
from ._c import FLAGS


class Refused(Exception):
    """What is said where a file can't be read, or nothing can be written."""


class Parser(argparse.ArgumentParser):
    """A command line whose faults give the status 1."""

    def error(self, message: str) -> NoReturn:
        """Says how the command line is written, and ends."""
        self.print_usage(sys.stderr)
        self.exit(1, f"{self.prog}: error: {message}\n")


def parsed(words: list[str]) -> argparse.Namespace:
    """The command line."""
    parser = Parser(prog="python3 -m lrlex", description="Prints the tokens of a text, or what is wrong with a rule file.")
    parser.add_argument("rules", metavar="RULES", help="a rule file, or - for standard input")
    parser.add_argument("input", metavar="INPUT", nargs="?", help="the text, or - for standard input")
    printed = parser.add_mutually_exclusive_group()
    printed.add_argument("--json", action="store_true", help="print each token as a line of JSON")
    printed.add_argument("--check", action="store_true", help="print all faults of RULES, or warnings; there is no INPUT then")
    for name in FLAGS:
        parser.add_argument(f"--{name.replace('_', '-')}", dest=name, choices=["true", "false"])
    asked = parser.parse_args(words)
    if asked.check == (asked.input is not None):
        parser.error("--check takes no INPUT" if asked.check else "the following arguments are required: INPUT")
    if asked.rules == asked.input == "-":
        parser.error("RULES and INPUT can't both be standard input")
    return asked


def read(path: str) -> str:
    """The file's text, with its line ends as they are."""
    is_input = path == "-"
    try:
        with open(0 if is_input else path, "rb", closefd=not is_input) as file:
            return file.read().decode()
    except UnicodeDecodeError as fault:
        raise Refused(f"File {path} is not UTF-8") from fault
    except OSError as fault:
        raise Refused(f"Can't open file {path}") from fault


def write(definition: Definition, text: str, asked: argparse.Namespace) -> int:
    """Writes the tokens, and gives the status: 1 if lexing stops."""
    out, status = sys.stdout.buffer, 0
    try:
        for token in definition.lex(text):
            line = json.dumps(token._asdict(), ensure_ascii=False) if asked.json else f"{token.name} {token.text}"
            out.write(f"{line}\n".encode())
    except LexError as stop:
        status = 1
        if asked.json:
            print(definition.stop_report(text, asked.input), end="", file=sys.stderr)
        else:
            out.write(f"Couldn't lex input starting at byte {stop.byte}\n".encode())
    out.flush()
    return status


def write_findings(path: str, flags: dict[str, bool]) -> int:
    """Writes what is found in a rule file, and gives the status: 1 if it has a fault."""
    rules, out = read(path), sys.stdout.buffer
    found = check(rules, **flags)
    if found:
        out.write(check_report(rules, "stdin" if path == "-" else path, **flags).encode())
        out.flush()
    return int(any(it.is_fault for it in found))


def main(words: list[str]) -> int:
    """Lexes the input or checks the rules, and gives the status: 1 if lexing stops, or anything is refused."""
    asked = parsed(words)
    flags = {name: value == "true" for name in FLAGS if (value := getattr(asked, name))}
    try:
        if asked.check:
            return write_findings(asked.rules, flags)
        rules, text = read(asked.rules), read(asked.input)
        return write(Definition.from_str(rules, **flags), text, asked)
    except (Refused, RulesError) as fault:
        print(fault, file=sys.stderr)
    except MemoryError:
        print("Out of memory", file=sys.stderr)
    except OSError:
        print("Can't write", file=sys.stderr)
        # What is left to be written goes nowhere: Python writes it at the end, and would give another status.
        os.dup2(os.open(os.devnull, os.O_WRONLY), sys.stdout.fileno())
    return 1


if __name__ == "__main__":
    sys.exit(main(sys.argv[1:]))
