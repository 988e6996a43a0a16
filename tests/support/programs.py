"""The built programs: where they are, and how they are run.

A test whose program isn't built is skipped. The environment variable LRLEX_PROGRAMS names a folder with other programs to try.
"""

import functools
import os
import shutil
import subprocess
import tempfile
import unittest
from typing import NamedTuple

TOP = os.path.dirname(os.path.dirname(os.path.dirname(os.path.abspath(__file__))))


class Outcome(NamedTuple):
    """What a run wrote to standard output and to standard error, and its status."""

    out: str = ""
    err: str = ""
    status: int = 0


def path_of(name):
    """Where the program of this name is, built or not."""
    folder = os.environ.get("LRLEX_PROGRAMS") or f"{TOP}/crates/{name}/out"
    return f"{folder}/{name}"


def is_built(name):
    """Whether there is such a program."""
    return os.access(path_of(name), os.X_OK)


def need(name):
    """Skips the test where the program isn't built."""
    if not is_built(name):
        raise unittest.SkipTest(f"{name} isn't built: ./dev build {name}")


def by_rattle(name):
    """The same program, built by the second compiler. None where the gate hasn't left it."""
    path = f"{path_of(name)}.by-rattle"
    return path if os.access(path, os.X_OK) else None


def by_each_compiler(name):
    """The program as each compiler builds it, as far as it is there."""
    return [path for path in [path_of(name), by_rattle(name)] if path]


def as_bytes(text):
    """The bytes of a text, those of `as_text` also. Bytes stay as they are."""
    return text.encode(errors="surrogateescape") if isinstance(text, str) else text


def as_text(data):
    """Bytes as a text. Those that aren't UTF-8 become lone surrogates, so that two texts are equal where their bytes are."""
    return data.decode(errors="surrogateescape")


def run(words, stdin="", cwd=TOP, environment=None, timeout=60):
    """The outcome of these words."""
    ended = subprocess.run(
        words, cwd=cwd, input=as_bytes(stdin), env=environment, capture_output=True, timeout=timeout, check=False
    )
    return Outcome(as_text(ended.stdout), as_text(ended.stderr), ended.returncode)


def read(path):
    """The text of a file of the repository."""
    with open(f"{TOP}/{path}", "rb") as file:
        return as_text(file.read())


def fill(folder, files):
    """Writes the files into the folder, each by its path in it."""
    for name, text in files.items():
        path = f"{folder}/{name}"
        os.makedirs(os.path.dirname(path), exist_ok=True)
        with open(path, "wb") as file:
            file.write(as_bytes(text))


@functools.lru_cache(maxsize=None)
def scratch():
    """A folder that is there until the tests end."""
    return tempfile.TemporaryDirectory(prefix="lrlex-tests-")


@functools.lru_cache(maxsize=None)
def preloaded(name):
    """The path of the library that cc makes of tools/preload/NAME.c, to be preloaded. Skips the test where there is no cc."""
    if not shutil.which("cc"):
        raise unittest.SkipTest("there is no cc")
    path = f"{scratch().name}/{name}.so"
    source = f"{TOP}/tools/preload/{name}.c"
    subprocess.run(["cc", "-O2", "-shared", "-fPIC", "-o", path, source, "-ldl"], check=True)
    return path
